//! The games of document 01, P1 to P14 among them, and the limits.

mod games;

use games::{Carried, B, C, CARRIED, D, TABLES};
use oracle::{mark_bytes, Answer, Edit, Memory, Oracle, Relation, Trap};

/// A game of n vertices, each with the first m / n vertices as successors.
fn regular(n: usize, m: usize) -> Vec<u16> {
    let degree = m / n;
    let mut words = vec![n as u16, m as u16];
    words.extend(vec![0; 2 * n]);
    words.extend((0..m).map(|i| (i / degree) as u16));
    words.extend((0..m).map(|i| (i % degree) as u16));
    words
}

fn refused(number: u32, place: usize) -> Answer {
    Answer { number, place, ..Answer::default() }
}

fn memory_for(game: &[u16]) -> Memory {
    let n = game[0] as usize;
    Memory {
        marks: vec![7; mark_bytes(n)],
        spare: vec![7; mark_bytes(n)],
        classes: vec![7; n],
        reduction: vec![7; game.len()],
        output: vec![7; game.len()],
        ..Memory::default()
    }
}

/// The words of quotient and reduced table; those beyond are old.
fn tables(game: &[u16]) -> [Vec<u16>; 2] {
    [Oracle::quotient, Oracle::reduce].map(|write| {
        let mut memory = memory_for(game);
        let answer = write(&Oracle::exact(), game, &mut memory);
        assert_eq!(answer.number, 0);
        let words = 2 + 2 * answer.vertices as usize + 2 * answer.edges as usize;
        assert!(memory.output.split_off(words).iter().all(|&word| word == 7));
        memory.output
    })
}

#[test]
fn p1_single_vertex() {
    let game = [1, 1, 1, 1, 0, 0];
    let mut memory = memory_for(&game);
    assert_eq!(
        Oracle::exact().order(&game, &mut memory),
        Answer { passes: 1, ..Answer::default() }
    );
    assert_eq!((memory.marks, memory.spare), (vec![1], vec![1]));
    let mut memory = memory_for(&game);
    assert_eq!(
        Oracle::exact().classes(&game, &mut memory),
        Answer { classes: 1, ..Answer::default() }
    );
    assert_eq!(memory.classes, [0]);
}

#[test]
fn p2_to_p6_refusals_of_the_reader() {
    let rows: [(&[u16], u32, usize); 5] = [
        (&[], 1, 0),
        (&[0, 0], 2, 0),
        (&[1, 0, 0, 0], 8, 0),
        (&[1, 1, 0, 2, 0, 0], 5, 3),
        (&[1, 1, 0, 0, 0, 1], 6, 5),
    ];
    for (game, number, place) in rows {
        assert_eq!(Oracle::exact().read(game), refused(number, place));
    }
}

#[test]
fn p7_a_loop_written_twice() {
    let answer = Answer { vertices: 1, edges: 2, different: 1, ..Answer::default() };
    assert_eq!(Oracle::exact().read(&[1, 2, 0, 0, 0, 0, 0, 0]), answer);
}

#[test]
fn p8_game_b() {
    let mut memory = memory_for(&B);
    let answer = Oracle::exact().reduce(&B, &mut memory);
    assert_eq!(answer, Answer { classes: 2, vertices: 2, edges: 2, ..Answer::default() });
    assert_eq!(memory.marks, [85, 1]);
    assert_eq!(memory.output, [2, 2, 0, 1, 0, 0, 0, 1, 1, 1, 7, 7, 7, 7]);
}

#[test]
fn p9_game_c() {
    let mut memory = memory_for(&C);
    assert_eq!(Oracle::exact().order(&C, &mut memory).passes, 2);
    // Marks 7 and 11.
    assert_eq!((memory.marks[0] >> 7, memory.marks[1] >> 3 & 1), (1, 0));
    let quotient = Oracle::exact().quotient(&C, &mut memory);
    assert_eq!((quotient.classes, quotient.edges), (5, 7));
}

#[test]
fn p8_to_p10_and_d_word_by_word() {
    for (game, quotient, reduced) in TABLES {
        assert_eq!(tables(game), [quotient, reduced]);
    }
}

#[test]
fn p11_relation_of_one_pair() {
    let mut memory = memory_for(&C);
    memory.marks.fill(0);
    assert_eq!(Oracle::exact().accept_relation(&C, &memory), Answer::default());
    // Mark 2 × 5 + 1.
    memory.marks[1] = 1 << 3;
    assert_eq!(Oracle::exact().accept_relation(&C, &memory), refused(10, 11));
}

/// Nine marks take a byte and a bit, 25 take three bytes and a bit, and 36 take four bytes and four bits.
#[test]
fn marks_eight_in_a_byte() {
    assert_eq!([1, 2, 3, 4, 5, 6, 512].map(mark_bytes), [1, 1, 2, 2, 4, 5, 32_768]);
    let mut memory = Memory { marks: vec![255; 3], spare: vec![254; 4], ..Memory::default() };
    Oracle::exact().order(&B, &mut memory);
    assert_eq!((memory.marks, memory.spare), (vec![85, 1, 255], vec![85, 1, 254, 254]));
    let relation = Relation::of(5, 5, |v, w| (v, w) == (4, 4) || v == 0);
    assert_eq!(relation.bytes(), [31, 0, 0, 1]);
    let judge = |game: &[u16], marks: &[u8]| {
        let memory = Memory { marks: marks.to_vec(), ..Memory::default() };
        Oracle::exact().accept_relation(game, &memory)
    };
    assert_eq!(judge(&B, &[85, 1]), Answer::default());
    assert_eq!(judge(&B, &[85, 1, 255]), Answer::default(), "a byte beyond");
    for bit in 1..8 {
        // (0, 1) is marked, too, and would be refused with 10.
        assert_eq!(judge(&B, &[2, 1 << bit]), refused(41, 1));
    }
    assert_eq!(judge(&C, &[0, 0, 0, 128]), refused(41, 3));
    assert_eq!(judge(&D, &[0, 0, 0, 0, 16]), refused(41, 4));
    assert_eq!(judge(&D, &[0, 0, 0, 0, 8]), refused(10, 35));
    // Sixteen marks leave no bit unused.
    let four = [4, 4, 0, 1, 2, 3, 0, 0, 0, 0, 0, 1, 2, 3, 0, 1, 2, 3];
    assert_eq!(judge(&four, &[33, 132]), Answer::default());
    assert_eq!(judge(&four, &[0, 64]), refused(10, 14));
}

#[test]
fn p12_to_p14_plans() {
    let plan = [3, 3, 0, 2, 4, 0, 1, 2, 1, 2, 2];
    assert_eq!(Oracle::exact().accept_plan(&C, 0, &plan), Answer::default());
    assert_eq!(Oracle::exact().accept_plan(&C, 1, &plan), refused(15, 0));
    let one = [1, 1, 1, 1, 0, 0];
    assert_eq!(Oracle::exact().accept_plan(&one, 0, &[1, 1, 0, 0, 0]), refused(16, 0));
}

#[test]
fn game_d() {
    let mut memory = memory_for(&D);
    let answer = Oracle::exact().quotient(&D, &mut memory);
    assert_eq!(memory.classes, [0, 1, 2, 3, 4, 0]);
    assert_eq!(answer, Answer { classes: 5, vertices: 5, edges: 6, ..Answer::default() });
}

#[test]
fn limits() {
    let accepted =
        |vertices, edges, different| Answer { vertices, edges, different, ..Answer::default() };
    assert_eq!(Oracle::exact().read(&regular(512, 4096)), accepted(512, 4096, 4096));
    assert_eq!(Oracle::exact().read(&regular(257, 257)), accepted(257, 257, 257));
    assert_eq!(Oracle::exact().read(&regular(64, 4096)), accepted(64, 4096, 4096));
    let loops = [&[1, 4096, 0, 0][..], &[0; 8192]].concat();
    assert_eq!(Oracle::exact().read(&loops), accepted(1, 4096, 1));
    assert_eq!(Oracle::exact().read(&regular(513, 513)), refused(2, 0));
    assert_eq!(Oracle::exact().read(&regular(1, 4097)), refused(3, 1));
    let mut memory = memory_for(&B);
    memory.marks.pop();
    let old = memory.clone();
    assert_eq!(Oracle::exact().order(&B, &mut memory), refused(21, 2));
    assert_eq!(Oracle::exact().accept_relation(&B, &memory), refused(21, 2));
    assert_eq!(memory, old);
}

#[test]
fn lengths_in_their_sequence() {
    let mut memory = Memory::default();
    let mut seen = Vec::new();
    for _ in 0..5 {
        let answer = Oracle::exact().reduce(&B, &mut memory);
        seen.push((answer.number, answer.place));
        match answer.number {
            21 => memory.marks.resize(2, 5),
            22 => memory.spare.resize(2, 5),
            23 => memory.classes.resize(3, 5),
            _ => memory.output.resize(14, 5),
        }
    }
    assert_eq!(seen, [(21, 2), (22, 2), (23, 3), (24, 14), (0, 0)]);
}

#[test]
fn kinds() {
    let kinds = [(1..=8, 1), (9..=10, 2), (11..=16, 3), (21..=24, 4), (31..=99, 5)];
    for number in (0..200).chain([u32::MAX]) {
        let kind = kinds.iter().find(|(range, _)| range.contains(&number)).map_or(0, |row| row.1);
        assert_eq!(Oracle::exact().kind(number), kind);
    }
}

#[test]
fn games_by_the_seed() {
    // The first states of seed 1 are 1015568748, 1586005467, 2165703038 and 3027450565.
    let mut memory = Memory { output: vec![7; 9], ..Memory::default() };
    let answer = Oracle::exact().seed([1, 1, 2, 65_535], &mut memory);
    assert_eq!(answer, Answer { vertices: 1, edges: 2, ..Answer::default() });
    assert_eq!(memory.output, [1, 2, 15_496, 0, 0, 0, 0, 0, 7]);
    let answer = Oracle::exact().seed([1, 3, 2, 4], &mut memory);
    assert_eq!(answer, refused(32, 20));
    assert_eq!(Oracle::exact().seed([1, 3, 17, 4], &mut memory), refused(31, 0));
    assert_eq!(Oracle::exact().seed([1, 513, 1, 4], &mut memory), refused(31, 0));
    assert_eq!(Oracle::exact().seed([1, 512, 9, 4], &mut memory), refused(31, 0));
    assert_eq!(Oracle::exact().seed([1, 512, 8, 4], &mut memory), refused(32, 9218));
    memory.output = vec![7; 20];
    Oracle::exact().seed([1, 3, 2, 4], &mut memory);
    let table = [3, 6, 0, 0, 0, 0, 0, 1, 0, 0, 1, 1, 2, 2, 1, 1, 2, 0, 0, 2];
    assert_eq!(memory.output, table);
}

#[test]
fn converted_games() {
    let mut memory = Memory { output: vec![7; 11], ..Memory::default() };
    let answer = Oracle::exact().convert(&[2, 2, 3, 0, 0, 1, 0, 1, 1, 0], &mut memory);
    assert_eq!(answer, Answer { vertices: 2, edges: 2, ..Answer::default() });
    assert_eq!(memory.output, [2, 2, 1, 4, 0, 1, 0, 1, 1, 0, 7]);
    let large = [2, 2, 65_535, 0, 0, 1, 0, 1, 1, 0];
    assert_eq!(Oracle::exact().convert(&large, &mut memory), refused(36, 3));
    memory.output.truncate(9);
    assert_eq!(Oracle::exact().convert(&large, &mut memory), refused(24, 10));
    assert_eq!(Oracle::exact().convert(&[1, 0, 0, 0], &mut memory), refused(8, 0));
}

/// A carried plan's answer, and the words of its output; those beyond are old.
fn carried(oracle: Oracle, row: &Carried) -> (Answer, Vec<u16>) {
    let Carried { class, game, player, plan, vertex, .. } = *row;
    let carry = if class { Oracle::carry_class } else { Oracle::carry };
    let mut memory = Memory { output: vec![7; 40], ..memory_for(game) };
    let answer = carry(&oracle, game, player, plan, vertex, &mut memory);
    (answer, memory.output)
}

#[test]
fn carried_plans_word_by_word() {
    for row in &CARRIED {
        let (answer, output) = carried(Oracle::exact(), row);
        let [positions, links] = [row.words[0], row.words[1]].map(u32::from);
        let (classes, edges) = if row.class { (5, 6) } else { (0, 0) };
        let sizes = Answer { classes, vertices: classes, edges, ..Answer::default() };
        assert_eq!(answer, Answer { positions, links, ..sizes });
        let (written, beyond) = output.split_at(row.words.len());
        assert_eq!(written, row.words);
        assert!(beyond.iter().all(|&word| word == 7));
        assert_eq!(Oracle::exact().accept_plan(row.game, row.player, written), Answer::default());
    }
}

#[test]
fn carried_plans_tell_each_trap() {
    let rows = [
        (Trap::LinksBeforeVertices, 0),
        (Trap::LastKeepingLink, 1),
        (Trap::DepthFirst, 1),
        (Trap::RepeatGivesLinks, 2),
        (Trap::HighestSuccessor, 3),
        (Trap::OwnExchangedForOdd, 4),
        (Trap::LastOwnLink, 5),
        (Trap::OrderNotTurnedForOdd, 6),
        (Trap::VertexAmongClasses, 7),
    ];
    for (trap, row) in rows {
        let row = &CARRIED[row];
        assert_ne!(carried(Oracle::with(trap), row), carried(Oracle::exact(), row), "{trap:?}");
    }
}

#[test]
fn refusals_to_carry() {
    let row = &CARRIED[6];
    let refuse = |plan, vertex, output: usize| {
        let mut memory = Memory { output: vec![7; output], ..memory_for(row.game) };
        let answer = Oracle::exact().carry(row.game, row.player, plan, vertex, &mut memory);
        assert!(memory.output.iter().all(|&word| word == 7));
        // 0 is below 1, and each vertex below itself.
        let order = [0b0010_0011, 0b1000_0100];
        let held = if answer.number > 32 { order } else { [7; 2] };
        assert_eq!((&memory.marks[..], &memory.spare[..]), (&held[..], &held[..]));
        answer
    };
    assert_eq!(refuse(row.plan, 4, 8), refused(33, 4));
    assert_eq!(refuse(row.plan, 3, 8), refused(33, 3));
    assert_eq!(refuse(row.plan, 0, 7), refused(35, 8));
    // Odd goes from 0 to 3, too, but 1 isn't below 0.
    assert_eq!(refuse(&[2, 2, 0, 3, 0, 1, 1, 1], 1, 8), refused(33, 1));
    assert_eq!(refuse(&row.plan[..7], 4, 0), refused(12, 0));
    assert_eq!(refuse(&[2, 2, 0, 2, 0, 1, 1, 1], 0, 0), refused(16, 1));
}

#[test]
fn report_of_b() {
    let bytes: Vec<u8> = B.iter().flat_map(|word| word.to_le_bytes()).collect();
    let text = "game 3 3\npasses 1\nclasses 2\n\
                vertex 0 class 0\nvertex 1 class 1\nvertex 2 class 0\n\
                class 0 members 2 edges 1\nclass 1 members 1 edges 1\ntotal 3 2\nreduced 2 2\n";
    assert_eq!(Oracle::exact().report(&bytes), text);
    assert_eq!(Oracle::exact().report(&bytes[..27]), text, "a last half word gets high byte 0");
    assert_eq!(Oracle::exact().report(&[1, 0, 0, 0, 0, 0, 0, 0]), "refused 8 at 0\n");
    assert_eq!(Oracle::exact().report(&[]), "refused 1 at 0\n");
    let long = [[1, 0, 1, 0].repeat(4), vec![9; 20_000]].concat();
    assert_eq!(Oracle::exact().report(&long), "refused 4 at 9219\n");
}

/// The worked edits of docs/CONTRACT.md, by answer and words.
#[test]
fn edits_of_game_b() {
    let b: &[u16] = &[3, 3, 0, 1, 0, 0, 0, 1, 0, 1, 2, 1, 1, 1];
    let mut memory = Memory { table: [b, &[9; 2]].concat(), ..memory_for(b) };
    let mut short = Memory { table: [b, &[9]].concat(), ..memory_for(b) };
    assert_eq!(Oracle::exact().edit(Edit::Add, (0, 2), &mut short), refused(39, 3));
    let edited = Answer { classes: 3, vertices: 3, edges: 4, ..Answer::default() };
    assert_eq!(Oracle::exact().edit(Edit::Add, (0, 2), &mut memory), edited);
    assert_eq!(memory.table, [3, 4, 0, 1, 0, 0, 0, 1, 0, 1, 2, 0, 1, 1, 1, 2]);
    assert_eq!(memory.classes, [0, 1, 2]);
    for (edge, place) in [((0, 2), 0), ((0, 3), 0), ((3, 0), 3)] {
        assert_eq!(Oracle::exact().edit(Edit::Add, edge, &mut memory), refused(37, place));
    }
    let edited = Answer { classes: 2, vertices: 3, edges: 3, ..Answer::default() };
    assert_eq!(Oracle::exact().edit(Edit::Remove, (0, 2), &mut memory), edited);
    assert_eq!(memory.table, [b, &[0; 2]].concat());
    assert_eq!(Oracle::exact().edit(Edit::Remove, (0, 1), &mut memory), refused(38, 0));
}

/// The worked previews of docs/CONTRACT.md, by answer and words.
#[test]
fn previews_of_game_b() {
    let b: &[u16] = &[3, 3, 0, 1, 0, 0, 0, 1, 0, 1, 2, 1, 1, 1];
    let preview = |edit, edge, words: usize| {
        let mut memory = Memory { table: vec![9; words], ..memory_for(b) };
        let answer = Oracle::exact().preview(edit, edge, b, &mut memory);
        (answer, memory)
    };
    let (answer, memory) = preview(Edit::Add, (0, 2), 17);
    assert_eq!(answer, Answer { classes: 3, vertices: 3, edges: 4, ..Answer::default() });
    assert_eq!(memory.table, [3, 4, 0, 1, 0, 0, 0, 1, 0, 1, 2, 0, 1, 1, 1, 2, 9]);
    assert_eq!(memory.classes, [0, 1, 2]);
    for (edit, edge, words, expected) in [
        (Edit::Add, (0, 2), 15, refused(39, 3)),
        (Edit::Add, (0, 2), 13, refused(24, 14)),
        (Edit::Add, (0, 1), 17, refused(37, 0)),
        (Edit::Remove, (0, 1), 17, refused(38, 0)),
    ] {
        let (answer, memory) = preview(edit, edge, words);
        assert_eq!(answer, expected);
        assert_eq!(memory, Memory { table: vec![9; words], ..memory_for(b) });
    }
}

/// The worked replays of docs/CONTRACT.md, by answer and words.
#[test]
fn replays_on_game_b() {
    let b: &[u16] = &[3, 3, 0, 1, 0, 0, 0, 1, 0, 1, 2, 1, 1, 1];
    let mut memory = Memory { table: [b, &[9; 3]].concat(), ..memory_for(b) };
    // 0 to 2 comes, and 0 to 1 goes.
    let edited = Answer { classes: 3, vertices: 3, edges: 3, entries: 2, ..Answer::default() };
    assert_eq!(Oracle::exact().replay(&[2, 0, 0, 2, 1], &mut memory), edited);
    assert_eq!(memory.table, [3, 3, 0, 1, 0, 0, 0, 1, 1, 2, 0, 1, 1, 2, 0, 0, 9]);
    // 1 to 2 comes, and 0 keeps its last edge.
    let stopped = Answer { entries: 1, ..refused(38, 0) };
    assert_eq!(Oracle::exact().replay(&[2, 1, 0, 2, 2], &mut memory), stopped);
    assert_eq!(memory.table, [3, 4, 0, 1, 0, 0, 0, 1, 1, 2, 0, 1, 1, 1, 2, 2, 9]);
    for trace in [&[][..], &[1], &[1, 0], &[0, 0], &[4097]] {
        assert_eq!(Oracle::exact().replay(trace, &mut memory), refused(40, 0));
    }
}
