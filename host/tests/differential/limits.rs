//! The largest sizes, and one beyond them.

use crate::calls::{Call, Case, Outcome};
use crate::carries::{room, round};
use crate::{edits, previews, replays, verdicts};
use generator::{
    chain, complete, largest_plan, opponents, plans_at_limits, random, round_of_loops, round_ring,
    Lcg, Table,
};
use oracle::{mark_bytes, Memory, Oracle};
use std::sync::OnceLock;

/// Memory of the exact lengths.
pub fn exact_memory(table: &Table) -> Memory {
    let n = table.n();
    Memory {
        marks: vec![9; mark_bytes(n)],
        spare: vec![8; mark_bytes(n)],
        classes: vec![7; n],
        output: vec![6; table.words().len()],
        ..Memory::default()
    }
}

/// The largest games: dense ones of 64 and 512 vertices, one of 511, where bits of the last byte are unused, a
/// chain of 256, whose passes are many, and the largest plan's.
pub fn largest_games() -> Vec<Table> {
    let mut lcg = Lcg::new(77);
    let mut games: Vec<Table> =
        [1, 2, 8].map(|priorities| random(&mut lcg, 512, 4096, priorities)).into();
    games.extend([complete(64), random(&mut lcg, 511, 4096, 2), chain(256)]);
    games.push(largest_plan(&mut lcg, 512).0);
    games
}

/// Cases at the largest sizes, each with its outcome by the oracle, which takes long and is worked out once.
pub fn largest() -> &'static [(Case, Outcome)] {
    static LARGEST: OnceLock<Vec<(Case, Outcome)>> = OnceLock::new();
    LARGEST.get_or_init(|| {
        let with_outcome = |case: Case| {
            let outcome = case.expected(&Oracle::exact());
            (case, outcome)
        };
        largest_cases().into_iter().map(with_outcome).collect()
    })
}

/// A case for each call with a game at the largest sizes; the relation judged is the order.
fn largest_cases() -> Vec<Case> {
    let mut cases = Vec::new();
    for table in largest_games() {
        let words = table.words();
        let mut with_order = exact_memory(&table);
        Oracle::exact().order(&words, &mut with_order);
        let mut with_governed = exact_memory(&table);
        Oracle::exact().governed_order(&words, &mut with_governed);
        cases.extend(Call::ON_MEMORY.map(|call| match call {
            Call::AcceptRelation => Case::on_memory(call, &words, with_order.clone()),
            Call::AcceptGoverned => Case::on_memory(call, &words, with_governed.clone()),
            _ => Case::on_memory(call, &words, exact_memory(&table)),
        }));
    }
    // The oracle takes long for this one, so that it has no more than one call.
    cases.push(Case::on_memory(Call::Order, &chain(512).words(), exact_memory(&chain(512))));
    let (table, plan) = largest_plan(&mut Lcg::new(78), 512);
    cases.extend([0, 1].map(|player| Case::of_plan(&table.words(), player, plan.words())));
    cases.extend(largest_carries());
    // Carried, these plans have as many links as there may be, the first also as many positions.
    for (n, positions, around) in [(4, 1024, 0..1024), (64, 64, 0..4)] {
        let table = opponents(complete(n), 0);
        for call in Call::CARRYING {
            let plan = round(call, &table, positions, around.clone()).words();
            cases.push(Case::of_carrying(call, &table.words(), 0, &plan, 1, room(&table)));
        }
    }
    cases.push(Case::of_seed([7, 512, 8, 65_535], vec![6; 9218]));
    cases.extend(edits::at_the_limit());
    cases.extend(previews::at_the_limit());
    cases.push(replays::at_the_limit());
    cases.push(verdicts::at_the_limit());
    cases
}

/// Plans on games of 512 vertices that, carried, have as many links as there may be; the first two also as
/// many positions.
fn largest_carries() -> Vec<Case> {
    let mut cases = Vec::new();
    for (degree, round) in [(4, 8), (8, 4)] {
        let (table, plan) = round_ring(512, degree, round, 0);
        for call in Call::CARRYING {
            let plan = match call {
                Call::CarryClass => round_of_loops(round, 0..round),
                _ => plan.clone(),
            };
            let (game, plan) = (table.words(), plan.words());
            cases.push(Case::of_carrying(call, &game, 0, &plan, 511, room(&table)));
        }
    }
    cases
}

/// Compares the case's outcomes; the number that both give.
pub fn agree(case: &Case) -> u32 {
    let expected = case.expected(&Oracle::exact());
    assert_eq!(case.actual(), expected, "{:?}", case.call);
    expected.answer.number
}

#[test]
fn largest_sizes_agree() {
    for (case, expected) in largest() {
        assert!(case.actual() == *expected, "{:?} differs", case.call);
    }
    let accepted = |call: Call| {
        let mut of_call = largest().iter().filter(|(case, _)| case.call == call);
        of_call.any(|(case, expected)| vertices(case) == 512 && expected.answer.number == 0)
    };
    for call in Call::all() {
        assert!(accepted(call), "{call:?} accepts no game of 512 vertices");
    }
}

/// The vertices of the game that a call reads, edits or draws.
fn vertices(case: &Case) -> u32 {
    match case.call {
        Call::Seed => case.seed[1],
        Call::AddEdge | Call::RemoveEdge | Call::Replay => case.memory.table[0].into(),
        _ => case.game[0].into(),
    }
}

#[test]
fn largest_carries_reach_both_limits() {
    let sizes = largest_carries().into_iter().map(|case| {
        let answer = case.actual().answer;
        (answer.number, answer.positions, answer.links)
    });
    let largest = [(0, 4096, 16_384); 2];
    assert_eq!(sizes.collect::<Vec<_>>(), [largest, [(0, 2048, 16_384); 2]].concat());
}

#[test]
fn one_beyond_a_limit_is_refused() {
    let game = |n: usize, m: usize| {
        let edges = (0..m).map(|i| ((i % n) as u16, (i / n) as u16)).collect();
        Table { priorities: vec![0; n], owners: vec![1; n], edges }
    };
    for (n, m, number) in
        [(512, 4096, 0), (513, 4096, 2), (512, 4097, 3), (64, 4096, 0), (257, 4096, 0)]
    {
        let table = game(n, m);
        for call in Call::ON_MEMORY {
            let mut memory = exact_memory(&table);
            memory.marks.fill(0);
            let case = Case::on_memory(call, &table.words(), memory);
            assert_eq!(agree(&case), number, "{call:?}");
        }
    }
}

/// Plans that break a limit of refusal 12 and nothing else, and plans that keep it, by every call that judges
/// a plan.
#[test]
fn plans_at_their_limits() {
    for player in [0, 1] {
        let (table, plans) = plans_at_limits(player);
        for (plan, within) in plans {
            let (game, words) = (table.words(), plan.words());
            assert_eq!(words.len(), 2 + words[0] as usize + 2 * words[1] as usize);
            for call in [Call::AcceptPlan, Call::Carry, Call::CarryClass, Call::Verdict] {
                let case = Case::of_carrying(call, &game, player.into(), &words, 0, room(&table));
                agree(&case);
                let answer = case.actual().answer;
                let number = if within { 0 } else { 12 };
                assert_eq!((answer.number, answer.place), (number, 0), "{call:?}");
            }
        }
    }
}

#[test]
fn one_byte_or_word_short_is_refused() {
    type Shorten = fn(&mut Memory);
    let shortened: [(u32, Shorten); 4] = [
        (21, |memory| memory.marks.truncate(memory.marks.len() - 1)),
        (22, |memory| memory.spare.truncate(memory.spare.len() - 1)),
        (23, |memory| memory.classes.truncate(memory.classes.len() - 1)),
        (24, |memory| memory.output.truncate(memory.output.len() - 1)),
    ];
    for table in [chain(20), random(&mut Lcg::new(79), 512, 600, 3)] {
        for (number, shorten) in shortened {
            let mut memory = exact_memory(&table);
            shorten(&mut memory);
            let case = Case::on_memory(Call::Reduce, &table.words(), memory);
            assert_eq!(agree(&case), number);
        }
    }
}

/// What is to be lent by the safe functions is what the oracle asks for.
#[test]
fn bytes_to_lend() {
    for vertices in 0..=600 {
        assert_eq!(raskjomi::mark_bytes(vertices), mark_bytes(vertices));
    }
    for n in 1..=raskjomi::MOST_VERTICES {
        let edges = (0..n as u16).map(|v| (v, v)).collect();
        let loops = Table { priorities: vec![0; n], owners: vec![0; n], edges };
        let size = raskjomi::read(&loops.words()).expect("a game");
        assert_eq!(size.marks(), mark_bytes(n));
    }
}

/// A place is a length, and may need more than 32 bits.
#[test]
fn place_beyond_32_bits() {
    let length = (1usize << 32) + 5;
    let room = Vec::<u16>::new().try_reserve_exact(length);
    assert!(room.is_ok(), "the test needs 8 GiB of address space");
    let mut words = vec![0u16; length];
    (words[0], words[1]) = (1, 1);
    let refusal = raskjomi::read(&words).unwrap_err();
    assert_eq!((refusal.number, refusal.place), (4, length));
}
