//! Replays: traces beside single edits and the parity of their entries, refused at the first, a middle and the
//! last entry, in buffers of several lengths, and at the limits.

use crate::calls::{Call, Case, Outcome};
use crate::edits::memory;
use crate::limits::agree;
use generator::{any_game, damaged_trace, random, repeated, trace, trace_words, Lcg, Table};
use oracle::Memory;

/// The words of the table that begins a buffer.
fn table_in(buffer: &[u16]) -> &[u16] {
    &buffer[..2 + 2 * buffer[0] as usize + 2 * buffer[1] as usize]
}

/// The outcome of a replay in a buffer, compared with the oracle's.
fn replayed(entries: &[(u16, u16)], buffer: &[u16]) -> Outcome {
    let case = Case::of_replay(trace_words(entries), memory(buffer[0] as usize, buffer.to_vec()));
    agree(&case);
    case.actual()
}

/// Three vertices with two edges each.
fn doubles() -> Table {
    let edges = vec![(0, 0), (0, 1), (1, 1), (1, 2), (2, 2), (2, 0)];
    Table { priorities: vec![0, 1, 0], owners: vec![0, 1, 0], edges }
}

/// As many traces as edits one by one: the same table, marks, spare and class words, for the entries done; and
/// an edge is there at the end exactly when its presence at the start plus its entries is odd.
#[test]
fn replays_are_as_single_edits_and_as_the_parity_says() {
    let mut lcg = Lcg::new(91);
    let (mut whole, mut stopped) = (0, 0);
    for most in [2, 5, 12, 40].repeat(120) {
        let game = any_game(&mut lcg, most);
        let game = if lcg.once_in(3) { repeated(&mut lcg, &game) } else { game };
        let entries = trace(&mut lcg, &game);
        let room = vec![5; lcg.pick(&[0, 2, 4, 40])];
        let buffer = [game.words(), room].concat();
        let Outcome { answer, memory: after } = replayed(&entries, &buffer);
        let done = &entries[..answer.entries as usize];
        let mut now = memory(game.n(), buffer.clone());
        for &(source, target) in done {
            let edges = Table::from_words(table_in(&now.table)).edges;
            let there = edges.contains(&(source, target));
            let call = if there { Call::RemoveEdge } else { Call::AddEdge };
            let case = Case::of_edit(call, (source as u32, target as u32), now);
            let outcome = case.actual();
            assert_eq!(outcome.answer.number, 0, "{call:?} as entry of {entries:?}");
            now = outcome.memory;
        }
        if !done.is_empty() {
            assert_eq!(after, now, "{entries:?}");
        }
        whole += (answer.number == 0 && done.len() > 1) as usize;
        stopped += (answer.number != 0 && !done.is_empty()) as usize;
        let last = Table::from_words(table_in(&after.table)).edges;
        for pair in (0..game.n() as u16).flat_map(|v| (0..game.n() as u16).map(move |w| (v, w))) {
            let times = done.iter().filter(|&&entry| entry == pair).count();
            let odd = (game.edges.contains(&pair) as usize + times) % 2 == 1;
            assert_eq!(last.contains(&pair), odd, "{pair:?} of {entries:?}");
        }
    }
    assert!(whole > 50 && stopped > 30, "{whole} whole, {stopped} stopped");
}

/// Refused by each number at the first, a middle and the last entry; what stands is what the entries before it
/// leave.
#[test]
fn refused_at_each_entry() {
    let edges = vec![(0, 0), (0, 1), (1, 1), (1, 2), (2, 2)];
    let game = Table { edges, ..doubles() };
    // Two edges go and come back, which needs no room.
    let good = [(0, 0), (1, 1), (1, 1), (0, 0)];
    for (number, bad, place) in [(37, (0, 3), 0), (37, (9, 0), 9), (38, (2, 2), 2), (39, (0, 2), 5)]
    {
        for at in [0, 4, 2, 1, 3].into_iter().filter(|at| number != 39 || at % 4 == 0) {
            let buffer = [game.words(), vec![77; if number == 39 { 1 } else { 2 }]].concat();
            for rest in [0, 3] {
                let entries = [&good[..at], &[bad], &good[..rest]].concat();
                let Outcome { answer, memory } = replayed(&entries, &buffer);
                let given = (answer.number, answer.place, answer.entries as usize);
                assert_eq!(given, (number, place, at), "{entries:?}");
                assert_eq!(memory, replayed(&good[..at], &buffer).memory, "{entries:?}");
            }
        }
    }
}

/// Edges come and go: zeros up to the longest table, and the words beyond it are untouched.
#[test]
fn growing_and_shrinking() {
    let game = doubles();
    let buffer = [game.words(), vec![77; 8]].concat();
    let grown = [(0, 2), (1, 0), (2, 1)];
    let size = game.words().len();
    let Outcome { answer, memory } = replayed(&grown, &buffer);
    assert_eq!((answer.number, answer.edges, answer.entries), (0, 9, 3));
    assert_eq!(memory.table[size + 6..], [77; 2]);
    // The three go again, and three of the old ones with them.
    let entries = [&grown[..], &grown, &[(0, 0), (1, 1), (2, 2)]].concat();
    let Outcome { answer, memory } = replayed(&entries, &buffer);
    assert_eq!((answer.number, answer.edges, answer.entries), (0, 3, 9));
    assert_eq!(memory.table[size - 6..], [vec![0; 12], vec![77; 2]].concat());
    // Down and up again: the start table is the longest.
    let entries = [(0, 0), (1, 1), (0, 0)];
    let Outcome { answer, memory } = replayed(&entries, &buffer);
    assert_eq!((answer.number, answer.edges), (0, 5));
    assert_eq!(memory.table[size - 2..], [vec![0; 2], vec![77; 8]].concat());
}

/// A doubled edge leaves with every copy, and arrives as one.
#[test]
fn doubled_edges() {
    let edges = vec![(0, 0), (0, 0), (0, 1), (1, 0), (0, 0)];
    let game = Table { priorities: vec![0, 1], owners: vec![0, 0], edges };
    let Outcome { answer, memory } = replayed(&[(0, 0)], &game.words());
    assert_eq!((answer.number, answer.edges), (0, 2));
    assert_eq!(memory.table, [2, 2, 0, 1, 0, 0, 0, 1, 1, 0, 0, 0, 0, 0, 0, 0]);
    let Outcome { answer, memory } = replayed(&[(0, 0), (0, 0)], &game.words());
    assert_eq!((answer.number, answer.edges), (0, 3));
    assert_eq!(memory.table, [2, 3, 0, 1, 0, 0, 0, 1, 0, 1, 0, 0, 0, 0, 0, 0]);
}

/// A count of 0 is accepted, and writes the order and the classes.
#[test]
fn no_entries() {
    let game = doubles();
    let Outcome { answer, memory } = replayed(&[], &game.words());
    assert_eq!((answer.number, answer.edges, answer.entries), (0, 6, 0));
    assert_eq!(memory.table, game.words());
    let fresh = Memory { table: vec![], ..self::memory(3, vec![]) };
    let fresh = Case::on_memory(Call::Classes, &game.words(), fresh).actual();
    assert_eq!(memory, Memory { table: memory.table.clone(), ..fresh.memory });
    assert_eq!(answer.classes, fresh.answer.classes);
}

/// Traces whose length doesn't fit their count, and the most entries; a replay that didn't begin leaves all as
/// it was.
#[test]
fn lengths_of_traces() {
    let buffer = [doubles().words(), vec![77; 2]].concat();
    let most: Vec<(u16, u16)> = vec![(1, 0); 4096];
    let mut lcg = Lcg::new(92);
    let mut traces: Vec<(Vec<u16>, u32)> = vec![
        (vec![], 40),
        (vec![0], 0),
        (vec![0, 0], 40),
        (vec![1], 40),
        (vec![1, 1], 40),
        (vec![1, 1, 0], 0),
        (vec![1, 1, 0, 0], 40),
        (vec![2, 1, 1, 0, 0], 0),
        (trace_words(&most), 0),
        (trace_words(&[&most[..], &[(1, 0)]].concat()), 40),
    ];
    traces.extend((0..30).map(|_| (damaged_trace(&mut lcg, &[(1, 0), (2, 1)]), 40)));
    for (trace, number) in traces {
        let case = Case::of_replay(trace.clone(), memory(3, buffer.clone()));
        assert_eq!(agree(&case), number, "{:?}", &trace[..trace.len().min(9)]);
        let Outcome { answer, memory } = case.actual();
        if number == 40 {
            assert_eq!((answer.place, answer.entries), (0, 0));
            assert_eq!(memory, case.memory);
        }
    }
}

/// Checks in sequence: the table, the lengths, the trace, and then the entries.
#[test]
fn checks_in_sequence() {
    let full = memory(3, doubles().words());
    for (number, short) in [
        (4, Memory { table: doubles().words()[..13].to_vec(), ..full.clone() }),
        (21, Memory { marks: vec![9; 1], spare: vec![], classes: vec![], ..full.clone() }),
        (22, Memory { spare: vec![9; 1], classes: vec![], ..full.clone() }),
        (23, Memory { classes: vec![9; 2], ..full.clone() }),
        (40, full.clone()),
    ] {
        assert_eq!(agree(&Case::of_replay(vec![1, 9], short)), number, "before an entry");
    }
    let entry = |source, target| agree(&Case::of_replay(vec![1, source, target], full.clone()));
    assert_eq!(entry(3, 0), 37, "no vertex, and no room");
    assert_eq!(entry(0, 2), 39, "absent, and no room");
    assert_eq!(entry(0, 0), 0, "present");
}

/// The largest replay: as many entries as there may be, on a full table.
pub fn at_the_limit() -> Case {
    let table = random(&mut Lcg::new(93), 512, 4096, 2);
    Case::of_replay(trace_words(&turns(&table)), memory(512, table.words()))
}

/// 4,096 entries on a table: an edge goes and comes back, and so the next.
pub fn turns(table: &Table) -> Vec<(u16, u16)> {
    let mut kept = table.edges.clone();
    kept.sort_unstable();
    let other = |edge: &&(u16, u16)| kept.iter().any(|&(v, w)| v == edge.0 && w != edge.1);
    let once = |edge: &&(u16, u16)| kept.iter().filter(|other| other == edge).count() == 1;
    let edges: Vec<(u16, u16)> = table.edges.iter().filter(other).filter(once).copied().collect();
    (0..4096).map(|i| edges[i / 2 % edges.len()]).collect()
}

/// The same on a full table, and one entry more than there is room for.
#[test]
fn most_entries_on_a_full_table() {
    let case = at_the_limit();
    assert_eq!(agree(&case), 0);
    let Outcome { answer, .. } = case.actual();
    assert_eq!((answer.edges, answer.entries), (4096, 4096));
    let table = Table::from_words(table_in(&case.memory.table));
    let absent = (0..512).map(|w| (0, w)).find(|pair| !table.edges.contains(pair));
    let Outcome { answer, .. } =
        replayed(&[absent.expect("a vertex")], &[case.memory.table, vec![1; 4]].concat());
    assert_eq!((answer.number, answer.place, answer.entries), (39, 4096, 0));
}
