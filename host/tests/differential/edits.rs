//! Edits: chains of them, each result as a fresh call gives it; doubled edges; buffers of several
//! lengths; and the limits.

use crate::calls::{Call, Case, Outcome};
use crate::limits::agree;
use generator::{any_game, edge_to_edit, random, repeated, words_behind, Lcg, Table};
use oracle::{mark_bytes, Memory};

/// Memory of the exact lengths, and a buffer.
pub fn memory(n: usize, table: Vec<u16>) -> Memory {
    let (marks, spare) = (vec![9; mark_bytes(n)], vec![8; mark_bytes(n)]);
    let classes = vec![7; n];
    Memory { table, marks, spare, classes, ..Memory::default() }
}

/// The words of the table that begins a buffer.
fn table_in(buffer: &[u16]) -> &[u16] {
    &buffer[..2 + 2 * buffer[0] as usize + 2 * buffer[1] as usize]
}

/// The outcome of an edit of a buffer, compared with the oracle's.
fn edited(call: Call, edge: (u32, u32), buffer: &[u16]) -> Outcome {
    let case = Case::of_edit(call, edge, memory(buffer[0] as usize, buffer.to_vec()));
    agree(&case);
    case.actual()
}

/// An edge added to the largest table that has room for one, and one removed from it.
pub fn at_the_limit() -> [Case; 2] {
    let table = random(&mut Lcg::new(83), 512, 4095, 2);
    let memory = memory(512, [table.words(), vec![5; 2]].concat());
    let case = |call, (source, target): (u16, u16)| {
        Case::of_edit(call, (source as u32, target as u32), memory.clone())
    };
    [case(Call::AddEdge, absent_edge(&table)), case(Call::RemoveEdge, table.edges[7])]
}

/// A pair of vertices that is no edge.
pub fn absent_edge(table: &Table) -> (u16, u16) {
    let n = table.n() as u16;
    let mut pairs = (0..n).flat_map(|source| (0..n).map(move |target| (source, target)));
    pairs.find(|pair| !table.edges.contains(pair)).expect("some pair is no edge")
}

/// Each edit of a chain works in the memory that the one before it left; what it leaves is what a fresh
/// call writes for the new table, and a refused one changes nothing.
#[test]
fn chains_of_edits_are_as_fresh_calls() {
    let mut lcg = Lcg::new(81);
    let mut numbers = [0usize; 40];
    for most in [2, 5, 12, 40].repeat(60) {
        let table = any_game(&mut lcg, most);
        let n = table.n();
        let room: Vec<u16> = (0..lcg.below(20)).map(|_| lcg.below(65_536) as u16).collect();
        let mut memory = memory(n, [table.words(), room].concat());
        for _ in 0..30 {
            let call = lcg.pick(&Call::EDITING);
            let now = Table::from_words(table_in(&memory.table));
            let edge = edge_to_edit(&mut lcg, &now, call == Call::RemoveEdge);
            let case = Case::of_edit(call, edge, memory.clone());
            let number = agree(&case);
            numbers[number as usize] += 1;
            let old = std::mem::replace(&mut memory, case.actual().memory);
            if number != 0 {
                assert_eq!(memory, old, "{call:?} {edge:?} refused");
                continue;
            }
            let dirty = Memory { table: vec![], ..old };
            let fresh = Case::on_memory(Call::Classes, table_in(&memory.table), dirty).actual();
            assert_eq!(fresh.answer.classes, case.actual().answer.classes);
            let table = memory.table.clone();
            assert_eq!(memory, Memory { table, ..fresh.memory }, "{call:?} {edge:?}");
        }
    }
    for number in [0, 37, 38, 39] {
        assert!(numbers[number] > 100, "{number} is reached {} times", numbers[number]);
    }
}

/// An edge that stands several times leaves as one, and the words that it gives up become 0.
#[test]
fn every_copy_leaves() {
    let mut lcg = Lcg::new(82);
    let mut several = 0;
    for most in [3, 8, 30].repeat(100) {
        let game = any_game(&mut lcg, most);
        let game = repeated(&mut lcg, &game);
        let (source, target) = game.edges[lcg.below(game.m())];
        let copies = game.edges.iter().filter(|&&edge| edge == (source, target)).count();
        let behind = words_behind(&mut lcg);
        let buffer = [game.words(), behind.clone()].concat();
        let Outcome { answer, memory } =
            edited(Call::RemoveEdge, (source as u32, target as u32), &buffer);
        if answer.number == 38 {
            continue;
        }
        several += (copies > 1) as usize;
        let mut left = game.clone();
        left.edges.retain(|&edge| edge != (source, target));
        assert_eq!((answer.number, answer.edges as usize), (0, game.m() - copies));
        assert_eq!(memory.table, [left.words(), vec![0; 2 * copies], behind].concat());
    }
    assert!(several > 50, "{several} edges stood several times");
}

/// A leaving of the edge that just arrived gives the old table back, and two zeros behind it.
#[test]
fn a_leaving_undoes_an_arrival() {
    let mut lcg = Lcg::new(84);
    for most in [2, 6, 40].repeat(50) {
        let table = any_game(&mut lcg, most);
        if table.m() == 4096 || table.clone().without_repeats().m() == table.n() * table.n() {
            continue;
        }
        let (source, target) = absent_edge(&table);
        let edge = (source as u32, target as u32);
        let old = [table.words(), vec![3, 4, 5]].concat();
        let added = edited(Call::AddEdge, edge, &old);
        assert_eq!((added.answer.number, added.answer.edges as usize), (0, table.m() + 1));
        let removed = edited(Call::RemoveEdge, edge, &added.memory.table);
        assert_eq!(removed.memory.table, [table.words(), vec![0, 0, 5]].concat());
    }
}

/// An arrival needs two words behind the table; a leaving needs none.
#[test]
fn buffers_of_each_length() {
    let table = Table { priorities: vec![0; 3], owners: vec![1; 3], edges: vec![] };
    let table = Table { edges: vec![(0, 1), (0, 2), (1, 0), (2, 2)], ..table };
    let needed = table.words().len();
    for length in [0, 1, 2, 7, needed - 1, needed, needed + 1, needed + 2, needed + 3, needed + 60]
    {
        let mut buffer = table.words();
        buffer.resize(length, 77);
        for (call, edge) in [(Call::AddEdge, (1, 1)), (Call::RemoveEdge, (0, 1))] {
            let case = Case::of_edit(call, edge, memory(3, buffer.clone()));
            let answer = case.expected(&oracle::Oracle::exact()).answer;
            agree(&case);
            let given = (answer.number, answer.place);
            let expected = match length {
                0 | 1 => (1, length),
                _ if length < needed => (4, length),
                _ if call == Call::AddEdge && length < needed + 2 => (39, table.m()),
                _ => (0, 0),
            };
            assert_eq!(given, expected, "{call:?} in {length} words");
        }
    }
}

/// At m 4,095 an edge still arrives, at 4,096 none does.
#[test]
fn most_edges() {
    for (m, number) in [(4095, 0), (4096, 39)] {
        let table = random(&mut Lcg::new(85), 512, m, 8);
        let (source, target) = absent_edge(&table);
        let buffer = [table.words(), vec![1; 4]].concat();
        let answer = edited(Call::AddEdge, (source as u32, target as u32), &buffer).answer;
        let place = if number == 39 { m } else { 0 };
        assert_eq!((answer.number, answer.place), (number, place));
    }
}

/// Checks in sequence: the lengths before the edge, the edge before the room.
#[test]
fn checks_in_sequence() {
    let table = [1, 2, 0, 0, 0, 0, 0, 0].to_vec();
    let full = memory(1, table.clone());
    let of = |call, edge, memory: Memory| agree(&Case::of_edit(call, edge, memory));
    assert_eq!(of(Call::AddEdge, (0, 0), full.clone()), 37, "there, and no room");
    assert_eq!(of(Call::AddEdge, (0, 1), full.clone()), 37, "no vertex, and no room");
    assert_eq!(of(Call::RemoveEdge, (1, 0), full.clone()), 37);
    assert_eq!(of(Call::RemoveEdge, (0, 0), full.clone()), 38, "twice there, and the last");
    for (number, short) in [
        (21, Memory { marks: vec![], ..full.clone() }),
        (22, Memory { spare: vec![], ..full.clone() }),
        (23, Memory { classes: vec![], ..full.clone() }),
    ] {
        for call in Call::EDITING {
            assert_eq!(of(call, (5, 5), short.clone()), number, "before 37");
        }
    }
}
