//! Previews: each as the edit on a copy, word for word; second tables of several lengths; the limits; and
//! the checks in sequence.

use crate::calls::{Call, Case, Outcome};
use crate::edits::{absent_edge, memory};
use crate::limits::agree;
use generator::{any_game, edge_to_edit, old_bytes, old_words, random, words_behind, Lcg, Table};
use oracle::{mark_bytes, Memory};

/// The edit that a preview is of.
fn edit_of(call: Call) -> Call {
    if call == Call::PreviewAdd {
        Call::AddEdge
    } else {
        Call::RemoveEdge
    }
}

/// The memory with a table laid over the start of its own.
fn copied(table: &[u16], memory: &Memory) -> Memory {
    let mut copy = memory.clone();
    copy.table[..table.len()].copy_from_slice(table);
    copy
}

/// Previews of the largest table that has room for an edge, with a dirty second set.
pub fn at_the_limit() -> [Case; 2] {
    let table = random(&mut Lcg::new(86), 512, 4095, 2);
    let case = |call, (source, target): (u16, u16)| {
        let second = memory(512, vec![5; table.words().len() + 2]);
        Case::of_preview(call, (source as u32, target as u32), &table.words(), second)
    };
    [case(Call::PreviewAdd, absent_edge(&table)), case(Call::PreviewRemove, table.edges[7])]
}

/// The preview and the edit on a copy of the table, at the start of the second one, give the same answer;
/// accepted, they leave the same words in all buffers, and refused, the second set is old.
#[test]
fn a_preview_is_the_edit_on_a_copy() {
    let mut lcg = Lcg::new(87);
    let mut numbers = [0usize; 40];
    for most in [2, 5, 12, 40].repeat(400) {
        let table = any_game(&mut lcg, most);
        let (n, words) = (table.n(), table.words());
        let game = [words.clone(), words_behind(&mut lcg)].concat();
        let call = lcg.pick(&Call::PREVIEWING);
        let edge = edge_to_edit(&mut lcg, &table, call == Call::PreviewRemove);
        let second = [old_words(&mut lcg, 1), words_behind(&mut lcg), words.clone()].concat();
        let second = Memory {
            table: second,
            marks: old_bytes(&mut lcg, mark_bytes(n)),
            spare: old_bytes(&mut lcg, mark_bytes(n)),
            classes: old_words(&mut lcg, n),
            ..Memory::default()
        };
        let preview = Case::of_preview(call, edge, &game, second.clone());
        numbers[agree(&preview) as usize] += 1;
        let Outcome { answer, memory } = preview.actual();
        let edit = Case::of_edit(edit_of(call), edge, copied(&words, &second)).actual();
        assert_eq!(answer, edit.answer, "{call:?} {edge:?}");
        let expected = if answer.number == 0 { edit.memory } else { second };
        assert_eq!(memory, expected, "{call:?} {edge:?}");
    }
    for number in [0, 21, 22, 23, 37, 38, 39] {
        assert!(numbers[number] > 20, "{number} is reached {} times", numbers[number]);
    }
}

/// 24 for a second table shorter than the first, whatever the edit; an arrival needs two words more. What
/// lies beyond the longer of the two tables stays the second one's own.
#[test]
fn second_tables_of_each_length() {
    let table = Table { priorities: vec![0; 3], owners: vec![1; 3], edges: vec![] };
    let table = Table { edges: vec![(0, 1), (0, 2), (1, 0), (2, 2)], ..table };
    let (game, needed) = ([table.words(), vec![44; 9]].concat(), table.words().len());
    for length in [0, 1, needed - 1, needed, needed + 1, needed + 2, needed + 3, needed + 60] {
        for (call, edge) in [(Call::PreviewAdd, (1, 1)), (Call::PreviewRemove, (0, 1))] {
            let case = Case::of_preview(call, edge, &game, memory(3, vec![77; length]));
            agree(&case);
            let Outcome { answer, memory } = case.actual();
            let expected = match length {
                _ if length < needed => (24, needed),
                _ if call == Call::PreviewAdd && length < needed + 2 => (39, table.m()),
                _ => (0, 0),
            };
            assert_eq!((answer.number, answer.place), expected, "{call:?} in {length} words");
            let written = match (expected.0, call) {
                (0, Call::PreviewAdd) => needed + 2,
                (0, _) => needed,
                _ => 0,
            };
            assert!(memory.table[written..].iter().all(|&word| word == 77), "{call:?} {length}");
            if (answer.number, call) == (0, Call::PreviewRemove) {
                assert_eq!(memory.table[needed - 2..needed], [0, 0], "freed words");
            }
        }
    }
}

/// Room behind the first table plays no part, and its words behind aren't copied.
#[test]
fn room_is_the_second_tables() {
    let table = random(&mut Lcg::new(88), 20, 60, 3);
    let (source, target) = absent_edge(&table);
    for (behind, room, number) in [(0, 2, 0), (2, 1, 39), (9, 0, 39), (9, 12, 0)] {
        let game = [table.words(), vec![1; behind]].concat();
        let second = memory(20, vec![2; table.words().len() + room]);
        let edge = (source as u32, target as u32);
        assert_eq!(agree(&Case::of_preview(Call::PreviewAdd, edge, &game, second)), number);
    }
}

/// At m 4,095 an edge still arrives, at 4,096 none does.
#[test]
fn most_edges() {
    for (m, number) in [(4095, 0), (4096, 39)] {
        let table = random(&mut Lcg::new(89), 512, m, 8);
        let (source, target) = absent_edge(&table);
        let second = memory(512, vec![1; table.words().len() + 4]);
        let edge = (source as u32, target as u32);
        let case = Case::of_preview(Call::PreviewAdd, edge, &table.words(), second);
        assert_eq!(agree(&case), number, "m {m}");
    }
}

/// Checks in sequence: the first table, then the second set, its table last, then the edge, then the room.
#[test]
fn checks_in_sequence() {
    let game = [1, 2, 0, 0, 0, 0, 0, 0];
    let full = memory(1, vec![9; 8]);
    let of = |call, edge, game: &[u16], memory: &Memory| {
        agree(&Case::of_preview(call, edge, game, memory.clone()))
    };
    assert_eq!(of(Call::PreviewAdd, (0, 0), &game, &full), 37, "there, and no room");
    assert_eq!(of(Call::PreviewAdd, (0, 1), &game, &full), 37, "no vertex, and no room");
    assert_eq!(of(Call::PreviewRemove, (1, 0), &game, &full), 37);
    assert_eq!(of(Call::PreviewRemove, (0, 0), &game, &full), 38, "twice there, and the last");
    let mut short = full;
    for number in [24, 23, 22, 21] {
        match number {
            24 => short.table.truncate(7),
            23 => short.classes.clear(),
            22 => short.spare.clear(),
            _ => short.marks.clear(),
        }
        for call in Call::PREVIEWING {
            assert_eq!(of(call, (5, 5), &game, &short), number, "before 37");
            assert_eq!(of(call, (5, 5), &game[..7], &short), 4, "the first table before all");
        }
    }
}
