//! The game alone decides every word of its quotient table and its reduced table: neither the memory
//! lent, nor, as `repeats` shows, which of its tables is read.

#[path = "../../oracle/tests/games/mod.rs"]
pub mod games;

use crate::calls::{Call, Case, Outcome};
use crate::limits::{exact_memory, largest_games};
use games::TABLES;
use generator::{any_game, Lcg, Table};
use oracle::{mark_bytes, Memory};

/// The calls that write a table.
const WRITING: [Call; 2] = [Call::Quotient, Call::Reduce];

/// Games of each size, and the largest.
pub fn games(lcg: &mut Lcg) -> Vec<Table> {
    let mut games = largest_games();
    for (most, count) in [(8, 1000), (40, 300), (256, 50), (512, 8)] {
        games.extend((0..count).map(|_| any_game(lcg, most)));
    }
    games
}

/// The library's answer, and the part of each buffer that the call writes.
pub fn written(call: Call, table: &Table, memory: Memory) -> Outcome {
    let Outcome { answer, mut memory } = Case::on_memory(call, &table.words(), memory).actual();
    assert_eq!(answer.number, 0, "{call:?} {table:?}");
    let n = table.n();
    memory.marks.truncate(mark_bytes(n));
    memory.spare.truncate(mark_bytes(n));
    memory.classes.truncate(n);
    memory.output.truncate(2 + 2 * answer.vertices as usize + 2 * answer.edges as usize);
    Outcome { answer, memory }
}

/// The words of the table that the call writes.
fn words(call: Call, table: &Table) -> Vec<u16> {
    written(call, table, exact_memory(table)).memory.output
}

/// Memory for a game, each buffer up to 40 longer than it need be, with any content.
fn any_memory(lcg: &mut Lcg, table: &Table) -> Memory {
    let n = table.n();
    let mut old = |needed: usize| -> Vec<u16> {
        let length = lcg.between(needed, needed + 40);
        (0..length).map(|_| lcg.below(65_536) as u16).collect()
    };
    let bytes = |words: Vec<u16>| words.iter().map(|&word| word as u8).collect();
    Memory {
        marks: bytes(old(mark_bytes(n))),
        spare: bytes(old(mark_bytes(n))),
        classes: old(n),
        output: old(table.words().len()),
        ..Memory::default()
    }
}

#[test]
fn old_content_and_lengths_decide_nothing() {
    let mut lcg = Lcg::new(61);
    for table in games(&mut lcg) {
        for call in WRITING {
            let [one, other] = [(); 2].map(|()| any_memory(&mut lcg, &table));
            assert_eq!(written(call, &table, one), written(call, &table, other), "{table:?}");
        }
    }
}

#[test]
fn written_edges_ascend_strictly() {
    for table in games(&mut Lcg::new(63)) {
        for call in WRITING {
            let edges = Table::from_words(&words(call, &table)).edges;
            let ascend = edges.windows(2).all(|pair| pair[0] < pair[1]);
            assert!(ascend, "{call:?} of {table:?} lists {edges:?}");
        }
    }
}

#[test]
fn tables_of_the_documents_games_word_by_word() {
    for (game, quotient, reduced) in TABLES {
        let table = Table::from_words(game);
        assert_eq!(WRITING.map(|call| words(call, &table)), [quotient, reduced]);
    }
}
