//! The program `cases` prints a line for each of its cases: a name, then the verdict, and after a call
//! that writes also the lent memory. The oracle, on the same input, gives the same text.

#[path = "../oracle/tests/games/mod.rs"]
mod games;

mod common;

use common::root;
use games::{B, C, D};
use oracle::{Answer, Memory, Oracle, Trap};
use std::fmt::Display;
use std::fs;

const P1: [u16; 6] = [1, 1, 1, 1, 0, 0];
const LACKING: [u16; 4] = [1, 0, 0, 0];
/// 0 is Even's and 1 is Odd's, and both go to 2 and to 3, whose priorities differ.
const MIXED_OWNERS: [u16; 22] = [4, 6, 0, 0, 1, 2, 0, 1, 0, 0, 0, 0, 1, 1, 2, 3, 2, 3, 2, 3, 2, 3];
/// 4 to 3 to 2 to 1 to 0, which has a loop and a priority of its own.
const CHAIN: [u16; 22] = [5, 5, 1, 0, 0, 0, 0, 0, 0, 0, 0, 0, 0, 1, 2, 3, 4, 0, 0, 1, 2, 3];
/// The same with vertices 2 and 3 exchanged.
const RENUMBERED_CHAIN: [u16; 22] =
    [5, 5, 1, 0, 0, 0, 0, 0, 0, 0, 0, 0, 0, 1, 2, 3, 4, 0, 0, 3, 1, 2];

/// The text of the program, line by line.
struct Text {
    oracle: Oracle,
    lines: Vec<String>,
}

impl Text {
    fn verdict(&mut self, name: &str, answer: Answer, counts: &[u32]) {
        let Answer { number, place, .. } = answer;
        self.lines.push(match number {
            0 => format!("{name} accepted{}", spaced(counts)),
            _ => format!("{name} refused {number} at {place}"),
        });
    }

    fn memory<T: Display>(&mut self, name: &str, words: &[T]) {
        self.lines.push(format!("{name}{}", spaced(words)));
    }

    fn reads(&mut self, name: &str, game: &[u16]) {
        let answer = self.oracle.read(game);
        self.verdict(name, answer, &[answer.vertices, answer.edges, answer.different]);
    }

    fn kinds(&mut self, numbers: &[u32]) {
        for &number in numbers {
            let kind = self.oracle.kind(number);
            self.memory("kind", &[number, kind]);
        }
    }

    fn orders(&mut self, name: &str, game: &[u16], marks: usize, spare: usize) {
        let mut memory = sevens(marks, spare, 0, 0);
        let answer = self.oracle.order(game, &mut memory);
        self.verdict(name, answer, &[answer.passes]);
        self.memory("marks", &memory.marks);
        self.memory("spare", &memory.spare);
    }

    fn relates(&mut self, name: &str, game: &[u16], marks: &[u8]) {
        let memory = Memory { marks: marks.to_vec(), ..Memory::default() };
        let answer = self.oracle.accept_relation(game, &memory);
        self.verdict(name, answer, &[]);
    }

    fn tables(&mut self, name: &str, game: &[u16], classes: usize, output: usize) {
        let mut memory = sevens(5, 5, classes, output);
        let answer = match name.ends_with("_quotient") {
            true => self.oracle.quotient(game, &mut memory),
            false => self.oracle.reduce(game, &mut memory),
        };
        self.verdict(name, answer, &[answer.classes, answer.vertices, answer.edges]);
        self.memory("classes", &memory.classes);
        self.memory("output", &memory.output);
    }

    fn plans(&mut self, name: &str, game: &[u16], player: u32, plan: &[u16]) {
        let answer = self.oracle.accept_plan(game, player, plan);
        self.verdict(name, answer, &[]);
    }
}

fn spaced<T: Display>(words: &[T]) -> String {
    words.iter().map(|word| format!(" {word}")).collect()
}

fn sevens(marks: usize, spare: usize, classes: usize, output: usize) -> Memory {
    let (marks, spare) = (vec![7; marks], vec![7; spare]);
    let (classes, output) = (vec![7; classes], vec![7; output]);
    Memory { marks, spare, classes, output, ..Memory::default() }
}

/// 512 vertices and 4,096 edges: 8 from each vertex v, to v + 0, .., v + 7, modulo 512.
fn largest() -> Vec<u16> {
    let mut game = vec![0; 9218];
    (game[0], game[1]) = (512, 4096);
    for j in 0..4096 {
        game[1026 + j] = (j % 512) as u16;
        game[5122 + j] = ((j % 512 + j / 512) % 512) as u16;
    }
    game
}

/// D with its first edge once more at the end.
fn doubled_d() -> Vec<u16> {
    let mut game = D.to_vec();
    game[1] += 1;
    game.insert(22, D[14]);
    game.push(D[22]);
    game
}

/// A plan of p positions at vertex 0, each with a link to itself.
fn loops(p: u16) -> Vec<u16> {
    [vec![p, p], vec![0; p.into()], (0..p).collect(), (0..p).collect()].concat()
}

/// A plan whose positions are at vertex 0 and whose links are loops at position 0.
fn zeros(p: u16, l: u16) -> Vec<u16> {
    [vec![p, l], vec![0; p.into()], vec![0; 2 * l as usize]].concat()
}

fn reading(text: &mut Text) {
    text.reads("P1", &P1);
    text.reads("P2", &[]);
    text.reads("P3", &[0, 0]);
    text.reads("P4", &LACKING);
    text.reads("P5", &[1, 1, 0, 2, 0, 0]);
    text.reads("P6", &[1, 1, 0, 0, 0, 1]);
    text.reads("P7", &[1, 2, 0, 0, 0, 0, 0, 0]);
    text.reads("B", &B);
    text.reads("C", &C);
    text.reads("D", &D);
    text.reads("one_word", &[7]);
    text.reads("sizes_alone", &[1, 1]);
    text.reads("one_word_short", &[1, 1, 1, 1, 0]);
    text.reads("one_word_long", &[1, 1, 1, 1, 0, 0, 0]);
    text.reads("both_sizes_too_large", &[513, 4097]);
    text.reads("late_owner_before_early_source", &[2, 2, 0, 0, 0, 2, 2, 1, 0, 0]);
    text.reads("late_source_before_early_target", &[2, 2, 0, 0, 0, 0, 0, 2, 2, 0]);
    text.reads("target_at_n", &[2, 2, 0, 0, 0, 0, 0, 1, 1, 2]);
    text.reads("two_repeats", &[2, 4, 0, 0, 0, 0, 0, 1, 1, 0, 1, 0, 0, 1]);
    text.reads("repeat_and_lacking", &[3, 3, 0, 0, 0, 0, 0, 0, 1, 1, 2, 0, 0, 0]);
    text.reads("lacking_0_and_2", &[3, 1, 0, 0, 0, 0, 0, 0, 1, 1]);
    text.reads("lacking_last", &[3, 2, 0, 0, 0, 0, 0, 0, 1, 0, 2, 2]);
}

/// The largest table with one word changed.
fn limits(text: &mut Text) {
    let changes = [
        ("n_512_m_4096", 0, 512),
        ("n_513", 0, 513),
        ("n_0", 0, 0),
        ("m_4097", 1, 4097),
        ("m_4095", 1, 4095),
        ("priority_65535", 2, 65535),
        ("last_owner_2", 1025, 2),
        ("first_source_512", 1026, 512),
        ("last_target_512", 9217, 512),
        ("last_edge_repeats", 9217, 0),
    ];
    for (name, at, word) in changes {
        let mut game = largest();
        game[at] = word;
        text.reads(name, &game);
    }
    text.reads("equal_edges", &[&[1, 4096, 0, 0][..], &[0; 8192]].concat());
    text.kinds(&[0, 1, 8, 9, 10, 11, 16, 17, 20, 21, 24, 25, 30, 31, 41, 99, 100, u32::MAX]);
}

fn orders(text: &mut Text) {
    text.orders("P1_order", &P1, 2, 1);
    text.orders("B_order", &B, 3, 4);
    text.orders("C_order", &C, 4, 4);
    text.orders("D_order", &D, 5, 6);
    text.orders("mixed_owners", &MIXED_OWNERS, 2, 2);
    text.orders("chain", &CHAIN, 4, 4);
    text.orders("renumbered_chain", &RENUMBERED_CHAIN, 4, 4);
    text.orders("order_refused_game", &LACKING, 1, 1);
    text.orders("marks_one_byte_short", &B, 1, 1);
    text.orders("spare_one_byte_short", &B, 2, 1);
}

fn relations(text: &mut Text) {
    text.relates("B_order_accepted", &B, &[85, 1]);
    text.relates("empty_relation", &B, &[0; 2]);
    text.relates("bytes_beyond_ignored", &B, &[0, 0, 9]);
    text.relates("full_last_byte", &MIXED_OWNERS, &[49, 132]);
    text.relates("relation_refused_game", &LACKING, &[1]);
    text.relates("relation_short", &B, &[2; 1]);
    text.relates("unused_bit_before_early_pair", &B, &[2, 128]);
    text.relates("first_unused_bit", &B, &[85, 3]);
    text.relates("unequal_priorities", &B, &[10, 0]);
    text.relates("missing_pair", &B, &[1, 0]);
    text.relates("P11", &C, &[0, 8, 0, 0]);
}

fn plans(text: &mut Text) {
    let plan = [3, 3, 0, 2, 4, 0, 1, 2, 1, 2, 2];
    text.plans("P12", &C, 0, &plan);
    text.plans("P13", &C, 1, &plan);
    text.plans("P14", &P1, 0, &[1, 1, 0, 0, 0]);
    text.plans("plan_refused_game", &LACKING, 2, &plan);
    text.plans("player_2", &C, 2, &[]);
    text.plans("plan_of_no_word", &C, 0, &[]);
    text.plans("plan_of_one_word", &C, 0, &[3]);
    text.plans("plan_one_word_short", &C, 0, &plan[..10]);
    text.plans("plan_one_word_long", &C, 0, &[1, 0, 4, 4]);
    text.plans("p_0", &C, 0, &[0, 0]);
    let one = [1, 1, 0, 0, 0, 0];
    text.plans("p_4096", &one, 0, &loops(4096));
    text.plans("p_4097", &one, 0, &loops(4097));
    text.plans("l_16384", &one, 0, &zeros(1, 16384));
    text.plans("l_16385", &one, 0, &zeros(1, 16385));
    text.plans("p_4096_l_16384", &one, 0, &zeros(4096, 16384));
}

fn bad_plans(text: &mut Text) {
    text.plans("vertex_at_n", &C, 0, &[2, 1, 4, 5, 2, 0]);
    text.plans("link_source_at_p", &C, 0, &[1, 1, 4, 1, 0]);
    text.plans("link_target_at_p", &C, 0, &[1, 1, 4, 0, 1]);
    text.plans("link_along_no_edge", &C, 0, &[2, 3, 4, 3, 0, 1, 1, 0, 1, 0]);
    text.plans("own_position_without_link", &C, 0, &[2, 1, 4, 3, 0, 0]);
    text.plans("opponent_with_one_answer", &C, 1, &[3, 3, 2, 4, 4, 0, 1, 2, 1, 1, 2]);
    text.plans("unreached_walk_of_wrong_parity", &C, 0, &[2, 2, 4, 3, 0, 1, 0, 1]);
    text.plans("repeated_links", &C, 0, &[1, 2, 4, 0, 0, 0, 0]);
    let ring = [2, 2, 2, 1, 0, 0, 0, 1, 1, 0];
    text.plans("lowest_priority_not_first", &ring, 0, &[2, 2, 0, 1, 0, 1, 1, 0]);
}

fn tables(text: &mut Text) {
    for call in ["reduced", "quotient"] {
        text.tables(&format!("B_{call}"), &B, 3, 14);
        text.tables(&format!("C_{call}"), &C, 5, 26);
        text.tables(&format!("D_{call}"), &D, 7, 31);
        if call == "reduced" {
            text.tables("D_doubled_reduced", &doubled_d(), 7, 32);
        }
    }
    text.tables("classes_one_word_short", &D, 5, 29);
    text.tables("output_one_word_short", &D, 6, 29);
}

#[test]
fn cases_are_the_oracles() {
    let mut text = Text { oracle: Oracle::exact(), lines: Vec::new() };
    for part in [reading, limits, orders, relations, plans, bad_plans, tables] {
        part(&mut text);
    }
    let expected = fs::read_to_string(root().join("crates/cases/stdout"))
        .expect("the program's output is stored");
    assert_eq!(text.lines.join("\n") + "\n", expected);
}

#[test]
fn mixed_owners_tell_some_from_every() {
    let lines = |oracle| {
        let mut text = Text { oracle, lines: Vec::new() };
        text.orders("mixed_owners", &MIXED_OWNERS, 2, 2);
        text.lines
    };
    assert_ne!(lines(Oracle::exact()), lines(Oracle::with(Trap::MixedRowsExchanged)));
}

/// The chain with its vertices numbered from the other end, so that rows descend where they ascend.
fn turned(chain: [u16; 22]) -> [u16; 22] {
    let mut turned = chain;
    turned[2..7].reverse();
    turned[12..].iter_mut().for_each(|end| *end = 4 - *end);
    turned
}

/// Tested under the marks so far, pairs are unmarked in earlier passes; the marks in the end are the same.
#[test]
fn chains_tell_marks_before_the_pass_from_marks_so_far() {
    for (game, so_far) in
        [(CHAIN, 2), (turned(CHAIN), 4), (RENUMBERED_CHAIN, 3), (turned(RENUMBERED_CHAIN), 3)]
    {
        let [exact, misled] =
            [Oracle::exact(), Oracle::with(Trap::UnmarkDuringPass)].map(|oracle| {
                let mut memory = sevens(4, 4, 0, 0);
                let answer = oracle.order(&game, &mut memory);
                (answer.passes, memory)
            });
        assert_eq!((exact.0, misled.0), (4, so_far));
        assert_eq!(exact.1, misled.1);
    }
}
