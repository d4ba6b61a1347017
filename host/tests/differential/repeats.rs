//! The edges of a game are a set: repeats, and the sequence of the edges, decide nothing but m and the
//! lengths that go by it.

use crate::calls::{Call, Case};
use crate::limits::{agree, exact_memory};
use crate::samples::{cases_of_plans, foreign_relations};
use crate::tables::games::D;
use crate::tables::{games, written};
use generator::{any_game, chain, same_game, Lcg, Table};
use oracle::{Answer, Memory, Oracle};

/// The calls that write.
const WRITING: [Call; 6] = [
    Call::Order,
    Call::Classes,
    Call::Quotient,
    Call::Reduce,
    Call::GovernedOrder,
    Call::GovernedClasses,
];

/// What the reader answers where it accepts.
fn sizes(vertices: u32, edges: u32, different: u32) -> Answer {
    Answer { vertices, edges, different, ..Answer::default() }
}

/// The reader's answer.
fn read(table: &Table) -> Answer {
    Case::on_memory(Call::Read, &table.words(), Memory::default()).actual().answer
}

/// Every call that writes answers and writes the same on both tables.
fn same_writing(one: &Table, other: &Table) {
    for call in WRITING {
        let [one, other] = [one, other].map(|table| written(call, table, exact_memory(table)));
        assert_eq!(one, other, "{call:?}");
    }
}

/// Every call agrees with the oracle; the relation judged is the order, the plans are the winners', from at
/// most 128 vertices.
pub fn all_calls_agree(table: &Table) {
    let words = table.words();
    let mut with_order = exact_memory(table);
    Oracle::exact().order(&words, &mut with_order);
    let mut with_governed = exact_memory(table);
    Oracle::exact().governed_order(&words, &mut with_governed);
    for call in Call::ON_MEMORY {
        let memory = match call {
            Call::AcceptRelation => with_order.clone(),
            Call::AcceptGoverned => with_governed.clone(),
            _ => exact_memory(table),
        };
        assert_eq!(agree(&Case::on_memory(call, &words, memory)), 0, "{call:?}");
    }
    let solution = generator::solve(table);
    for v in (0..table.n()).step_by(table.n().div_ceil(128)) {
        let (winner, plan) = (solution.winner[v] as u32, solution.plan(table, v).words());
        assert_eq!(agree(&Case::of_plan(&words, winner, plan)), 0);
    }
}

#[test]
fn tables_of_one_game_are_written_the_same() {
    let mut lcg = Lcg::new(62);
    for table in games(&mut lcg) {
        let other = same_game(&mut lcg, &table);
        let [one, two] = [&table, &other].map(read);
        assert_eq!((one.vertices, one.different), (two.vertices, two.different), "{table:?}");
        assert_eq!([one.edges, two.edges], [&table, &other].map(|table| table.m() as u32));
        same_writing(&table, &other);
    }
}

#[test]
fn acceptors_judge_tables_of_one_game_the_same() {
    let mut lcg = Lcg::new(64);
    let mut numbers = Vec::new();
    for most in [4, 8, 20].repeat(400) {
        let table = any_game(&mut lcg, most);
        let (words, other) = (table.words(), same_game(&mut lcg, &table).words());
        let mut cases = foreign_relations(&mut lcg, &table);
        cases.extend(cases_of_plans(&mut lcg, &table).into_iter().filter(|c| c.game == words));
        for case in cases {
            let answer = case.actual().answer;
            numbers.push(answer.number);
            let on_other = Case { game: other.clone(), ..case };
            assert_eq!(on_other.actual().answer, answer, "{on_other:?}");
        }
    }
    for number in (10..=16).chain([0, 41]) {
        assert!(numbers.contains(&number), "no verdict {number}");
    }
}

#[test]
fn a_doubled_edge_in_game_d_changes_no_word() {
    let table = Table::from_words(&D);
    assert_eq!(read(&table), sizes(6, 8, 8));
    for edge in &table.edges {
        for place in 0..=table.m() {
            let mut doubled = table.clone();
            doubled.edges.insert(place, *edge);
            assert_eq!(read(&doubled), sizes(6, 9, 8));
            same_writing(&table, &doubled);
            all_calls_agree(&doubled);
        }
    }
}

#[test]
fn a_vertex_whose_only_edge_is_doubled() {
    let p7 = Table::from_words(&[1, 2, 0, 0, 0, 0, 0, 0]);
    assert_eq!(read(&p7), sizes(1, 2, 1));
    let single = Table::from_words(&[1, 1, 0, 0, 0, 0]);
    same_writing(&single, &p7);
    all_calls_agree(&p7);
    let chain = chain(5);
    for vertex in 0..5 {
        for owner in [0, 1] {
            let mut single = chain.clone();
            single.owners[vertex] = owner;
            let mut doubled = single.clone();
            doubled.edges.push(single.edges[vertex]);
            assert_eq!(read(&doubled), sizes(5, 6, 5));
            same_writing(&single, &doubled);
            all_calls_agree(&doubled);
        }
    }
}

/// The game with edges of vertex 0 repeated so that there are m.
fn filled(mut table: Table, m: usize) -> Table {
    let edge = table.edges.iter().copied().find(|edge| edge.0 == 0).expect("an edge out of 0");
    table.edges.resize(m, edge);
    table
}

#[test]
fn most_edges_are_equal() {
    for n in [1, 2, 17, 256] {
        let (single, table) = (chain(n), filled(chain(n), 4096));
        assert_eq!(read(&table), sizes(n as u32, 4096, n as u32));
        same_writing(&single, &table);
        all_calls_agree(&table);
        for call in Call::ON_MEMORY {
            let beyond = filled(chain(n), 4097);
            let case = Case::on_memory(call, &beyond.words(), exact_memory(&beyond));
            assert_eq!(agree(&case), 3, "repeats count for the limit");
        }
    }
    let mut sixteen = chain(256);
    sixteen.edges = sixteen.edges.repeat(16);
    assert_eq!(read(&sixteen), sizes(256, 4096, 256));
    same_writing(&chain(256), &sixteen);
    all_calls_agree(&sixteen);
    let mut eight = chain(512);
    eight.edges = eight.edges.repeat(8);
    assert_eq!(read(&eight), sizes(512, 4096, 512));
    same_writing(&chain(512), &eight);
}

#[test]
fn the_outputs_length_goes_by_the_edges_in_the_table() {
    let table = filled(chain(3), 9);
    for (length, number) in [(2 + 6 + 18 - 1, 24), (2 + 6 + 18, 0)] {
        for call in [Call::Quotient, Call::Reduce] {
            let memory = Memory { output: vec![6; length], ..exact_memory(&table) };
            assert_eq!(agree(&Case::on_memory(call, &table.words(), memory)), number);
        }
    }
}
