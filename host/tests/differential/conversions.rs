//! Games where the highest priority decides: every word of the table written, its winners, and its order.

use crate::calls::{Call, Case, Outcome};
use crate::limits::{agree, exact_memory};
use crate::samples::{cases_of_plans, extreme};
use crate::tables::{games, written};
use generator::{any_game, solve, Lcg, Table};
use oracle::{Answer, Memory, Oracle, Trap};

/// The table by the library, which agrees with the oracle.
fn converted(table: &Table) -> Table {
    let case = Case::on_memory(Call::Convert, &table.words(), exact_memory(table));
    assert_eq!(agree(&case), 0, "{table:?}");
    Table::from_words(&case.actual().memory.output)
}

/// A ring whose vertices have these priorities and owners in turn.
fn ring(priorities: &[u16]) -> Table {
    let n = priorities.len() as u16;
    let edges = (0..n).map(|v| (v, (v + 1) % n)).collect();
    let owners = (0..n).map(|v| v % 2).collect();
    Table { priorities: priorities.to_vec(), owners, edges }
}

#[test]
fn priorities_word_by_word() {
    let rows: [(&[u16], &[u16]); 9] = [
        (&[0], &[0]),
        (&[1], &[1]),
        (&[4, 1, 0], &[0, 3, 4]),
        (&[3, 1, 0], &[1, 3, 4]),
        (&[65_534], &[0]),
        (&[65_535], &[1]),
        (&[65_534, 0, 65_533, 1], &[0, 65_534, 1, 65_533]),
        (&[1, 65_535, 2], &[65_535, 1, 65_534]),
        (&[7; 512], &[1; 512]),
    ];
    for (priorities, expected) in rows {
        let table = ring(priorities);
        let turned = Table { priorities: expected.to_vec(), ..table.clone() };
        assert_eq!(converted(&table).words(), turned.words());
    }
}

#[test]
fn a_priority_that_fits_no_word() {
    for (priorities, place) in
        [(&[65_535, 0][..], 3), (&[0, 65_535], 2), (&[1, 65_535, 2, 0, 0], 5)]
    {
        let table = ring(priorities);
        let case = Case::on_memory(Call::Convert, &table.words(), exact_memory(&table));
        agree(&case);
        let Outcome { answer, memory } = case.actual();
        assert_eq!(answer, Answer { number: 36, place, ..Answer::default() });
        assert_eq!(memory, case.memory);
    }
}

#[test]
fn outputs_of_any_length() {
    let mut lcg = Lcg::new(81);
    for most in [1, 3, 20, 512].repeat(40) {
        let table = extreme(&mut lcg, most);
        let needed = table.words().len();
        for length in [0, 1, 2, needed - 1, needed, needed + 1, needed + 30] {
            let output: Vec<u16> = (0..length).map(|_| lcg.below(65_536) as u16).collect();
            let memory = Memory { output: output.clone(), ..Memory::default() };
            let case = Case::on_memory(Call::Convert, &table.words(), memory);
            let number = agree(&case);
            assert_eq!(number == 24, length < needed, "24 comes before 36");
            let kept = if number == 0 { needed } else { 0 };
            assert_eq!(case.actual().memory.output[kept..], output[kept..]);
        }
    }
}

/// Plans win by "highest" on the table read exactly if they win by "lowest" on the table written.
#[test]
fn plans_by_highest() {
    let mut lcg = Lcg::new(82);
    let by_highest = Oracle::with(Trap::HighestDecides);
    let mut verdicts = [0; 2];
    for most in [2, 4, 8, 20].repeat(300) {
        let table = any_game(&mut lcg, most);
        let lowest = converted(&table);
        for case in cases_of_plans(&mut lcg, &lowest) {
            let wins = by_highest.accept_plan(&table.words(), case.player, &case.plan).number == 0;
            let judged = Case::of_plan(&lowest.words(), case.player, case.plan).actual();
            assert_eq!(judged.answer.number == 0, wins, "{table:?}");
            verdicts[usize::from(wins)] += 1;
        }
    }
    assert!(verdicts.iter().all(|&count| count > 1000), "{verdicts:?}");
}

#[test]
fn order_classes_and_edges_stay() {
    for table in games(&mut Lcg::new(83)) {
        let other = converted(&table);
        for call in [Call::Order, Call::Classes] {
            let [one, two] = [&table, &other].map(|game| written(call, game, exact_memory(game)));
            assert_eq!(one, two, "{call:?} of {table:?}");
        }
        for call in [Call::Quotient, Call::Reduce] {
            let [one, two] = [&table, &other].map(|game| {
                Table::from_words(&written(call, game, exact_memory(game)).memory.output)
            });
            assert_eq!((&one.owners, &one.edges), (&two.owners, &two.edges), "{call:?}");
            let even = u32::from(table.priorities[0]) + u32::from(other.priorities[0]);
            let sums = one.priorities.iter().zip(&two.priorities);
            assert!(sums.map(|(&p, &q)| u32::from(p) + u32::from(q)).all(|sum| sum == even));
        }
    }
}

#[test]
fn two_in_a_row_shift_by_one_even_number() {
    let mut lcg = Lcg::new(84);
    for most in [1, 2, 6, 40].repeat(300) {
        let table = any_game(&mut lcg, most);
        let twice = converted(&converted(&table));
        let shift = table.priorities[0] - twice.priorities[0];
        assert_eq!(shift % 2, 0);
        let back = twice.priorities.iter().map(|&priority| priority + shift).collect();
        assert_eq!(Table { priorities: back, ..twice.clone() }.words(), table.words());
        assert_eq!(solve(&table).winner, solve(&twice).winner, "{table:?}");
    }
}

#[test]
fn the_reader_accepts_what_is_written() {
    let mut lcg = Lcg::new(85);
    for most in [1, 2, 5, 40, 512].repeat(100) {
        let table = any_game(&mut lcg, most);
        let [one, two] = [&table, &converted(&table)].map(|game| {
            let case = Case::on_memory(Call::Read, &game.words(), Memory::default());
            assert_eq!(agree(&case), 0, "{game:?}");
            case.actual().answer
        });
        assert_eq!(one, two);
    }
}
