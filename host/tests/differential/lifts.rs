//! Solutions of reduced games, lifted to their games: the check of solutions accepts each, with a move for every vertex of the winner's.

use crate::large_reductions::large;
use crate::minimal::total_games;
use generator::{any_game, solve_large, LargeTable, Lcg, Table};
use raskjomi::{Game, LargeSolution};

/// A right solution: the second solver's, with some moves exchanged for others as long as it stays right.
fn some_solution(lcg: &mut Lcg, table: &LargeTable) -> LargeSolution {
    let solved = solve_large(table);
    let game = large(&table.words());
    let mut words = solved.words();
    for _ in 0..2 * table.n() {
        let (edge, n) = (lcg.below(table.m()), table.n());
        let place = n + table.edges[edge].0 as usize;
        let before = std::mem::replace(&mut words[place], edge as u32);
        if game.certify(&LargeSolution::from_words(words.clone())).is_err() {
            words[place] = before;
        }
    }
    LargeSolution::from_words(words)
}

/// The lifted solution is accepted on the game, and has the winners of a solver.
fn is_lifted(lcg: &mut Lcg, table: &Table) {
    let game = Game::new(table.words()).expect("a game");
    let words: Vec<u32> = game.reduce().game.words().iter().map(|&word| word.into()).collect();
    let (reduced, whole) = (large(&words), LargeTable::from(table));
    let solution = some_solution(lcg, &LargeTable::of_words(&words));
    let certificate = reduced.certify(&solution).expect("a right solution");
    let lifted = game.lift(&solution, &certificate).expect("both are right");
    assert!(lifted.words().starts_with(&solve_large(&whole).winners), "{table:?}");
    let whole = large(&whole.words());
    let certificate = whole.certify(&lifted).unwrap_or_else(|why| panic!("{why}: {table:?}"));
    whole.check(&lifted, &certificate).expect("the certificate passes");
}

#[test]
fn lifted_solutions_are_right() {
    let mut lcg = Lcg::new(71);
    total_games().iter().for_each(|table| is_lifted(&mut lcg, table));
    for (most, games) in [(6, 4000), (12, 2000), (30, 500), (100, 40), (512, 4)] {
        for _ in 0..games {
            let table = any_game(&mut lcg, most);
            is_lifted(&mut lcg, &table);
        }
    }
}
