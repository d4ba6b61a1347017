//! Ten thousand games of any size, solved by a second solver: the solutions are accepted.

use crate::common::say;
use crate::large::{agree, certified};
use generator::{
    any_game, any_large, large_clique, large_component, large_ladder, large_loops, large_nested,
    large_path, large_random, solve, solve_large, LargeTable, Lcg,
};

/// So many games of so many vertices; 10,000 in all.
const GAMES: [(usize, usize); 7] =
    [(10, 6000), (30, 2500), (100, 1000), (300, 300), (1000, 140), (10_000, 50), (100_000, 10)];

/// The library accepts the second solver's solution with the maker's certificate, as does the oracle.
fn accepted(game: &LargeTable) {
    let (words, solution) = (game.words(), solve_large(game).words());
    assert!(certified(&words, &solution), "a game of {} vertices", game.n());
}

#[test]
fn right_solutions_are_accepted() {
    let mut lcg = Lcg::new(401);
    assert_eq!(GAMES.iter().map(|row| row.1).sum::<usize>(), 10_000);
    let mut edges = 0;
    for (n, games) in GAMES {
        for _ in 0..games {
            let game = any_large(&mut lcg, n);
            edges += game.m();
            accepted(&game);
        }
    }
    say(format!("10000 solutions accepted, of games of {edges} edges in all"));
}

/// Each family at its largest, and one vertex alone.
#[test]
fn each_family_is_accepted() {
    let mut lcg = Lcg::new(402);
    for n in [1, 2, 3, 100_000] {
        accepted(&large_random(&mut lcg, n, 3 * n, 10));
        accepted(&large_path(&mut lcg, n, 3));
        accepted(&large_component(&mut lcg, n, 5));
        accepted(&large_nested(&mut lcg, n));
        accepted(&large_ladder(n));
        accepted(&large_clique(n.min(400)));
        accepted(&large_loops(&mut lcg, n, 4));
        // Nearly as many priorities as vertices.
        accepted(&large_random(&mut lcg, n.min(20_000), 2 * n.min(20_000), 1 << 31));
    }
}

#[test]
fn both_solvers_find_the_same_winners() {
    let mut lcg = Lcg::new(403);
    for (most, games) in [(4, 2000), (12, 1000), (60, 300), (300, 30)] {
        for _ in 0..games {
            let table = any_game(&mut lcg, most);
            let winners = solve_large(&LargeTable::from(&table)).winners;
            let expected: Vec<u32> = solve(&table).winner.iter().map(|&w| w.into()).collect();
            assert_eq!(winners, expected, "{table:?}");
        }
    }
}

/// Priorities up to the largest that a word holds.
#[test]
fn the_largest_priorities() {
    let mut lcg = Lcg::new(404);
    for n in [2, 5, 30].repeat(50) {
        let mut game = any_large(&mut lcg, n);
        game.priorities.iter_mut().for_each(|priority| *priority = u32::MAX - *priority % 9);
        accepted(&game);
        let words = game.words();
        assert_eq!(agree(&words, &[], &[]), 81);
    }
}
