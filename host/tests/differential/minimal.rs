//! No game that represents a game is smaller than its reduced game: by search among all small games.

use crate::winners::reduced;
use generator::{small_games, Table};
use oracle::{Game, Oracle, Trap};

/// The sizes of a game: vertices and different edges.
type Sizes = (usize, usize);

fn sizes(game: &Game) -> Sizes {
    (game.n(), game.edges.len())
}

fn smaller(a: Sizes, b: Sizes) -> bool {
    a.0 < b.0 || a.1 < b.1
}

/// A table's game, which need not be total.
pub fn game(table: &Table) -> Game {
    let edges = table.edges.iter().map(|edge| (edge.0 as usize, edge.1 as usize));
    Game::new(table.priorities.clone(), table.owners.clone(), edges.collect())
}

/// Every game of at most 3 vertices, the one without a vertex included.
fn others() -> Vec<Game> {
    (0..=3).flat_map(small_games).map(|table| game(&table)).collect()
}

/// Every total game of 1 to 3 vertices.
pub fn total_games() -> Vec<Table> {
    let total = |table: &Table| table.successors().iter().all(|targets| !targets.is_empty());
    (1..=3).flat_map(small_games).filter(total).collect()
}

/// The first of these games that represents the game, of those whose sizes are asked for.
fn found<'a>(
    oracle: Oracle,
    others: &'a [Game],
    of: &Game,
    asked: impl Fn(Sizes) -> bool,
) -> Option<&'a Game> {
    others.iter().find(|other| asked(sizes(other)) && oracle.represents(other, of))
}

#[test]
fn no_smaller_game_represents_a_game() {
    let others = others();
    for table in total_games() {
        let least = sizes(&game(&reduced(&table).0));
        let found = found(Oracle::exact(), &others, &game(&table), |size| smaller(size, least));
        assert!(found.is_none(), "{found:?} represents {table:?} and is smaller than {least:?}");
    }
}

#[test]
fn a_game_of_the_reduced_games_sizes_is_found() {
    let others = others();
    for table in total_games() {
        let small = game(&reduced(&table).0);
        assert!(Oracle::exact().represents(&small, &game(&table)), "{small:?} of {table:?}");
        let found = found(Oracle::exact(), &others, &game(&table), |size| size == sizes(&small));
        assert!(found.is_some(), "none of {:?} represents {table:?}", sizes(&small));
    }
}

/// Two vertices of Even's with a loop each, of priorities 0 and 1.
fn two_loops() -> Game {
    Game::new(vec![0, 1], vec![0, 0], vec![(0, 0), (1, 1)])
}

#[test]
fn without_equal_priorities_a_smaller_game_is_found() {
    let (others, least) = (others(), sizes(&two_loops()));
    let by = |oracle: Oracle| found(oracle, &others, &two_loops(), |size| smaller(size, least));
    assert!(by(Oracle::exact()).is_none());
    let one_loop = by(Oracle::with(Trap::PassZeroMarksAll)).expect("one loop is below both");
    assert_eq!(sizes(one_loop), (1, 1));
}

/// Even's vertices 0, below 1, and 2; 1 has an edge to each.
fn little_brother() -> Game {
    Game::new(vec![0, 0, 1], vec![0; 3], vec![(0, 2), (1, 0), (1, 1), (1, 2), (2, 2)])
}

#[test]
fn a_quotient_is_not_the_smallest() {
    let (others, game, oracle) = (others(), little_brother(), Oracle::exact());
    let classes = oracle.classes_of(&game, &oracle.order_of(&game).0);
    let quotient = sizes(&oracle.quotient_of(&game, &classes));
    let less = found(oracle, &others, &game, |size| smaller(size, quotient));
    assert_eq!(less.map(sizes), Some((3, 4)), "the quotient has {quotient:?}");
}
