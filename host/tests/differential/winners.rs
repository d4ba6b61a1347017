//! The winner from each vertex is the winner from its class in the reduced game, and there is exactly
//! one.

use crate::limits::exact_memory;
use crate::minimal::{game, total_games};
use generator::{any_game, solve, strategy_plan, Lcg, Solution, Table};
use oracle::{Memory, Oracle};

/// The reduced game and the class of each vertex, by the library.
pub fn reduced(table: &Table) -> (Table, Vec<u16>) {
    let Memory { mut marks, mut spare, mut classes, mut output, .. } = exact_memory(table);
    raskjomi::reduce(&table.words(), &mut marks, &mut spare, &mut classes, &mut output)
        .expect("a whole game and memory of the right lengths");
    (Table::from_words(&output), classes)
}

/// The library accepts the solver's plan from a vertex for its winner, and not for the other.
fn plan_shows_winner(table: &Table, solution: &Solution, vertex: usize) {
    let (words, plan) = (table.words(), solution.plan(table, vertex).words());
    let winner = solution.winner[vertex] as u32;
    assert_eq!(raskjomi::accept_plan(&words, winner, &plan), Ok(()));
    assert!(raskjomi::accept_plan(&words, 1 - winner, &plan).is_err());
}

#[test]
fn winners_are_those_of_the_reduced_game() {
    let mut lcg = Lcg::new(42);
    for (most, games) in [(8, 1500), (30, 500), (100, 60), (256, 30), (512, 8)] {
        for _ in 0..games {
            let table = any_game(&mut lcg, most);
            let (small, classes) = reduced(&table);
            let (before, after) = (solve(&table), solve(&small));
            for (v, &class) in classes.iter().enumerate() {
                assert_eq!(before.winner[v], after.winner[class as usize], "{v} of {table:?}");
            }
            let vertex = lcg.below(table.n());
            plan_shows_winner(&table, &before, vertex);
            plan_shows_winner(&small, &after, classes[vertex] as usize);
        }
    }
}

/// Each choice of a successor at every vertex of the player's; elsewhere it is 0.
fn strategies(table: &Table, player: u16) -> Vec<Vec<usize>> {
    let mut strategies = vec![vec![0; table.n()]];
    for (v, targets) in table.successors().iter().enumerate() {
        if table.owners[v] == player {
            let with = |choice: &Vec<usize>, target: usize| {
                let mut choice = choice.clone();
                choice[v] = target;
                choice
            };
            let each = |choice| targets.iter().map(move |&target| with(choice, target));
            strategies = strategies.iter().flat_map(each).collect();
        }
    }
    strategies
}

/// Whether the library accepts some positional plan of the player's from the vertex.
fn has_positional_plan(table: &Table, player: u16, vertex: usize) -> bool {
    strategies(table, player).iter().any(|choice| {
        let plan = strategy_plan(table, player, vertex, choice).words();
        raskjomi::accept_plan(&table.words(), player as u32, &plan).is_ok()
    })
}

#[test]
fn exactly_one_player_has_a_plan_in_each_small_game() {
    for table in total_games() {
        let solution = solve(&table);
        for v in 0..table.n() {
            let plans = [0, 1].map(|player| has_positional_plan(&table, player, v));
            assert_eq!(
                plans,
                [0, 1].map(|player| solution.winner[v] == player),
                "{v} of {table:?}"
            );
        }
    }
}

#[test]
fn the_winner_has_a_plan_of_the_games_size_at_each_vertex() {
    let mut lcg = Lcg::new(29);
    for (most, games) in [(8, 300), (30, 60), (120, 6)] {
        for _ in 0..games {
            let table = any_game(&mut lcg, most);
            let solution = solve(&table);
            let edges = table.successors().iter().map(Vec::len).sum::<usize>();
            for v in 0..table.n() {
                plan_shows_winner(&table, &solution, v);
                let plan = solution.plan(&table, v);
                assert!(plan.vertices.len() <= table.n() && plan.links.len() <= edges);
            }
        }
    }
}

#[test]
fn along_the_order_the_winner_changes_in_evens_favour() {
    let mut lcg = Lcg::new(30);
    let mut changes = 0;
    for _ in 0..800 {
        let table = any_game(&mut lcg, 12);
        let winner = solve(&table).winner;
        for (v, w) in Oracle::exact().order_of(&game(&table)).0.pairs() {
            assert!(winner[w] <= winner[v], "{v} is below {w} in {table:?}");
            changes += usize::from(winner[w] < winner[v]);
        }
    }
    assert!(changes > 0, "some vertex of Odd's win is below one of Even's");
}
