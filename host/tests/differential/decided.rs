//! Solutions that leave out vertices: what they decide is right, by the check of solutions and by plans on the game itself.

use crate::large_reductions::large;
use generator::{any_game, solve_large, LargeSolved, LargeTable, Lcg, Table};
use raskjomi::large::{Decided, NO_WINNER};
use raskjomi::{Game, LargeSolution};

/// Whether an edge of the solved game is kept: the loser's, or the winner's move.
fn is_kept(game: &LargeTable, solved: &LargeSolved, edge: usize) -> bool {
    let v = game.edges[edge].0 as usize;
    game.owners[v] != solved.winners[v] || solved.choices[v] as usize == edge
}

/// The vertices that are left open are those without a winner, and those with a kept edge to an open one.
fn opens(game: &LargeTable, solved: &LargeSolved, words: &[u32], part: &Decided) {
    for v in 0..game.n() {
        let mut edges = (0..game.m()).filter(|&edge| game.edges[edge].0 as usize == v);
        let leads = |edge: usize| part.open[game.edges[edge].1 as usize].is_some();
        let comes = edges.any(|edge| is_kept(game, solved, edge) && leads(edge));
        assert_eq!(part.open[v].is_some(), words[v] == NO_WINNER || comes, "{v} of {game:?}");
        assert!(part.open[v].is_none_or(|end| words[end as usize] == NO_WINNER), "{game:?}");
    }
}

/// How many vertices a part of the second solver's solution decides, and leaves open.
fn decided(lcg: &mut Lcg, table: &Table) -> [usize; 2] {
    let (whole, game) = (LargeTable::from(table), Game::new(table.words()).expect("a game"));
    let solved = solve_large(&whole);
    let mut words = solved.words();
    let some = lcg.between(2, 20);
    words[..table.n()].iter_mut().filter(|_| lcg.once_in(some)).for_each(|word| *word = NO_WINNER);
    let part = large(&whole.words()).decided(&LargeSolution::from_words(words.clone()));
    let certificate = part.game.certify(&part.solution).expect("a right solution");
    part.game.check(&part.solution, &certificate).expect("the certificate passes");
    opens(&whole, &solved, &words, &part);
    for v in 0..table.n() as u32 {
        let plan = part.plan(v);
        assert_eq!(plan.is_some(), part.open[v as usize].is_none());
        if let (Some(plan), Some(winner)) = (plan, part.solution.winner(v)) {
            game.accept_plan(winner, &plan).expect("the winner's plan");
        }
    }
    let open = part.open.iter().flatten().count();
    [table.n() - open, open]
}

#[test]
fn parts_of_solutions_decide_what_they_can() {
    let (mut lcg, mut all) = (Lcg::new(72), [0; 2]);
    for (most, games) in [(6, 2000), (12, 1000), (60, 100), (512, 3)] {
        for _ in 0..games {
            let table = any_game(&mut lcg, most);
            let counts = decided(&mut lcg, &table);
            (0..2).for_each(|i| all[i] += counts[i]);
        }
    }
    assert!(all.iter().all(|&count| count > 1000), "{all:?}");
}
