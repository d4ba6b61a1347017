//! Every vertex of a game answered by a solution of its reduced game, without and with the solution of the game
//! itself, beside a verdict for each vertex.

use crate::large::{best, millis, ratio};
use generator::{chain, copies, random, solve, solve_large, LargeTable, Lcg, Table};
use raskjomi::{Certificate, Game, LargeGame, LargeSolution, Plan, Player, Verdict};
use std::hint::black_box;

/// A family's name, and its game of n vertices.
type Family = (&'static str, fn(&mut Lcg, usize) -> Table);

const FAMILIES: [Family; 4] = [
    ("random, priorities 8", |lcg, n| random(lcg, n, 8 * n, 8)),
    ("random, priorities 2", |lcg, n| random(lcg, n, 8 * n, 2)),
    ("eight copies", |lcg, n| {
        let game = random(lcg, n / 8, n, 8);
        copies(lcg, &game, 8, true)
    }),
    ("chain", |_, n| chain(n)),
];

fn large(words: &[u16]) -> LargeGame {
    let words = words.iter().map(|&word| word.into()).collect();
    LargeGame::new(words).expect("the reader accepts the game")
}

/// Checks a solution, with a certificate that is made.
fn checked(game: &LargeGame, solution: &LargeSolution) -> Certificate {
    let certificate = game.certify(solution).expect("a right solution");
    game.check(solution, &certificate).expect("the certificate passes");
    certificate
}

/// The winner at each vertex.
fn winners(game: &Game, solution: &LargeSolution) -> Vec<Option<Player>> {
    let reduced = game.reduce();
    checked(&large(reduced.game.words()), solution);
    reduced.classes.iter().map(|&class| solution.winner(class.into())).collect()
}

/// The solution of the game itself.
fn lifted(game: &Game, solution: &LargeSolution) -> LargeSolution {
    let certificate = checked(&large(game.reduce().game.words()), solution);
    let lifted = game.lift(solution, &certificate).expect("both are right");
    checked(&large(game.words()), &lifted);
    lifted
}

/// For each vertex its winner, and the winner's plan from its class.
fn plans(game: &Game) -> Vec<(Player, Plan)> {
    let reduced = game.reduce();
    let table = Table::from_words(reduced.game.words());
    let solution = solve(&table);
    let plan = |&class: &u16| {
        let (class, players) = (usize::from(class), [Player::Even, Player::Odd]);
        let plan = Plan::from_words(solution.plan(&table, class).words());
        (players[usize::from(solution.winner[class])], plan)
    };
    reduced.classes.iter().map(plan).collect()
}

/// Measures a game and prints its line.
fn show_row(name: &str, table: &Table) {
    let game = Game::new(table.words()).expect("a game within the limits");
    let reduced = LargeTable::of_words(large(game.reduce().game.words()).words());
    let solution = LargeSolution::from_words(solve_large(&reduced).words());
    let plans = plans(&game);
    let found: Vec<Option<Player>> = plans.iter().map(|(player, _)| Some(*player)).collect();
    assert_eq!(winners(&game, &solution), found, "both find the same winners");
    let of_classes = best(|| drop(black_box(winners(&game, &solution))));
    let with_moves = best(|| drop(black_box(lifted(&game, &solution))));
    let verdicts = best(|| {
        for (vertex, (player, plan)) in (0..).zip(&plans) {
            let verdict = black_box(game.verdict(vertex, *player, plan));
            assert!(matches!(verdict, Verdict::Wins(_)), "the winner's plan");
        }
    });
    println!(
        "{name:21} {:>4} {:>5} {:>4} {:>10.2} {:>10.2} {:>11.1} {:>7.4} {:>7.4}",
        table.n(),
        table.m(),
        reduced.n(),
        millis(of_classes),
        millis(with_moves),
        millis(verdicts),
        ratio([of_classes, verdicts]),
        ratio([with_moves, verdicts]),
    );
}

/// A row for each family at both sizes.
pub fn show() {
    println!(
        "\nall winners              n     m    k winners ms  moves ms verdicts ms   ratio   ratio"
    );
    for (name, family) in FAMILIES {
        let mut lcg = Lcg::new(2045);
        [256, 512].iter().for_each(|&n| show_row(name, &family(&mut lcg, n)));
    }
}
