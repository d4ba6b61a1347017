//! Right solutions spoilt in one place or a few are judged as the oracle judges them.

use crate::common::say;
use crate::large::{agree, certified, made, of_library};
use generator::{
    any_large, certificate_of, solve_large, some_order, LargeTable, LargeWords, Lcg, LARGE_REFUSALS,
};
use oracle::{Oracle, Trap};
use raskjomi::exports;
use std::collections::BTreeMap;

/// How often each refusal is given, at the least.
const REACHED: usize = 50;
/// A misreading that so many games don't show would go unnoticed.
const MOST_GAMES: usize = 3000;

/// A game, the second solver's solution, and the maker's certificate.
fn right(game: &LargeTable) -> LargeWords {
    let (game, solution) = (game.words(), solve_large(game).words());
    let certificate = made(&game, &solution).expect("the solution is right");
    LargeWords { game, solution, certificate }
}

/// Right words of a game of n vertices; with a certificate that any order has; and changed in up to three places.
fn samples(lcg: &mut Lcg, n: usize) -> Vec<LargeWords> {
    let game = any_large(lcg, n);
    let whole = right(&game);
    let n = game.n();
    let order = some_order(lcg, n);
    let certificate = certificate_of(&game, &whole.solution[..n], &order);
    let mut samples = vec![whole.clone(), LargeWords { certificate, ..whole.clone() }];
    for _ in 0..8 {
        let mut spoilt = whole.clone();
        spoilt.spoil(lcg);
        samples.push(spoilt);
    }
    for times in [2, 3] {
        let mut spoilt = samples[lcg.below(2)].clone();
        (0..times).for_each(|_| spoilt.spoil_word(lcg));
        samples.push(spoilt);
    }
    let mut spoilt = whole;
    spoilt.draw_ends(lcg);
    samples.push(spoilt);
    samples
}

fn judged(LargeWords { game, solution, certificate }: &LargeWords) -> u32 {
    agree(game, solution, certificate)
}

/// Games of so many vertices, and how many of them: small ones most of all, which the oracle judges quickly.
#[test]
fn library_and_oracle_agree_and_every_refusal_is_reached() {
    let mut lcg = Lcg::new(411);
    let mut counts: BTreeMap<u32, usize> = BTreeMap::new();
    let rows = [(1, 300), (2, 1000), (5, 3000), (12, 2000), (40, 300), (1000, 50), (100_000, 3)];
    for (n, games) in rows {
        for words in (0..games).flat_map(|_| samples(&mut lcg, n)) {
            *counts.entry(judged(&words)).or_default() += 1;
        }
    }
    say(format!("answers by number: {counts:?}"));
    let often = counts.iter().filter(|row| *row.1 >= REACHED).map(|row| *row.0);
    assert_eq!(Vec::from_iter(often), [&[0], &LARGE_REFUSALS[..]].concat());
}

/// The winner at one vertex is another: never right. Where 84 doesn't show it, a closed walk does.
#[test]
fn another_winner_is_refused() {
    let mut lcg = Lcg::new(412);
    let (mut by_edge, mut by_walk) = (0, 0);
    for (n, games) in [(1, 50), (3, 500), (10, 2000), (100, 300), (1000, 50), (100_000, 10)] {
        for _ in 0..games {
            let mut words = right(&any_large(&mut lcg, n));
            words.spoil_winner(&mut lcg);
            match judged(&words) {
                84 => by_edge += 1,
                number => {
                    assert!(number > 84, "{number}");
                    assert!(!certified(&words.game, &words.solution));
                    by_walk += 1;
                }
            }
        }
    }
    assert!(by_edge > 500 && by_walk > 50, "{by_edge} {by_walk}");
}

/// Another move is right or not; the maker has a certificate exactly where it is.
#[test]
fn another_move_is_judged_as_the_oracle_judges_it() {
    let mut lcg = Lcg::new(413);
    let (mut still_right, mut by_walk) = (0, 0);
    for (n, games) in [(3, 1000), (10, 3000), (100, 300), (600, 30)] {
        for _ in 0..games {
            let mut words = right(&any_large(&mut lcg, n));
            words.spoil_move(&mut lcg);
            let right = Oracle::exact().large_right(&words.game, &words.solution);
            match judged(&words) {
                83 | 84 => assert!(!right),
                _ => {
                    assert_eq!(right, certified(&words.game, &words.solution));
                    *(if right { &mut still_right } else { &mut by_walk }) += 1;
                }
            }
        }
    }
    assert!(still_right > 500 && by_walk > 50, "{still_right} {by_walk}");
}

/// The number of games, from the first of a seed, until the library differs from an oracle that falls for the
/// trap. One game in fifty is larger than the other calls' limits allow.
fn games_needed(trap: Trap) -> Option<usize> {
    let (misled, mut lcg) = (Oracle::with(trap), Lcg::new(414));
    let differs = |LargeWords { game, solution, certificate }: &LargeWords| {
        let answer = exports::large_solution(game, solution, certificate);
        answer != of_library(misled.large_solution(game, solution, certificate))
    };
    (1..=MOST_GAMES).find(|games| {
        let n = if games % 50 == 0 { 520 } else { lcg.between(1, 8) };
        samples(&mut lcg, n).iter().any(differs)
    })
}

#[test]
fn each_trap_is_noticed() {
    for trap in Trap::OF_LARGE {
        let needed = games_needed(trap).unwrap_or_else(|| panic!("{trap:?} goes unnoticed"));
        say(format!("{trap:?}: games needed {needed}"));
    }
}
