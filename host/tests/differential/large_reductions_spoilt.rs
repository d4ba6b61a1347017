//! Reductions spoilt in one place or a few are judged as the oracle judges them.

use crate::common::say;
use crate::large::of_library;
use crate::large_reductions::{agree, certified, reduced};
use generator::{
    any_large, any_planted, quotient_of, some_images, LargeTable, Lcg, ReducedWords,
    REDUCTION_REFUSALS,
};
use oracle::{Oracle, Trap};
use raskjomi::exports;
use std::collections::BTreeMap;

/// How often each refusal is given, at the least.
const REACHED: usize = 50;
/// A misreading that so many games don't show would go unnoticed.
const MOST_GAMES: usize = 3000;

/// A game to be reduced: one with planted symmetry in three of four cases.
fn some_game(lcg: &mut Lcg, n: usize) -> LargeTable {
    match lcg.once_in(4) {
        true => any_large(lcg, n),
        false => any_planted(lcg, n).0,
    }
}

/// A game with the classes, and a certificate drawn for them.
fn drawn(
    lcg: &mut Lcg,
    game: &LargeTable,
    reduced: &LargeTable,
    classes: Vec<u32>,
) -> ReducedWords {
    let certificate = some_images(lcg, game, reduced, &classes);
    ReducedWords { game: game.words(), reduced: reduced.words(), classes, certificate }
}

/// Another class, or a new one, for one vertex.
fn moved(lcg: &mut Lcg, classes: &[u32], k: usize) -> Vec<u32> {
    let mut moved = classes.to_vec();
    let v = lcg.below(moved.len());
    moved[v] = lcg.below(k + 1) as u32;
    moved
}

/// A reduction; the same changed in one, two or three places; with a vertex in another class and a certificate drawn for
/// that, with the reduced game as it was and with the one that the classes give; and with edges of classes in another
/// sequence or twice.
fn samples(lcg: &mut Lcg, n: usize) -> Vec<ReducedWords> {
    let game = some_game(lcg, n);
    let whole = reduced(&game).expect("each vertex has an edge");
    let table = LargeTable::of_words(&whole.reduced);
    let mut samples = vec![whole.clone(); 12];
    samples[1..9].iter_mut().for_each(|words| words.spoil(lcg));
    samples[9].spoil_twice(lcg);
    samples[10..].iter_mut().for_each(|words| (0..3).for_each(|_| words.spoil_image(lcg)));
    let classes = moved(lcg, &whole.classes, table.n() - 1);
    samples.push(drawn(lcg, &game, &table, classes));
    let classes = moved(lcg, &whole.classes, table.n());
    let given = quotient_of(&game, &classes);
    samples.push(drawn(lcg, &game, &given, classes));
    let mut other = table;
    other.edges.extend(other.edges.last().copied().filter(|_| lcg.once_in(2)));
    lcg.shuffle(&mut other.edges);
    samples.push(drawn(lcg, &game, &other.by_source(), whole.classes));
    samples
}

/// Games of so many vertices, and how many of them: small ones most of all, which the oracle judges quickly.
#[test]
fn library_and_oracle_agree_and_every_refusal_is_reached() {
    let mut lcg = Lcg::new(521);
    let mut counts: BTreeMap<u32, usize> = BTreeMap::new();
    let rows = [(1, 300), (2, 1000), (5, 3000), (12, 2000), (40, 300), (1000, 30), (100_000, 1)];
    for (n, games) in rows {
        for words in (0..games).flat_map(|_| samples(&mut lcg, n)) {
            *counts.entry(agree(&words)).or_default() += 1;
        }
    }
    say(format!("answers by number: {counts:?}"));
    let often = counts.iter().filter(|row| *row.1 >= REACHED).map(|row| *row.0);
    assert_eq!(Vec::from_iter(often), [&[0], &REDUCTION_REFUSALS[..]].concat());
}

/// One vertex is in another class, and the reduced game is what the classes give: the maker has a certificate exactly
/// where they are a reduction.
#[test]
fn another_class_is_judged_as_the_oracle_judges_it() {
    let mut lcg = Lcg::new(522);
    let mut counts = [0; 2];
    for (n, games) in [(3, 2000), (10, 3000), (100, 300), (1000, 50), (100_000, 1)] {
        for _ in 0..games {
            let (game, given) = any_planted(&mut lcg, n);
            let k = given.iter().max().map_or(0, |&d| d as usize + 1);
            let classes = moved(&mut lcg, &given, k);
            let reduced = quotient_of(&game, &classes);
            let right = certified(&game.words(), &reduced.words(), &classes);
            let drawn = drawn(&mut lcg, &game, &reduced, classes);
            assert_eq!(agree(&drawn) == 0, right, "a certificate drawn from all");
            counts[usize::from(right)] += 1;
        }
    }
    assert!(counts.iter().all(|&count| count > 500), "{counts:?}");
}

/// Two classes are one: a reduction only where their members are bisimilar.
#[test]
fn coarser_classes_than_the_reducers_are_refused() {
    let mut lcg = Lcg::new(523);
    let mut refused = 0;
    for (n, games) in [(3, 1000), (10, 2000), (100, 300), (1000, 50), (100_000, 1)] {
        for _ in 0..games {
            let game = any_planted(&mut lcg, n).0;
            let whole = reduced(&game).expect("each vertex has an edge");
            let k = whole.reduced[0];
            if k == 1 {
                continue;
            }
            // The last class goes to another one.
            let other = lcg.below(k as usize - 1) as u32;
            let joined = whole.classes.iter().map(|&d| if d == k - 1 { other } else { d });
            let classes: Vec<u32> = joined.collect();
            let reduced = quotient_of(&game, &classes);
            assert!(!certified(&game.words(), &reduced.words(), &classes), "{game:?}");
            assert!(agree(&drawn(&mut lcg, &game, &reduced, classes)) >= 100);
            refused += 1;
        }
    }
    assert!(refused > 1000, "{refused}");
}

/// The number of games, from the first of a seed, until the library differs from an oracle that falls for the trap.
fn games_needed(trap: Trap) -> Option<usize> {
    let (misled, mut lcg) = (Oracle::with(trap), Lcg::new(524));
    let differs = |ReducedWords { game, reduced, classes, certificate }: &ReducedWords| {
        let answer = exports::large_reduction(game, reduced, classes, certificate);
        answer != of_library(misled.large_reduction(game, reduced, classes, certificate))
    };
    (1..=MOST_GAMES).find(|_| {
        let n = lcg.between(1, 8);
        samples(&mut lcg, n).iter().any(differs)
    })
}

#[test]
fn each_trap_is_noticed() {
    for trap in Trap::OF_REDUCTIONS {
        let needed = games_needed(trap).unwrap_or_else(|| panic!("{trap:?} goes unnoticed"));
        say(format!("{trap:?}: games needed {needed}"));
    }
}
