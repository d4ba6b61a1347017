//! The check of reductions of games of any size: all small games with all partitions, and all certificates of the
//! smallest, beside the oracle. Classes have a certificate that passes exactly if they are a reduction.

use crate::large::of_library;
use generator::{
    classes_by_signatures, large_games_of, lists, partitions, quotient_of, LargeTable,
    ReducedWords, REDUCTION_REFUSALS,
};
use oracle::Oracle;
use raskjomi::exports;
use raskjomi::{LargeGame, LargeReduction};
use std::collections::BTreeSet;

/// The number that library and oracle answer, at the same place.
pub fn agree(words: &ReducedWords) -> u32 {
    let ReducedWords { game, reduced, classes, certificate } = words;
    let expected = Oracle::exact().large_reduction(game, reduced, classes, certificate);
    let answer = exports::large_reduction(game, reduced, classes, certificate);
    assert_eq!(answer, of_library(expected), "{words:?}");
    expected.number
}

/// A game that the reader accepts.
pub fn large(words: &[u32]) -> LargeGame {
    LargeGame::new(words.to_vec()).expect("the reader accepts the game")
}

/// The words of a reduction of the game.
fn words_of(game: &LargeGame, reduction: &LargeReduction) -> ReducedWords {
    ReducedWords {
        game: game.words().to_vec(),
        reduced: reduction.reduced().words().to_vec(),
        classes: reduction.classes().to_vec(),
        certificate: reduction.certificate().to_vec(),
    }
}

/// Whether the library makes a certificate of the classes, which then passes. It does exactly if they are a
/// reduction. The reduced game has its edges by ascending source, each once.
pub fn certified(game: &[u32], reduced: &[u32], classes: &[u32]) -> bool {
    let merged = Oracle::exact().large_merged(game, reduced, classes);
    let game = large(game);
    let made = game.certify_reduction(large(reduced), classes.to_vec());
    assert_eq!(made.is_ok(), merged, "{game:?} {reduced:?} {classes:?} {made:?}");
    let Ok(reduction) = made else { return false };
    assert_eq!(agree(&words_of(&game, &reduction)), 0);
    true
}

/// The game reduced by the library, if each vertex has an edge; the library accepts it.
pub fn reduced(game: &LargeTable) -> Option<ReducedWords> {
    let game = large(&game.words());
    let words = words_of(&game, &game.reduce().ok()?);
    assert_eq!(agree(&words), 0);
    Some(words)
}

/// The priorities of n vertices, ascending, up to which of them are equal.
fn ascending(n: usize) -> Vec<Vec<u32>> {
    let mut all = Vec::new();
    lists(&vec![2; n - 1], |steps| {
        all.push((0..n).map(|count| steps[..count].iter().sum()).collect());
    });
    all
}

/// Every game of n vertices without an edge twice, but for the numbers of its vertices and the values of its
/// priorities.
fn games(n: usize, mut each: impl FnMut(&LargeTable)) {
    let targets: Vec<u32> = (0..1 << n).collect();
    ascending(n).iter().for_each(|priorities| large_games_of(priorities, &targets, &mut each));
}

/// The numbers of maps of classes that are no reduction, and of those that are.
type Counts = [usize; 2];

fn count(counts: &mut Counts, game: &LargeTable, reduced: &LargeTable, classes: &[u32]) {
    counts[usize::from(certified(&game.words(), &reduced.words(), classes))] += 1;
}

/// The game of a partition with any owners.
#[test]
fn partitions_of_small_games() {
    for (n, least) in [(1, 1), (2, 100), (3, 20_000)] {
        let (partitions, mut counts) = (partitions(n), [0; 2]);
        games(n, |game| {
            for classes in &partitions {
                let mut reduced = quotient_of(game, classes);
                lists(&vec![2; reduced.n()], |owners| {
                    reduced.owners = owners.to_vec();
                    count(&mut counts, game, &reduced, classes);
                });
            }
        });
        assert!(counts.iter().all(|&count| count >= least), "{n}: {counts:?}");
    }
}

/// The game with an edge more, or less if it is there.
fn toggled(game: &LargeTable, edge: (u32, u32)) -> LargeTable {
    let mut edges: BTreeSet<(u32, u32)> = game.edges.iter().copied().collect();
    if !edges.remove(&edge) {
        edges.insert(edge);
    }
    LargeTable { edges: edges.into_iter().collect(), ..game.clone() }
}

/// The game of a partition with one edge more or less.
#[test]
fn partitions_of_small_games_with_another_edge() {
    for (n, least) in [(1, 4), (2, 300), (3, 200_000)] {
        let (partitions, mut counts) = (partitions(n), [0; 2]);
        games(n, |game| {
            for classes in &partitions {
                let whole = quotient_of(game, classes);
                let k = whole.n() as u32;
                let edges = (0..k * k).map(|i| (i / k, i % k));
                edges.for_each(|edge| count(&mut counts, game, &toggled(&whole, edge), classes));
            }
        });
        assert!(counts[0] >= least && counts[1] == 0, "{n}: {counts:?}");
    }
}

/// Every map to every game of one or two vertices.
#[test]
fn maps_of_the_smallest_games() {
    let mut counts = [0; 2];
    for (n, k) in [(1, 1), (1, 2), (2, 1), (2, 2)] {
        let sets: Vec<u32> = (0..1 << k).collect();
        games(n, |game| {
            lists(&vec![2; k], |priorities| {
                large_games_of(priorities, &sets, |reduced| {
                    lists(&vec![k as u32; n], |classes| {
                        count(&mut counts, game, reduced, classes);
                    });
                });
            });
        });
    }
    assert!(counts[0] > 100_000 && counts[1] > 300, "{counts:?}");
}

/// Every vertex has one or two successors, and 0 is Even's. Classes have one priority.
#[test]
fn partitions_of_games_of_four_vertices() {
    let few: Vec<u32> = (0u32..16).filter(|set| (1..=2).contains(&set.count_ones())).collect();
    let mut counts = [0; 2];
    for priorities in ascending(4) {
        let pure = |classes: &Vec<u32>| {
            (0..16)
                .all(|i| classes[i / 4] != classes[i % 4] || priorities[i / 4] == priorities[i % 4])
        };
        let partitions: Vec<Vec<u32>> = partitions(4).into_iter().filter(pure).collect();
        large_games_of(&priorities, &few, |game| {
            let partitions = partitions.iter().filter(|_| game.owners[0] == 0);
            partitions.for_each(|classes| {
                count(&mut counts, game, &quotient_of(game, classes), classes);
            });
        });
    }
    assert!(counts.iter().all(|&count| count > 500_000), "{counts:?}");
}

/// The library reduces exactly the games whose vertices all have edges, to the classes that signatures give.
#[test]
fn small_games_are_reduced() {
    for n in 1..=3 {
        games(n, |game| {
            let sources: BTreeSet<u32> = game.edges.iter().map(|edge| edge.0).collect();
            let expected = (sources.len() == n).then(|| classes_by_signatures(game));
            assert_eq!(reduced(game).map(|words| words.classes), expected, "{game:?}");
        });
    }
}

/// A game, a reduced game, and a limit of the words of certificates beyond those that can be right.
type Tried<'a> = (&'a LargeTable, &'a LargeTable, u32);

/// Of two vertices at the most and of priority 0, with two edges at the most; and with three, where a vertex has a
/// choice. Vertex 0 is Even's. Every certificate of them.
#[test]
fn any_certificate_of_the_smallest_games_is_judged() {
    let (mut numbers, mut counts) = (BTreeSet::new(), [0; 2]);
    let mut each = |tried: Tried| {
        let [game, reduced] = [tried.0, tried.1].map(LargeTable::words);
        lists(&vec![reduced[0]; game[0] as usize], |classes| {
            let passes = some_certificate_passes(tried, classes, &mut numbers);
            let merged = Oracle::exact().large_merged(&game, &reduced, classes);
            assert_eq!(passes, merged, "{game:?} {reduced:?} {classes:?}");
            counts[usize::from(passes)] += 1;
        });
    };
    for (n, k) in [(1, 1), (1, 2), (2, 1), (2, 2)] {
        let games = plain_games(n, |game| game.m() <= 2 && game.owners[0] == 0);
        let reduced = plain_games(k, |game| game.m() <= 2);
        games.iter().for_each(|game| reduced.iter().for_each(|reduced| each((game, reduced, 1))));
    }
    let three = plain_games(2, |game| game.edges == [(0, 0), (0, 1), (1, 0)]);
    let games = three.iter().filter(|game| game.owners[0] == 0);
    games.for_each(|game| three.iter().for_each(|reduced| each((game, reduced, 0))));
    assert_eq!(Vec::from_iter(numbers), [0, 102, 103, 104, 105, 106]);
    assert!(counts[0] > 1000 && counts[1] > 50, "{counts:?}");
}

/// Every game of n vertices of priority 0 that passes a test.
fn plain_games(n: usize, test: fn(&LargeTable) -> bool) -> Vec<LargeTable> {
    let (sets, mut games) = (Vec::from_iter(0..1 << n), Vec::new());
    large_games_of(&vec![0; n], &sets, |game| games.extend(test(game).then(|| game.clone())));
    games
}

/// Whether a certificate of all those that there are passes; the numbers that are answered are added.
fn some_certificate_passes(
    (game, reduced, beyond): Tried,
    classes: &[u32],
    numbers: &mut BTreeSet<u32>,
) -> bool {
    let [n, m, q] = [game.n(), game.m(), reduced.m()].map(|count| count as u32 + beyond);
    let limits = [(m, game.n()), (n, reduced.n()), (q, game.m()), (m, game.m())];
    let limits: Vec<u32> = limits.iter().flat_map(|&(limit, words)| vec![limit; words]).collect();
    let [game, reduced] = [game, reduced].map(LargeTable::words);
    let mut words = ReducedWords { game, reduced, classes: classes.to_vec(), certificate: vec![] };
    let mut passes = false;
    lists(&limits, |certificate| {
        words.certificate = certificate.to_vec();
        let number = agree(&words);
        passes |= number == 0;
        numbers.insert(number);
    });
    passes
}

/// 0 and 1, Even's of priority 2, lead to 2 and 3, loops of priorities 0 and 1; 4, Even's, and 5, Odd's, of priority
/// 3, lead to 2. The classes are {0, 1}, {2}, {3} and {4, 5}.
fn worked() -> ReducedWords {
    let edges = vec![(0, 2), (0, 3), (1, 3), (1, 2), (2, 2), (3, 3), (4, 2), (5, 2)];
    let priorities = vec![2, 2, 0, 1, 3, 3];
    let game = LargeTable { priorities, owners: vec![0, 0, 0, 1, 0, 1], edges };
    let classes = vec![0, 0, 1, 2, 3, 3];
    let reduced = quotient_of(&game, &classes).words();
    let starts = [0, 3, 4, 5, 6, 7];
    let members = [0, 2, 3, 4];
    let images = [0, 1, 1, 0, 2, 3, 4, 4];
    let afters = [1, 0, 0, 2, 0, 0, 0, 0];
    let certificate = [&starts[..], &members, &images, &afters].concat();
    ReducedWords { game: game.words(), reduced, classes, certificate }
}

/// One change for each refusal.
#[test]
fn worked_refusals() {
    let whole = worked();
    assert_eq!(agree(&whole), 0);
    type Change = fn(&mut ReducedWords);
    let rows: [(u32, usize, Change); 20] = [
        (1, 1, |words| words.game.truncate(1)),
        (2, 0, |words| words.game[0] = 0),
        (4, 31, |words| words.game.push(0)),
        (5, 9, |words| words.game[9] = 2),
        (6, 14, |words| words.game[14] = 6),
        (91, 0, |words| words.reduced.clear()),
        (92, 0, |words| words.reduced[0] = 0),
        (94, 19, |words| words.reduced.truncate(19)),
        (95, 6, |words| words.reduced[6] = 2),
        (96, 15, |words| words.reduced[15] = 4),
        (97, 2, |words| words.reduced[11] = 3),
        (98, 7, |words| words.classes.push(0)),
        (99, 5, |words| words.classes[5] = 4),
        (100, 1, |words| words.classes[1] = 1),
        (101, 0, |words| words.certificate.clear()),
        (102, 1, |words| words.certificate[7] = 3),
        (103, 7, |words| words.certificate[17] = 2),
        (104, 1, |words| words.certificate[1] = 2),
        (105, 1, |words| words.game[9] = 1),
        (106, 0, |words| words.certificate[18] = 2),
    ];
    assert_eq!(rows.map(|row| row.0), REDUCTION_REFUSALS);
    for (number, place, change) in rows {
        let mut changed = whole.clone();
        change(&mut changed);
        agree(&changed);
        let ReducedWords { game, reduced, classes, certificate } = &changed;
        let answer = exports::large_reduction(game, reduced, classes, certificate);
        assert_eq!((answer.number, answer.place), (number, place), "{changed:?}");
    }
}

/// Slices of every length, from none to three words too many.
#[test]
fn slices_of_each_length() {
    let whole = worked();
    type Argument = fn(&mut ReducedWords) -> &mut Vec<u32>;
    let arguments: [(Argument, &[u32]); 4] = [
        (|words| &mut words.game, &[1, 4]),
        (|words| &mut words.reduced, &[91, 94]),
        (|words| &mut words.classes, &[98]),
        (|words| &mut words.certificate, &[101]),
    ];
    for (argument, numbers) in arguments {
        let all = argument(&mut whole.clone()).len();
        let mut given = BTreeSet::new();
        for length in 0..all + 4 {
            let mut words = whole.clone();
            argument(&mut words).extend([0, 1, 2]);
            argument(&mut words).truncate(length);
            let number = agree(&words);
            assert_eq!(number == 0, length == all);
            given.insert(number);
        }
        given.remove(&0);
        assert_eq!(Vec::from_iter(given), numbers);
    }
}

/// Counts of vertices and edges of the reduced game that no table holds, up to the largest.
#[test]
fn counts_that_lie() {
    let most = u32::MAX;
    for k in [0, 1, 2, 1 << 16, 1 << 30, 1 << 31, most - 1, most] {
        for q in [0, 1, 2, 1 << 30, 1 << 31, most - 1, most] {
            for length in 2..9 {
                let mut words = worked();
                words.reduced = vec![k, q, 0, 0, 0, 0, 0, 0, 0];
                words.reduced.truncate(length);
                let number = agree(&words);
                let fits = length as u64 == 2 + 2 * (k as u64 + q as u64);
                let expected = if k == 0 { 92 } else { 94 };
                assert!(number == expected || (fits && k > 0), "{k} {q} {length}: {number}");
            }
        }
    }
}
