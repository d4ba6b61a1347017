//! The check of solutions of games of any size: all small games with all solutions, and all certificates of the
//! smallest, beside the oracle. A solution has a certificate that passes exactly if it is right.

use generator::{
    certificate_of, large_games_of, lists, solve_large, LargeSolved, LargeTable, LargeWords,
    LARGE_REFUSALS,
};
use oracle::{Answer, Oracle};
use raskjomi::exports::{self, RaskjomiAnswer};
use raskjomi::{LargeGame, LargeSolution, Uncertified};
use std::collections::BTreeSet;

/// An answer of the library with the fields that the two calls have.
pub fn of_library(Answer { number, vertices, edges, place, .. }: Answer) -> RaskjomiAnswer {
    RaskjomiAnswer { number, vertices, edges, place, ..RaskjomiAnswer::default() }
}

/// The number that library and oracle answer, at the same place; the readers agree as well.
pub fn agree(game: &[u32], solution: &[u32], certificate: &[u32]) -> u32 {
    let case = || format!("{game:?} {solution:?} {certificate:?}");
    let expected = Oracle::exact().large_solution(game, solution, certificate);
    let answer = exports::large_solution(game, solution, certificate);
    assert_eq!(answer, of_library(expected), "{}", case());
    let read = exports::large_read(game);
    assert_eq!(read, of_library(Oracle::exact().large_read(game)), "{}", case());
    expected.number
}

/// The certificate that the library makes, or why there is none.
pub fn made(game: &[u32], solution: &[u32]) -> Result<Vec<u32>, Uncertified> {
    let game = LargeGame::new(game.to_vec()).expect("the reader accepts the game");
    let certificate = game.certify(&LargeSolution::from_words(solution.to_vec()))?;
    Ok(certificate.words().to_vec())
}

/// Whether the library makes a certificate, which then passes. Else it refuses the solution as the oracle does, or
/// shows a closed walk of the loser's.
pub fn certified(game: &[u32], solution: &[u32]) -> bool {
    let (oracle, case) = (Oracle::exact(), || format!("{game:?} {solution:?}"));
    match made(game, solution) {
        Ok(certificate) => assert_eq!(agree(game, solution, &certificate), 0, "{}", case()),
        Err(Uncertified::Refused(refusal)) => {
            let Answer { number, place, .. } = oracle.large_solution(game, solution, &[]);
            assert_eq!((refusal.number, refusal.place), (number, place), "{}", case());
            assert!((81..=84).contains(&number), "{}", case());
            return false;
        }
        Err(Uncertified::Flawed(flaw)) => {
            assert!(oracle.large_lost(game, solution, &flaw.edges), "{}: {flaw:?}", case());
            return false;
        }
        Err(other) => panic!("{}: {other}", case()),
    }
    true
}

/// Every order of n vertices.
fn orders(n: usize) -> Vec<Vec<u32>> {
    let mut orders = Vec::new();
    lists(&vec![n as u32; n], |list| {
        if list.iter().collect::<BTreeSet<_>>().len() == n {
            orders.push(list.to_vec());
        }
    });
    orders
}

/// The priorities of n vertices, ascending: each list up to what decides, which is the sequence and the parity of
/// its numbers. The first is 0 or 1, and each further one is the one before, or the next or next but one to it.
fn ascending(n: usize) -> Vec<Vec<u32>> {
    let limits: Vec<u32> = (0..n).map(|i| if i == 0 { 2 } else { 3 }).collect();
    let mut all = Vec::new();
    lists(&limits, |steps| {
        let sums = (1..=n).map(|count| steps[..count].iter().sum());
        all.push(sums.collect());
    });
    all
}

/// Every game of n vertices without an edge twice, but for the numbers of its vertices and the values of its
/// priorities.
fn games(n: usize, mut each: impl FnMut(&LargeTable)) {
    let targets: Vec<u32> = (0..1 << n).collect();
    for priorities in ascending(n) {
        large_games_of(&priorities, &targets, &mut each);
    }
}

/// The words of each solution of a game: all winners, and as moves all edges of the vertex's own, at the loser's
/// vertices too if `all`, else one there. A vertex without an edge has move 0.
fn solutions(game: &LargeTable, all: bool, mut each: impl FnMut(&[u32])) {
    let n = game.n();
    let own = |v: usize| {
        let edges = game.edges.iter().enumerate().filter(move |(_, edge)| edge.0 as usize == v);
        edges.map(|(j, _)| j as u32).collect::<Vec<_>>()
    };
    let own: Vec<Vec<u32>> = (0..n).map(own).collect();
    lists(&vec![2; n], |winners| {
        let moves = |v: usize| match all || winners[v] == game.owners[v] {
            true => own[v].len().max(1) as u32,
            false => 1,
        };
        lists(&Vec::from_iter((0..n).map(moves)), |list| {
            let chosen = |v: usize| own[v].get(list[v] as usize).copied().unwrap_or(0);
            let words: Vec<u32> = winners.iter().copied().chain((0..n).map(chosen)).collect();
            each(&words);
        });
    });
}

/// The second solver's solution of a game whose vertices all have edges; the library certifies it.
fn solved(game: &LargeTable) -> Option<LargeSolved> {
    let sources: BTreeSet<u32> = game.edges.iter().map(|edge| edge.0).collect();
    let solution = (sources.len() == game.n()).then(|| solve_large(game))?;
    assert!(certified(&game.words(), &solution.words()), "{game:?}");
    Some(solution)
}

/// Whether the winners of a solution are those of another.
fn has_winners(solved: &Option<LargeSolved>, solution: &[u32]) -> bool {
    solved.as_ref().is_some_and(|solved| solution.starts_with(&solved.winners))
}

/// The numbers of solutions without and with a certificate.
type Counts = [usize; 2];

/// Each order of the vertices is tried for a certificate, and the maker.
fn count_by_orders(game: &LargeTable, orders: &[Vec<u32>], counts: &mut Counts) {
    let (n, words, solved) = (game.n(), game.words(), solved(game));
    solutions(game, true, |solution| {
        let right = Oracle::exact().large_right(&words, solution);
        assert!(!right || has_winners(&solved, solution), "{game:?} {solution:?}");
        let judged = |order: &Vec<u32>| {
            agree(&words, solution, &certificate_of(game, &solution[..n], order))
        };
        if (81..=84).contains(&judged(&orders[0])) {
            assert!(!right, "{game:?} {solution:?}");
            return;
        }
        let passes = orders.iter().filter(|order| judged(order) == 0).count();
        assert_eq!(passes > 0, right, "{game:?} {solution:?}");
        assert_eq!(certified(&words, solution), right, "{game:?} {solution:?}");
        counts[right as usize] += 1;
    });
}

#[test]
fn right_solutions_of_small_games_and_no_others_have_certificates() {
    for (n, least) in [(1, 1), (2, 100), (3, 10_000)] {
        let (orders, mut counts) = (orders(n), [0; 2]);
        games(n, |game| count_by_orders(game, &orders, &mut counts));
        assert!(counts.iter().all(|&count| count >= least), "{n}: {counts:?}");
    }
}

/// Only the maker is tried.
fn count_by_maker(game: &LargeTable, counts: &mut Counts) {
    let (words, solved) = (game.words(), solved(game));
    solutions(game, false, |solution| {
        let right = Oracle::exact().large_right(&words, solution);
        assert!(!right || has_winners(&solved, solution), "{game:?} {solution:?}");
        if agree(&words, solution, &[]) == 85 {
            assert_eq!(certified(&words, solution), right, "{game:?} {solution:?}");
            counts[right as usize] += 1;
        } else {
            assert!(!right, "{game:?} {solution:?}");
        }
    });
}

/// Games of 4 vertices and as many priorities, each vertex with one or two successors.
#[test]
fn right_solutions_of_games_of_four_vertices_are_certified_and_no_others() {
    let few: Vec<u32> = (0u32..16).filter(|set| (1..=2).contains(&set.count_ones())).collect();
    for priorities in [[0, 1, 2, 3], [1, 2, 3, 4]] {
        let mut counts = [0; 2];
        large_games_of(&priorities, &few, |game| count_by_maker(game, &mut counts));
        assert!(counts.iter().all(|&count| count > 100_000), "{counts:?}");
    }
}

/// Every word of the solution up to the first number that is refused.
#[test]
fn any_solution_of_a_game_of_two_vertices_is_judged() {
    let mut numbers = BTreeSet::new();
    for n in [1, 2] {
        let orders = orders(n);
        games(n, |game| {
            let words = game.words();
            let limits = [vec![3; n], vec![game.m() as u32 + 1; n]].concat();
            lists(&limits, |solution| {
                let of = |order| certificate_of(game, &solution[..n], order);
                numbers.extend(orders.iter().map(|order| agree(&words, solution, &of(order))));
            });
        });
    }
    assert_eq!(Vec::from_iter(numbers), [0, 82, 83, 84, 89]);
}

/// Every word of the certificate up to the first number that is refused.
#[test]
fn any_certificate_of_a_game_of_two_vertices_is_judged() {
    let mut numbers = BTreeSet::new();
    for n in [1, 2] {
        games(n, |game| {
            let words = game.words();
            solutions(game, true, |solution| {
                if agree(&words, solution, &[]) != 85 {
                    return;
                }
                let mut passes = false;
                lists(&vec![n as u32 + 1; 3 * n], |certificate| {
                    let number = agree(&words, solution, certificate);
                    numbers.insert(number);
                    passes |= number == 0;
                });
                assert_eq!(passes, Oracle::exact().large_right(&words, solution));
            });
        });
    }
    assert_eq!(Vec::from_iter(numbers), [0, 86, 87, 88, 89]);
}

/// Slices of every length, from none to three words too many; the words beyond are those of a whole one.
#[test]
fn slices_of_each_length() {
    let edges = vec![(0, 1), (1, 2), (2, 0), (1, 0), (2, 2)];
    let game = LargeTable { priorities: vec![0, 1, 2], owners: vec![0, 1, 0], edges };
    let whole = [game.words(), vec![0, 0, 0, 0, 1, 2], vec![0, 2, 1, 0, 2, 1, 2, 1, 2]];
    assert_eq!(agree(&whole[0], &whole[1], &whole[2]), 0);
    let refusals = [vec![1, 4], vec![81], vec![85]];
    for (argument, numbers) in refusals.iter().enumerate() {
        let mut given = BTreeSet::new();
        for length in 0..whole[argument].len() + 4 {
            let mut words = whole.clone();
            words[argument] = [whole[argument].clone(), vec![0, 1, 2]].concat();
            words[argument].truncate(length);
            let [game, solution, certificate] = &words;
            let number = agree(game, solution, certificate);
            assert_eq!(number == 0, length == whole[argument].len());
            given.insert(number);
        }
        given.remove(&0);
        assert_eq!(&Vec::from_iter(given), numbers);
    }
}

/// Counts of vertices and edges that no table holds, up to the largest.
#[test]
fn counts_that_lie() {
    let most = u32::MAX;
    for n in [0, 1, 2, 1 << 16, 1 << 30, 1 << 31, most - 1, most] {
        for m in [0, 1, 2, 1 << 30, 1 << 31, most - 1, most] {
            for length in 2..9 {
                let mut game = vec![n, m, 0, 0, 0, 0, 0, 0, 0];
                game.truncate(length);
                let number = agree(&game, &[0, 0], &[0, 0, 0]);
                let fits = length as u64 == 2 + 2 * (n as u64 + m as u64);
                let expected = if n == 0 { 2 } else { 4 };
                assert!(number == expected || (fits && n > 0), "{n} {m} {length}: {number}");
            }
        }
    }
}

/// Odd wins at both vertices, by the loop of 1, to which 0 has its only edge. One change for each refusal.
#[test]
fn worked_refusals() {
    let whole = LargeWords {
        game: vec![2, 3, 0, 1, 0, 1, 0, 1, 1, 1, 0, 1],
        solution: vec![1, 1, 0, 2],
        certificate: vec![1, 0, 1, 0, 0, 1],
    };
    assert_eq!(agree(&whole.game, &whole.solution, &whole.certificate), 0);
    type Change = fn(&mut LargeWords);
    let rows: [(u32, usize, Change); 14] = [
        (1, 1, |words| words.game.truncate(1)),
        (2, 0, |words| words.game[0] = 0),
        (4, 11, |words| words.game.truncate(11)),
        (5, 5, |words| words.game[5] = 2),
        (6, 11, |words| words.game[11] = 2),
        (81, 5, |words| words.solution.push(0)),
        (82, 1, |words| words.solution[1] = 2),
        (83, 1, |words| words.solution[3] = 0),
        (84, 0, |words| words.solution[0] = 0),
        (85, 5, |words| words.certificate.truncate(5)),
        (86, 5, |words| words.certificate[5] = 2),
        (87, 0, |words| words.certificate[0] = 0),
        (88, 0, |words| words.certificate[4] = 1),
        (89, 0, |words| words.certificate = vec![0, 1, 0, 1, 1, 1]),
    ];
    assert_eq!(rows.map(|row| row.0), LARGE_REFUSALS);
    for (number, place, change) in rows {
        let mut changed = whole.clone();
        change(&mut changed);
        let LargeWords { game, solution, certificate } = &changed;
        agree(game, solution, certificate);
        let answer = exports::large_solution(game, solution, certificate);
        assert_eq!((answer.number, answer.place), (number, place), "{changed:?}");
    }
}
