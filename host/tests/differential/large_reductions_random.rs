//! Games of any size with planted symmetry, reduced: the reductions are accepted, and a second solver finds the same
//! winner at each vertex and at its class.

use crate::common::say;
use crate::large_reductions::{agree, certified, large, reduced};
use generator::{
    any_large, any_planted, classes_by_signatures, large_chains, large_distinct, large_hub,
    large_uniform, planted, quotient_of, solve_large, some_images, LargeTable, Lcg, Planting,
    ReducedWords,
};
use raskjomi::LargeSolution;

/// So many games of so many vertices.
const GAMES: [(usize, usize); 6] =
    [(10, 3000), (30, 1000), (100, 500), (1000, 100), (10_000, 10), (100_000, 2)];

/// The winner at each vertex is the winner at its class.
fn same_winners(game: &LargeTable, reduced: &LargeTable, classes: &[u32]) {
    let [winners, of_classes] = [game, reduced].map(|game| solve_large(game).winners);
    for (v, &class) in classes.iter().enumerate() {
        let case = || format!("vertex {v} of a game of {} vertices", game.n());
        assert_eq!(winners[v], of_classes[class as usize], "{}", case());
    }
}

/// The second solver's solution of the reduced game, lifted to the game, is certified there.
fn lifted(game: &LargeTable) {
    let game = large(&game.words());
    let reduction = game.reduce().expect("each vertex has an edge");
    let solved = solve_large(&LargeTable::of_words(reduction.reduced().words()));
    let solution = reduction.lift(&game, &LargeSolution::from_words(solved.words()));
    let solution = solution.expect("both are right");
    let certificate = game.certify(&solution).expect("the lifted solution is right");
    game.check(&solution, &certificate).expect("the certificate passes");
    let of_class = |&class: &u32| solved.winners[class as usize];
    assert!(solution
        .words()
        .iter()
        .copied()
        .zip(reduction.classes())
        .all(|(w, d)| w == of_class(d)));
}

/// The reduction that the library makes passes, with another certificate as well, and keeps winners. Its classes are
/// those of repeated signatures.
fn accepted(lcg: &mut Lcg, game: &LargeTable) -> ReducedWords {
    let words = reduced(game).expect("each vertex has an edge");
    assert_eq!(words.classes, classes_by_signatures(game), "a game of {} vertices", game.n());
    let table = LargeTable::of_words(&words.reduced);
    let certificate = some_images(lcg, game, &table, &words.classes);
    assert_eq!(agree(&ReducedWords { certificate, ..words.clone() }), 0);
    same_winners(game, &table, &words.classes);
    words
}

/// The classes that were planted are a reduction, and the library finds no more of them.
#[test]
fn planted_symmetry_is_found() {
    let mut lcg = Lcg::new(511);
    let (mut vertices, mut classes) = (0, 0);
    for (n, games) in GAMES {
        for _ in 0..games {
            let (game, given) = any_planted(&mut lcg, n);
            assert!(certified(&game.words(), &quotient_of(&game, &given).words(), &given));
            let found = accepted(&mut lcg, &game);
            lifted(&game);
            let (k, most) = (found.reduced[0] as usize, given.iter().max().map_or(0, |&d| d + 1));
            assert!(k <= most as usize, "{k} classes of {most}");
            (vertices, classes) = (vertices + n, classes + k);
        }
    }
    say(format!("{vertices} vertices reduced to {classes}"));
    assert!(2 * classes < vertices, "{vertices} {classes}");
}

#[test]
fn any_game_is_reduced() {
    let mut lcg = Lcg::new(512);
    for (n, games) in [(1, 20), (3, 1000), (10, 2000), (100, 300), (1000, 50), (30_000, 3)] {
        for _ in 0..games {
            let game = any_large(&mut lcg, n);
            accepted(&mut lcg, &game);
        }
    }
}

/// The classes that were planted, then those of the game of them: together they are a reduction, to the game that the
/// library finds at once.
#[test]
fn two_reductions_are_one() {
    let mut lcg = Lcg::new(513);
    let mut twice = 0;
    for (n, games) in [(10, 1000), (100, 300), (1000, 50), (20_000, 3)] {
        for _ in 0..games {
            let (game, first) = any_planted(&mut lcg, n);
            let between = quotient_of(&game, &first);
            let second = accepted(&mut lcg, &between);
            twice += usize::from(second.reduced[0] < between.n() as u32);
            let chained: Vec<u32> = first.iter().map(|&d| second.classes[d as usize]).collect();
            assert!(certified(&game.words(), &second.reduced, &chained));
            let last = LargeTable::of_words(&second.reduced);
            same_winners(&game, &last, &chained);
            let at_once = reduced(&game).map(|words| words.reduced[0]);
            assert_eq!(at_once, Some(last.n() as u32), "as many classes at once");
        }
    }
    assert!(twice > 100, "{twice}");
}

/// The number of classes of a game.
fn classes_of(game: LargeTable) -> usize {
    let words = reduced(&game).expect("each vertex has an edge");
    let reduced = LargeTable::of_words(&words.reduced);
    same_winners(&game, &reduced, &words.classes);
    reduced.n()
}

/// Families whose classes are known.
#[test]
fn each_family_is_reduced() {
    let mut lcg = Lcg::new(514);
    for n in [2, 4, 10, 1000, 100_000] {
        assert_eq!(classes_of(large_chains(&mut lcg, n)), n / 2, "two chains");
        assert_eq!(classes_of(large_uniform(&mut lcg, n, 3 * n)), 1, "one class");
        assert_eq!(classes_of(large_distinct(&mut lcg, n, 3 * n)), n, "no merge");
        let few = classes_of(large_hub(&mut lcg, n, 3));
        assert!(few <= 4, "the hub, and one class for each priority: {few}");
        let most = n.div_ceil(1000);
        let planting = Planting { n, classes: most, degree: 4, copies: 2 };
        let few = classes_of(planted(&mut lcg, planting).0);
        assert!(few <= most, "one in a thousand: {few}");
    }
}

/// Another sequence of vertices and edges gives classes of the same sizes, and as many edges.
#[test]
fn numbers_of_vertices_and_edges_do_not_matter() {
    let mut lcg = Lcg::new(515);
    for n in [3, 10, 40].repeat(300) {
        let game = any_planted(&mut lcg, n).0;
        let [first, second] = [game.clone(), game.shuffled(&mut lcg)].map(|game| {
            let words = reduced(&game).expect("each vertex has an edge");
            let mut sizes = vec![0; words.reduced[0] as usize];
            words.classes.iter().for_each(|&class| sizes[class as usize] += 1);
            sizes.sort_unstable();
            (sizes, words.reduced[1])
        });
        assert_eq!(first, second, "{game:?}");
    }
}
