//! The reducer beside a plain one, and the maker of certificates beside the proved call.

use super::images::make;
use super::misfit::Misfit;
use super::{certificate, lifted, reducer};
use crate::{large_reduction, large_solution, Player};
use generator::{solve_large, LargeTable};
use std::collections::HashMap;

/// Numbers that look random, the same each time.
struct Draw(u64);

impl Draw {
    fn below(&mut self, bound: usize) -> u32 {
        self.0 ^= self.0 << 13;
        self.0 ^= self.0 >> 7;
        self.0 ^= self.0 << 17;
        ((self.0 >> 11) as usize % bound) as u32
    }
}

type Edges = Vec<(u32, u32)>;

fn table(priorities: &[u32], owners: &[u32], edges: &[(u32, u32)]) -> Vec<u32> {
    let (sources, targets): (Vec<u32>, Vec<u32>) = edges.iter().copied().unzip();
    let sizes = [priorities.len() as u32, edges.len() as u32];
    [&sizes, priorities, owners, &sources, &targets].concat()
}

/// The classes by rounds: vertices stay together while priority, classes of successors, and owner where these are several, are the same.
fn plain_classes(game: &[u32]) -> Vec<u32> {
    let (n, m) = (game[0] as usize, game[1] as usize);
    let (mut classes, mut count) = (vec![0; n], 1);
    loop {
        let mut signatures: Vec<Vec<u32>> = vec![Vec::new(); n];
        for edge in 2 + 2 * n..2 + 2 * n + m {
            signatures[game[edge] as usize].push(classes[game[edge + m] as usize]);
        }
        let mut numbers: HashMap<Vec<u32>, u32> = HashMap::new();
        for (v, mut signature) in signatures.into_iter().enumerate() {
            signature.sort_unstable();
            signature.dedup();
            let owner = if signature.len() == 1 { 2 } else { game[2 + n + v] };
            signature.extend([owner, game[2 + v]]);
            let next = numbers.len() as u32;
            classes[v] = *numbers.entry(signature).or_insert(next);
        }
        if numbers.len() == count {
            return classes;
        }
        count = numbers.len();
    }
}

/// Reduces a game, asserts that the proved call accepts it, and returns the classes.
fn judged(game: &[u32]) -> Vec<u32> {
    let classes = reducer::classes(game);
    let reduced = reducer::reduced(game, &classes);
    let certificate = make(game, &reduced, &classes).expect("a certificate");
    assert_eq!(large_reduction(game, &reduced, &classes, &certificate), Ok(()));
    classes
}

/// The same, of a game where rounds are few.
fn compared(game: &[u32]) {
    assert_eq!(judged(game), plain_classes(game), "{game:?}");
}

/// All games of n vertices with two priorities, where each vertex has an edge out.
fn all_small(n: usize, judge: impl Fn(&[u32])) {
    let choices = 4 * ((1 << n) - 1);
    for number in 0..usize::pow(choices, n as u32) {
        let of = |v: usize| number / usize::pow(choices, v as u32) % choices;
        let priorities: Vec<u32> = (0..n).map(|v| of(v) as u32 % 2).collect();
        let owners: Vec<u32> = (0..n).map(|v| of(v) as u32 / 2 % 2).collect();
        let has = |v: usize, w: usize| (of(v) / 4 + 1) >> w & 1 == 1;
        let ends = (0..n).flat_map(|v| (0..n).map(move |w| (v, w)));
        let edges: Edges =
            ends.filter(|&(v, w)| has(v, w)).map(|(v, w)| (v as u32, w as u32)).collect();
        judge(&table(&priorities, &owners, &edges));
    }
}

#[test]
fn all_small_games() {
    for n in 1..=3 {
        all_small(n, compared);
    }
}

/// A game in which each vertex copies one of k: it has edges to copies of that one's successors, and its owner where these are several.
fn planted(draw: &mut Draw, k: usize, degree: usize, n: usize) -> Vec<u32> {
    let row =
        |draw: &mut Draw| (0..=draw.below(degree)).map(|_| draw.below(k)).collect::<Vec<u32>>();
    let rows: Vec<Vec<u32>> = (0..k).map(|_| row(draw)).collect();
    let kinds: Vec<(u32, u32)> = (0..k).map(|_| (draw.below(3), draw.below(2))).collect();
    let model: Vec<u32> = (0..n).map(|v| if v < k { v as u32 } else { draw.below(k) }).collect();
    let mut copies: Vec<Vec<u32>> = vec![Vec::new(); k];
    for (v, &model) in (0..).zip(&model) {
        copies[model as usize].push(v);
    }
    let of = |v: usize| kinds[model[v] as usize];
    let owner = |draw: &mut Draw, v: usize| match &rows[model[v] as usize][..] {
        [first, rest @ ..] if rest.iter().all(|other| other == first) => draw.below(2),
        _ => of(v).1,
    };
    let priorities: Vec<u32> = (0..n).map(|v| of(v).0).collect();
    let owners: Vec<u32> = (0..n).map(|v| owner(draw, v)).collect();
    let mut edges: Edges = Vec::new();
    for (v, &model) in (0..).zip(&model) {
        for &target in &rows[model as usize] {
            let copies = &copies[target as usize];
            let place = draw.below(edges.len() + 1) as usize;
            edges.push((v, copies[draw.below(copies.len()) as usize]));
            let last = edges.len() - 1;
            edges.swap(place, last);
        }
    }
    table(&priorities, &owners, &edges)
}

#[test]
fn games_with_planted_copies() {
    let mut draw = Draw(88_172_645_463_325_252);
    for _ in 0..4000 {
        let k = 1 + draw.below(8) as usize;
        let n = k + draw.below(20) as usize;
        let game = planted(&mut draw, k, 4, n);
        compared(&game);
        assert!(judged(&game).iter().all(|&class| (class as usize) < k));
    }
    compared(&planted(&mut draw, 2_000, 5, 100_000));
    compared(&planted(&mut draw, 90_000, 3, 100_000));
}

#[test]
fn random_games() {
    let mut draw = Draw(7);
    for _ in 0..4000 {
        let n = 1 + draw.below(30) as usize;
        let mut edges: Edges = (0..n as u32).map(|v| (v, draw.below(n))).collect();
        for _ in 0..draw.below(2 * n) {
            let edge = (draw.below(n), draw.below(n));
            edges.insert(draw.below(edges.len()) as usize, edge);
        }
        let mut words = |bound: usize| (0..n).map(|_| draw.below(bound)).collect::<Vec<u32>>();
        let (priorities, owners) = (words(2), words(2));
        compared(&table(&priorities, &owners, &edges));
    }
}

fn solved(game: &[u32]) -> Vec<u32> {
    let (n, m) = (game[0] as usize, game[1] as usize);
    let ends = game[2 + 2 * n..].split_at(m);
    let edges = ends.0.iter().copied().zip(ends.1.iter().copied()).collect();
    let [priorities, owners] = [2, 2 + n].map(|from| game[from..from + n].to_vec());
    solve_large(&LargeTable { priorities, owners, edges }).words()
}

#[test]
fn solutions_are_lifted() {
    let mut draw = Draw(11);
    let sizes = (0..2000).map(|round| (1 + round % 9, 2 + round % 40)).chain([(3_000, 100_000)]);
    for (k, more) in sizes {
        let game = planted(&mut draw, k, 4, k + more);
        let classes = reducer::classes(&game);
        let reduced = reducer::reduced(&game, &classes);
        let solution = lifted::solution(&game, &reduced, &classes, &solved(&reduced));
        let order = certificate::make(&game, &solution).expect("a right solution");
        assert_eq!(large_solution(&game, &solution, &order), Ok(()));
        assert_eq!(solution[..k + more], solved(&game)[..k + more]);
    }
}

const N: u32 = 100_000;

/// The number of classes of a game in which all vertices are Even's.
fn count(priorities: Vec<u32>, edges: Edges) -> u32 {
    let classes = judged(&table(&priorities, &vec![0; priorities.len()], &edges));
    classes.iter().max().map_or(0, |&class| class + 1)
}

#[test]
fn a_long_chain() {
    // Each vertex is known by its way to the end, so rounds would be as many as vertices.
    let chain = || (0..N).map(|v| (v, (v + 1).min(N - 1)));
    let ends = |v: u32| u32::from(v + 1 == N);
    assert_eq!(count((0..N).map(ends).collect(), chain().collect()), N);
    let down = chain().map(|(v, w)| (N - 1 - v, N - 1 - w));
    assert_eq!(count((0..N).rev().map(ends).collect(), down.collect()), N);
    // Two chains side by side, and one that comes back to its start.
    let double = (0..N).map(|v| (v, (v + 2).min(N - 2 + v % 2)));
    assert_eq!(count((0..N).map(|v| u32::from(v + 2 >= N)).collect(), double.collect()), N / 2);
    let round = (0..N).map(|v| (v, (v + 1) % N));
    assert_eq!(count((0..N).map(ends).collect(), round.collect()), N);
}

#[test]
fn one_class_and_no_merge() {
    let mut draw = Draw(3);
    let any: Edges = (0..2 * N).map(|edge| (edge % N, draw.below(N as usize))).collect();
    assert_eq!(count(vec![5; N as usize], any.clone()), 1);
    assert_eq!(count((0..N).collect(), any), N);
}

#[test]
fn a_hub() {
    // All vertices lead to the hub, and it to all of them; a vertex of the other priority is apart.
    let edges = || (1..N).flat_map(|v| [(0, v), (v, 0)]);
    let hub = |v: u32| u32::from(v == 0);
    assert_eq!(count((0..N).map(hub).collect(), edges().collect()), 2);
    assert_eq!(
        count((0..N).map(|v| hub(v) + 2 * u32::from(v == 7)).collect(), edges().collect()),
        3
    );
    // The others form a chain as well.
    let chain = (1..N - 1).map(|v| (v, v + 1));
    assert_eq!(count((0..N).map(hub).collect(), edges().chain(chain).collect()), N);
}

#[test]
fn owners_count_where_there_is_a_choice() {
    // 0 is Even's and 1 Odd's, with edges to 2 and 3, which are loops: of one priority, then of two.
    let edges = [(0, 2), (0, 3), (1, 2), (1, 3), (2, 2), (3, 3)];
    let game = |last: u32| table(&[0, 0, 1, last], &[0, 1, 0, 1], &edges);
    assert_eq!(judged(&game(1)), [0, 0, 1, 1]);
    assert_eq!(judged(&game(2)), [0, 1, 2, 3]);
}

/// What is wrong with a reduction of a game where Even's vertices 0 and 1 have edges to 2 and 3, loops of priorities 1 and 2.
fn misfit(classes: [u32; 4], priorities: &[u32], owners: &[u32], edges: &[(u32, u32)]) -> Misfit {
    let of_game = [(0, 2), (1, 3), (0, 3), (1, 2), (2, 2), (3, 3)];
    let game = table(&[0, 0, 1, 2], &[0, 0, 1, 1], &of_game);
    make(&game, &table(priorities, owners, edges), &classes).expect_err("a misfit")
}

#[test]
fn every_misfit_is_told() {
    let (priorities, owners) = (&[0, 1, 2][..], &[0, 1, 1][..]);
    let (classes, edges) = ([0, 0, 1, 2], [(0, 1), (0, 2), (1, 1), (2, 2)]);
    let told = |misfit: Misfit, text: &str| assert_eq!(misfit.to_string(), text);
    told(
        misfit([0, 0, 1, 1], priorities, owners, &edges),
        "vertex 3 has priority 2, and its class 1 has 1",
    );
    let more = misfit(classes, &[0, 1, 2, 3], &[0; 4], &edges);
    assert_eq!(more, Misfit::NoMember { class: 3 });
    told(more, "class 3 has no member");
    let fewer = [(0, 1), (1, 1), (2, 2)];
    told(
        misfit(classes, priorities, owners, &fewer),
        "edge 2 leads from vertex 0 to 3, but the reduced game has no edge from class 0 to 2",
    );
    for extra in [1, 3] {
        let mut edges = edges.to_vec();
        edges.insert(extra, (edges[extra].0, 0));
        let text = [
            "class 0 has an edge to 0, but its member 0 has none to a vertex of class 0",
            "class 2 has an edge to 0, but its member 3 has none to a vertex of class 0",
        ];
        told(misfit(classes, priorities, owners, &edges), text[extra / 2]);
    }
    told(
        misfit(classes, priorities, &[1, 0, 0], &edges),
        "vertex 0 is Even's, but its class 0 is Odd's and has more than one edge",
    );
    let twice = [(0, 1), (0, 2), (0, 1), (1, 1), (2, 2)];
    told(
        misfit(classes, priorities, owners, &twice),
        "edge 2 of the reduced game, from class 0 to 1, is there already",
    );
}

#[test]
fn a_vertex_without_moves_and_names() {
    let told = |misfit: Misfit, text: &str| assert_eq!(misfit.to_string(), text);
    let dead = table(&[0, 0], &[0, 0], &[(0, 0)]);
    let none = make(&dead, &table(&[0], &[0], &[(0, 0)]), &[0, 0]).expect_err("no edge out");
    told(none, "vertex 1 has no edge out");
    assert!(matches!(none, Misfit::NoMove { vertex: 1 }));
    let names = |v: u32| format!("v{v}");
    let owner = Misfit::Owner { vertex: 3, class: 4, owner: Player::Odd };
    let told = owner.told(names, |c| format!("c{c}"), |_| (0, 0));
    assert_eq!(told, "vertex v3 is Odd's, but its class c4 is Even's and has more than one edge");
}
