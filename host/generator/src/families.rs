//! Families of games. Those that take no generator are Even's, of priority 0 unless said otherwise.

use crate::{Lcg, Table};
use std::collections::HashSet;

/// Even's game of priority 0 with the given edges.
fn plain(n: usize, edges: impl IntoIterator<Item = (usize, usize)>) -> Table {
    let mut game = Table { priorities: vec![0; n], owners: vec![0; n], edges: vec![] };
    add_edges(&mut game, edges);
    game
}

/// Adds a vertex of Even's; its number.
fn add_vertex(game: &mut Table, priority: u16) -> usize {
    game.priorities.push(priority);
    game.owners.push(0);
    game.n() - 1
}

fn add_edges(game: &mut Table, edges: impl IntoIterator<Item = (usize, usize)>) {
    game.edges.extend(edges.into_iter().map(|(source, target)| (source as u16, target as u16)));
}

/// A random game of n vertices and m edges, m from n to n × n, with priorities below `priorities`
/// and both owners.
pub fn random(lcg: &mut Lcg, n: usize, m: usize, priorities: usize) -> Table {
    let mut edges: HashSet<(usize, usize)> = HashSet::new();
    let mut listed: Vec<(usize, usize)> = (0..n).map(|v| (v, lcg.below(n))).collect();
    edges.extend(&listed);
    while listed.len() < m {
        let edge = (lcg.below(n), lcg.below(n));
        if edges.insert(edge) {
            listed.push(edge);
        }
    }
    lcg.shuffle(&mut listed);
    plain(n, listed).with_owners(lcg).with_priorities(lcg, priorities)
}

/// Every vertex has an edge to every vertex.
pub fn complete(n: usize) -> Table {
    plain(n, (0..n * n).map(|i| (i / n, i % n)))
}

/// 0 to 1 to 2 and so on; the last vertex has a loop and priority 1.
pub fn chain(n: usize) -> Table {
    let mut chain = plain(n, (0..n).map(|v| (v, (v + 1).min(n - 1))));
    chain.priorities[n - 1] = 1;
    chain
}

/// 0 to 1 to 2 and so on to 0.
pub fn ring(n: usize) -> Table {
    plain(n, (0..n).map(|v| (v, (v + 1) % n)))
}

/// A ring whose vertices have further edges to the next `degree - 1` vertices as well.
pub fn forced_ring(n: usize, degree: usize) -> Table {
    plain(n, (0..n * degree).map(|i| (i / degree, (i / degree + 1 + i % degree) % n)))
}

/// For each size a loop of a priority of its own, from 1 on, and so many vertices of priority 0 with an
/// edge to it. Pass 1 clears the marks between vertices of different loops, and pass 2 none.
pub fn fans(sizes: &[usize]) -> Table {
    let mut game = plain(0, []);
    for (priority, &size) in (1..).zip(sizes) {
        let hub = add_vertex(&mut game, priority);
        add_edges(&mut game, [(hub, hub)]);
        for _ in 0..size {
            let v = add_vertex(&mut game, 0);
            add_edges(&mut game, [(v, hub)]);
        }
    }
    game
}

/// Rings that the order compares two by two: a and b, a before b, one pair after the other, by b and then
/// by a. Each pair has an exit s of a priority of its own: a₀ has an edge to s, each vertex of b but b₀ has
/// one, and each vertex of the rings after b. The first pair's exit has a loop. Each later pair has a second
/// exit r of the same priority, to which all rings' vertices have edges; s leads to vertex 1 of the ring a
/// of the pair before, r to vertex 1 of its b. So (s, r), and then (a₀, b₀), is unmarked right after the
/// last marks of the pair before. A pair of coprime lengths p and q takes p × q + 1 passes.
pub fn rings(lengths: &[usize]) -> Table {
    let first = |ring: usize| lengths[..ring].iter().sum::<usize>();
    let vertex = |ring: usize, i: usize| first(ring) + i % lengths[ring];
    let around = |ring| (0..lengths[ring]).map(move |i| (vertex(ring, i), vertex(ring, i + 1)));
    let all = first(lengths.len());
    let mut game = plain(all, (0..lengths.len()).flat_map(around));
    let pairs = (0..lengths.len()).flat_map(|b| (0..b).map(move |a| (a, b)));
    let mut before = None;
    for (priority, (a, b)) in (1..).zip(pairs) {
        let s = add_vertex(&mut game, priority);
        add_edges(&mut game, [vertex(a, 0)].into_iter().chain(first(b) + 1..all).map(|v| (v, s)));
        match before.replace((a, b)) {
            None => add_edges(&mut game, [(s, s)]),
            Some((a, b)) => {
                let r = add_vertex(&mut game, priority);
                add_edges(&mut game, (0..all).map(|v| (v, r)));
                add_edges(&mut game, [(s, vertex(a, 1)), (r, vertex(b, 1))]);
            }
        }
    }
    game
}

/// Rings as above, and a chain of vertices of priority 0 that leads to the first vertex, up to n in all.
pub fn tailed_rings(lengths: &[usize], n: usize) -> Table {
    let mut game = rings(lengths);
    let mut next = 0;
    while game.n() < n {
        let v = add_vertex(&mut game, 0);
        add_edges(&mut game, [(v, next)]);
        next = v;
    }
    game
}

/// Two rings a and b with their exit t, a vertex u of priority 0 with a loop and an edge to t, and watchers
/// of priority 2: so many with an edge to each vertex of a, and as many with one to each of b and to u. The
/// passes are those of the rings.
pub fn watched_rings(p: usize, q: usize, watchers: usize) -> Table {
    let mut game = rings(&[p, q]);
    let (t, u) = (p + q, add_vertex(&mut game, 0));
    add_edges(&mut game, [(u, u), (u, t)]);
    for _ in 0..watchers {
        let [x, y] = [(); 2].map(|()| add_vertex(&mut game, 2));
        add_edges(&mut game, (0..p).map(|v| (x, v)));
        add_edges(&mut game, (p..t).chain([u]).map(|v| (y, v)));
    }
    game
}

/// Copies of a game side by side; where `mixed`, vertices with a single successor get an owner
/// drawn anew in each copy, which leaves their class as it is.
pub fn copies(lcg: &mut Lcg, game: &Table, count: usize, mixed: bool) -> Table {
    let (n, successors) = (game.n(), game.successors());
    let mut all = Table { priorities: vec![], owners: vec![], edges: vec![] };
    for copy in 0..count {
        let shift = (copy * n) as u16;
        all.priorities.extend(&game.priorities);
        for (owner, next) in game.owners.iter().zip(&successors) {
            let free = mixed && next.len() == 1;
            all.owners.push(if free { lcg.below(2) as u16 } else { *owner });
        }
        let shifted = |&(source, target): &(u16, u16)| (source + shift, target + shift);
        all.edges.extend(game.edges.iter().map(shifted));
    }
    all
}
