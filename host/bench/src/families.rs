//! The families of games on which the order's calls are measured.

use generator::{chain, lift, random, rings, watched_rings, Lcg, Table};

/// The sizes of each family.
pub const SIZES: [usize; 7] = [8, 16, 32, 64, 128, 256, 512];

/// A family's name, and its game of n vertices or a few less; none where n is too small.
type Family = (&'static str, fn(usize) -> Option<Table>);

pub const FAMILIES: [Family; 13] = [
    ("random, 1 priority, sparse", |n| random_game(n, 1, SPARSE)),
    ("random, 1 priority, dense", |n| random_game(n, 1, DENSE)),
    ("random, 2 priorities, sparse", |n| random_game(n, 2, SPARSE)),
    ("random, 2 priorities, dense", |n| random_game(n, 2, DENSE)),
    ("random, 8 priorities, sparse", |n| random_game(n, 8, SPARSE)),
    ("random, 8 priorities, dense", |n| random_game(n, 8, DENSE)),
    ("random, all different, sparse", |n| all_different(n, SPARSE)),
    ("random, all different, dense", |n| all_different(n, DENSE)),
    ("two rings", |n| Some(rings(&[n / 2 - 1, n / 2]))),
    ("two rings watched, Even", |n| watched(n, 0)),
    ("two rings watched, Odd", |n| watched(n, 1)),
    ("chain", |n| Some(chain(n))),
    ("lift", |n| Some(lift(n))),
];

/// The most edges out of each vertex on average.
const SPARSE: usize = 2;
const DENSE: usize = 16;
const EDGES: usize = crate::baseline::EDGES;

/// A random game with so many edges out of each vertex on average, or as many as there may be.
fn random_game(n: usize, priorities: usize, degree: usize) -> Option<Table> {
    let degree = degree.min(n).min(EDGES / n);
    Some(random(&mut Lcg::new(n as u64), n, n * degree, priorities))
}

/// The same with a priority of its own for each vertex.
fn all_different(n: usize, degree: usize) -> Option<Table> {
    let priorities = (0..n as u16).collect();
    random_game(n, 1, degree).map(|game| Table { priorities, ..game })
}

/// Two rings that are watched, all of one player's.
fn watched(n: usize, player: u16) -> Option<Table> {
    let watchers = (n / 16).min(if n < 512 { 8 } else { 6 });
    let p = n / 2 - watchers - 2;
    (watchers > 0).then(|| watched_rings(p, p + 1, watchers).owned_by(player))
}
