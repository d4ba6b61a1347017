//! Games of any size with planted symmetry, and families of them.

use crate::large_families::plain;
use crate::{large_random, LargeTable, Lcg};

/// What a game with planted symmetry is drawn from.
#[derive(Clone, Copy, Debug)]
pub struct Planting {
    /// The numbers of vertices and of classes, which are no more.
    pub n: usize,
    pub classes: usize,
    /// Each class has up to so many edges.
    pub degree: usize,
    /// Each edge of its class gives a vertex up to so many.
    pub copies: usize,
}

/// The edges of each class by their targets, its priority and its owner.
struct Quotient {
    rows: Vec<Vec<u32>>,
    priorities: Vec<u32>,
    owners: Vec<u32>,
}

impl Quotient {
    fn drawn(lcg: &mut Lcg, k: usize, degree: usize) -> Quotient {
        let row = |lcg: &mut Lcg| {
            let mut row: Vec<u32> =
                (0..lcg.between(1, degree)).map(|_| lcg.below(k) as u32).collect();
            row.sort_unstable();
            row.dedup();
            row
        };
        Quotient {
            rows: (0..k).map(|_| row(lcg)).collect(),
            priorities: (0..k).map(|_| lcg.below(6) as u32).collect(),
            owners: (0..k).map(|_| lcg.below(2) as u32).collect(),
        }
    }

    /// Any owner where there is no choice.
    fn owner(&self, lcg: &mut Lcg, class: u32) -> u32 {
        match self.rows[class as usize].len() {
            1 => lcg.below(2) as u32,
            _ => self.owners[class as usize],
        }
    }
}

/// A game, and the class of each vertex: vertices of one class have edges to the same classes. Edges stand in any
/// sequence, and some several times.
pub fn planted(lcg: &mut Lcg, planting: Planting) -> (LargeTable, Vec<u32>) {
    let Planting { n, classes: k, degree, copies } = planting;
    let quotient = Quotient::drawn(lcg, k, degree);
    let mut classes: Vec<u32> =
        (0..n).map(|v| if v < k { v } else { lcg.below(k) } as u32).collect();
    lcg.shuffle(&mut classes);
    let mut members = vec![Vec::new(); k];
    classes.iter().enumerate().for_each(|(v, &class)| members[class as usize].push(v as u32));
    let mut edges = Vec::new();
    for (v, &class) in classes.iter().enumerate() {
        for &target in &quotient.rows[class as usize] {
            let copies = lcg.between(1, copies);
            edges.extend((0..copies).map(|_| (v as u32, lcg.pick(&members[target as usize]))));
        }
    }
    lcg.shuffle(&mut edges);
    let priorities = classes.iter().map(|&class| quotient.priorities[class as usize]).collect();
    let owners = classes.iter().map(|&class| quotient.owner(lcg, class)).collect();
    (LargeTable { priorities, owners, edges }, classes)
}

/// A game of n vertices in any number of classes, most of them with several members.
pub fn any_planted(lcg: &mut Lcg, n: usize) -> (LargeTable, Vec<u32>) {
    let most = lcg.pick(&[1, 3, n.div_ceil(10), n.div_ceil(2), n]).min(n);
    let classes = lcg.between(1, most);
    let (degree, copies) = (lcg.between(1, 5), lcg.between(1, 3));
    planted(lcg, Planting { n, classes, degree, copies })
}

/// Two chains that are alike, of n vertices in all, n even: each vertex has an edge to the next, and the last, a
/// loop, priority 1, the others 0. The i-th vertices of both are a class, and from the end on each round finds one.
pub fn large_chains(lcg: &mut Lcg, n: usize) -> LargeTable {
    let last = |v: usize| v + 1 == n / 2 || v + 1 == n;
    let next = |v: usize| if last(v) { v } else { v + 1 };
    let mut game = plain(n, (0..n).map(|v| (v, next(v)))).with_owners(lcg);
    (game.priorities[n / 2 - 1], game.priorities[n - 1]) = (1, 1);
    game
}

/// A random game of one priority: all vertices are one class.
pub fn large_uniform(lcg: &mut Lcg, n: usize, m: usize) -> LargeTable {
    large_random(lcg, n, m, 1)
}

/// A random game in which no two priorities are equal: each vertex is a class.
pub fn large_distinct(lcg: &mut Lcg, n: usize, m: usize) -> LargeTable {
    let mut game = large_random(lcg, n, m, 1);
    game.priorities = (0..n as u32).collect();
    lcg.shuffle(&mut game.priorities);
    game
}

/// A hub with an edge to each vertex, itself too, and each vertex with one to the hub.
pub fn large_hub(lcg: &mut Lcg, n: usize, priorities: usize) -> LargeTable {
    let game = plain(n, (0..n).flat_map(|v| [(0, v), (v, 0)]));
    game.with_owners(lcg).with_priorities(lcg, priorities).shuffled(lcg)
}
