//! Families of games of any size.

use crate::{LargeTable, Lcg};

/// Even's game of priority 0 with the given edges.
pub(crate) fn plain(n: usize, edges: impl IntoIterator<Item = (usize, usize)>) -> LargeTable {
    let edges = edges.into_iter().map(|(source, target)| (source as u32, target as u32)).collect();
    LargeTable { priorities: vec![0; n], owners: vec![0; n], edges }
}

/// A random game of n vertices and m edges, m at least n, with priorities below `priorities` and both owners.
/// An edge may stand several times.
pub fn large_random(lcg: &mut Lcg, n: usize, m: usize, priorities: usize) -> LargeTable {
    let first = (0..n).map(|v| (v, 0));
    let mut game = plain(n, first.chain((n..m).map(|_| (0, 0))));
    for (j, edge) in game.edges.iter_mut().enumerate() {
        let source = if j < n { j } else { lcg.below(n) };
        *edge = (source as u32, lcg.below(n) as u32);
    }
    lcg.shuffle(&mut game.edges);
    game.with_owners(lcg).with_priorities(lcg, priorities)
}

/// 0 to 1 to 2 and so on; the last vertex has a loop.
pub fn large_path(lcg: &mut Lcg, n: usize, priorities: usize) -> LargeTable {
    let path = plain(n, (0..n).map(|v| (v, (v + 1).min(n - 1))));
    path.with_owners(lcg).with_priorities(lcg, priorities)
}

/// One component, all of it Odd's: edges to the next vertex and to a later one, and from the last to 0, which
/// has the only priority 0. Even wins everywhere, and every edge is kept.
pub fn large_component(lcg: &mut Lcg, n: usize, priorities: usize) -> LargeTable {
    let next = (0..n).map(|v| (v, (v + 1) % n));
    let later: Vec<(usize, usize)> = (0..n - 1).map(|v| (v, lcg.between(v + 1, n - 1))).collect();
    let mut game = plain(n, next.chain(later)).with_priorities(lcg, priorities);
    game.priorities.iter_mut().for_each(|priority| *priority += 1);
    game.priorities[0] = 0;
    game.owners.fill(1);
    game
}

/// One component, all of it Odd's: edges to the next vertex, and from the last of each block of vertices back
/// to the first of it, for blocks of 2, 4, 8 vertices and so on, the larger a block the lower and even the
/// priority of its first vertex. Even wins everywhere, every edge is kept, and loops lie within one another.
pub fn large_nested(lcg: &mut Lcg, n: usize) -> LargeTable {
    let depth = |v: usize| if v == 0 { usize::BITS } else { v.trailing_zeros() };
    let next = (0..n).map(|v| (v, (v + 1) % n));
    let blocks = (1..usize::BITS).map(|bits| 1usize << bits).take_while(|&size| size < n);
    let back = blocks.flat_map(|size| (size - 1..n).step_by(size).map(move |v| (v, v + 1 - size)));
    let mut game = plain(n, next.chain(back.collect::<Vec<_>>()));
    game.owners.fill(1);
    for v in 0..n {
        let lowest = 2 * (usize::BITS - depth(v));
        // Odd priorities only within the smallest blocks, where each walk back passes a lower one.
        game.priorities[v] = if v % 2 == 1 { lowest + lcg.below(2) as u32 } else { lowest };
    }
    game
}

/// Each vertex has edges to the next and to the one after it, around; owners and priorities take turns.
pub fn large_ladder(n: usize) -> LargeTable {
    let mut game = plain(n, (0..2 * n).map(|i| (i / 2, (i / 2 + 1 + i % 2) % n)));
    for v in 0..n {
        (game.owners[v], game.priorities[v]) = (v as u32 % 2, v as u32 % 2);
    }
    game
}

/// Every vertex has an edge to every other one; owners take turns, and each priority is the vertex's number.
pub fn large_clique(n: usize) -> LargeTable {
    let pairs = (0..n * n).map(|i| (i / n, i % n));
    let mut game = plain(n, pairs.filter(|(v, w)| v != w || n == 1));
    for v in 0..n {
        (game.owners[v], game.priorities[v]) = (v as u32 % 2, v as u32);
    }
    game
}

/// Loops only.
pub fn large_loops(lcg: &mut Lcg, n: usize, priorities: usize) -> LargeTable {
    plain(n, (0..n).map(|v| (v, v))).with_owners(lcg).with_priorities(lcg, priorities)
}

/// A game of n vertices from any family, with its vertices and edges in another sequence now and then. Those of
/// the clique are at most 200.
pub fn any_large(lcg: &mut Lcg, n: usize) -> LargeTable {
    let few = lcg.pick(&[1, 2, 3, 6, 20]);
    let game = match lcg.below(10) {
        0..=2 => {
            let m = lcg.between(n, 4 * n);
            large_random(lcg, n, m, few)
        }
        3 => large_random(lcg, n, 2 * n, n),
        4 => large_path(lcg, n, few),
        5 => large_component(lcg, n, few),
        6 => large_nested(lcg, n),
        7 => large_ladder(n),
        8 => large_clique(n.min(200)),
        _ => large_loops(lcg, n, few),
    };
    if lcg.once_in(2) {
        game
    } else {
        game.shuffled(lcg)
    }
}
