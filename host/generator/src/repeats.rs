//! Tables of one game that have its edges several times.

use crate::sample::MOST_EDGES;
use crate::{Lcg, Table};

/// The same game with further copies of its edges: a few, as many as it has, or as many as the limit
/// leaves. A copy stands beside its equal or anywhere.
pub fn repeated(lcg: &mut Lcg, game: &Table) -> Table {
    let room = MOST_EDGES - game.m();
    let copies = match lcg.below(10) {
        0 => room,
        1..=3 => room.min(game.m()),
        _ => room.min(lcg.between(1, 4)),
    };
    // Where few edges are chosen from, some stand many times.
    let chosen = lcg.between(1, game.m());
    let mut edges = game.edges.clone();
    edges.extend((0..copies).map(|_| game.edges[lcg.below(chosen)]));
    match lcg.below(3) {
        0 => edges.sort(),
        1 => lcg.shuffle(&mut edges),
        _ => {}
    }
    Table { edges, ..game.clone() }
}

/// Another table of the same game: each edge once or more often, in any sequence.
pub fn same_game(lcg: &mut Lcg, game: &Table) -> Table {
    let mut once = game.clone().without_repeats();
    lcg.shuffle(&mut once.edges);
    if lcg.once_in(4) {
        once
    } else {
        repeated(lcg, &once)
    }
}
