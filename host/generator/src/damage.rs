//! Damaged tables, one kind for each refusal of the reader.

use crate::repeats::repeated;
use crate::{Lcg, Table};

/// The refusals of the reader, in the sequence of its checks.
pub const REFUSALS: [u32; 7] = [1, 2, 3, 4, 5, 6, 8];

/// The game's table, damaged so that the reader refuses it with `number`, one of [`REFUSALS`].
pub fn damaged(lcg: &mut Lcg, game: &Table, number: u32) -> Vec<u16> {
    let (n, m) = (game.n(), game.m());
    let mut words = game.words();
    match number {
        1 => words.truncate(lcg.below(2)),
        2 => words[0] = lcg.pick(&[0, 513, 600, 65_535]),
        3 => words[1] = lcg.pick(&[4_097, 5_000, 65_535]),
        4 => change_length(lcg, &mut words),
        5 => words[2 + n + lcg.below(n)] = lcg.pick(&[2, 3, 256, 65_535]),
        6 => (0..lcg.between(1, 4)).for_each(|_| {
            words[2 + 2 * n + lcg.below(2 * m)] = lcg.pick(&[n as u16, n as u16 + 1, 65_535]);
        }),
        _ => words = without_edges(lcg, game).words(),
    }
    words
}

/// The table damaged in several ways at once, which shows the sequence of the checks; some edges
/// stand several times, which is no damage.
pub fn damaged_often(lcg: &mut Lcg, game: &Table) -> Vec<u16> {
    let mut often = game.clone();
    if lcg.once_in(2) {
        often = repeated(lcg, &often);
    }
    if lcg.once_in(2) {
        often = without_edges(lcg, &often);
    }
    let mut words = often.words();
    let last = words.len();
    for _ in 0..lcg.below(4) {
        let place = lcg.between(2 + often.n(), last - 1);
        words[place] = lcg.pick(&[0, 1, 2, often.n() as u16, 65_535]);
    }
    if lcg.once_in(8) {
        change_length(lcg, &mut words);
    }
    words
}

fn change_length(lcg: &mut Lcg, words: &mut Vec<u16>) {
    if lcg.once_in(2) {
        words.truncate(lcg.between(2, words.len() - 1));
    } else {
        for _ in 0..lcg.between(1, 5) {
            words.push(lcg.below(4) as u16);
        }
    }
}

/// A vertex has no edge out; the others keep theirs.
fn without_edges(lcg: &mut Lcg, game: &Table) -> Table {
    let vertex = lcg.below(game.n()) as u16;
    let mut cut = game.clone();
    cut.edges.retain(|edge| edge.0 != vertex);
    if cut.edges.is_empty() {
        cut.edges.extend((1..game.n() as u16).map(|v| (v, v)));
    }
    cut
}
