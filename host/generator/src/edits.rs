//! Edges to add and to remove, and traces of such edits.

use crate::{Lcg, Table};

/// An edge that the game has, as it mostly is for a leaving, or any other pair; some ends are no
/// vertices.
pub fn edge_to_edit(lcg: &mut Lcg, game: &Table, there: bool) -> (u32, u32) {
    let any = |lcg: &mut Lcg| lcg.below(game.n()) as u32;
    let edge = if there != lcg.once_in(8) {
        let (source, target) = game.edges[lcg.below(game.m())];
        (source as u32, target as u32)
    } else {
        (any(lcg), any(lcg))
    };
    let outside = [game.n() as u32, game.n() as u32 + 1, 65_535, 65_536 + edge.0, u32::MAX];
    match lcg.below(24) {
        0 => (lcg.pick(&outside), edge.1),
        1 => (edge.0, lcg.pick(&outside)),
        _ => edge,
    }
}

/// The words behind a table: none, one, two, or more.
pub fn words_behind(lcg: &mut Lcg) -> Vec<u16> {
    let count = lcg.pick(&[0, 1, 2, 2, 3, 40]);
    (0..count).map(|_| lcg.below(65_536) as u16).collect()
}

/// The words of a trace: its count, the sources, the targets.
pub fn trace_words(entries: &[(u16, u16)]) -> Vec<u16> {
    let count = [entries.len() as u16];
    let sources: Vec<u16> = entries.iter().map(|entry| entry.0).collect();
    let targets: Vec<u16> = entries.iter().map(|entry| entry.1).collect();
    [&count[..], &sources, &targets].concat()
}

/// A trace for a game: edges that it has, any other pairs, edges of earlier entries again, and now and then
/// an end that is no vertex.
pub fn trace(lcg: &mut Lcg, game: &Table) -> Vec<(u16, u16)> {
    let n = game.n();
    let (count, bad) = (lcg.pick(&[0, 1, 2, 3, 5, 8, 20]), lcg.once_in(3));
    let mut entries: Vec<(u16, u16)> = Vec::new();
    for _ in 0..count {
        let entry = match lcg.below(5) {
            0 | 1 => game.edges[lcg.below(game.m())],
            2 if !entries.is_empty() => entries[lcg.below(entries.len())],
            _ => (lcg.below(n) as u16, lcg.below(n) as u16),
        };
        let outside = lcg.pick(&[n as u16, n as u16 + 1, 512, 65_535]);
        entries.push(match lcg.below(16) {
            0 if bad => (outside, entry.1),
            1 if bad => (entry.0, outside),
            _ => entry,
        });
    }
    entries
}

/// The words of a trace, or of one whose count and length don't fit.
pub fn damaged_trace(lcg: &mut Lcg, entries: &[(u16, u16)]) -> Vec<u16> {
    let mut words = trace_words(entries);
    match lcg.below(6) {
        0 => words.clear(),
        1 => words.push(lcg.below(3) as u16),
        2 => words.truncate(words.len() - 1),
        3 => words[0] += 1,
        4 => words = [vec![4097], vec![0; 2 * 4097]].concat(),
        _ => words[0] = 65_535,
    }
    words
}
