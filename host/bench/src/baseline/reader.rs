//! The reader.

use super::{refused, EDGES, VERTICES};
use raskjomi::exports::RaskjomiAnswer;

/// The game's sizes, or its refusal.
pub fn read(game: &[u16]) -> Result<(usize, usize), RaskjomiAnswer> {
    let (n, m) = sizes(game)?;
    parts(game, n, m)?;
    Ok((n, m))
}

/// The game's sizes, or refusals 1 to 4.
pub fn sizes(game: &[u16]) -> Result<(usize, usize), RaskjomiAnswer> {
    if game.len() < 2 {
        return Err(refused(1, game.len()));
    }
    let (n, m) = (game[0] as usize, game[1] as usize);
    if n == 0 || n > VERTICES {
        return Err(refused(2, 0));
    }
    if m > EDGES {
        return Err(refused(3, 1));
    }
    if game.len() != 2 + 2 * n + 2 * m {
        return Err(refused(4, game.len()));
    }
    Ok((n, m))
}

/// Refusals 5, 6 and 8.
fn parts(game: &[u16], n: usize, m: usize) -> Result<(), RaskjomiAnswer> {
    let first = 2 + 2 * n;
    let at_least = |from: usize, end: usize, limit: usize| {
        game[from..end].iter().position(|&word| word as usize >= limit).map(|i| from + i)
    };
    if let Some(place) = at_least(2 + n, first, 2) {
        return Err(refused(5, place));
    }
    if let Some(place) = at_least(first, game.len(), n) {
        return Err(refused(6, place));
    }
    let sources = &game[first..first + m];
    match without_edge(sources, n) {
        Some(vertex) => Err(refused(8, vertex)),
        None => Ok(()),
    }
}

/// The first of n vertices that is the source of no edge.
pub fn without_edge(sources: &[u16], n: usize) -> Option<usize> {
    let mut has_edge = [false; VERTICES];
    sources.iter().for_each(|&source| has_edge[source as usize] = true);
    has_edge[..n].iter().position(|&has| !has)
}
