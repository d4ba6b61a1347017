//! The reader: a word that is too large is looked for only where the largest is.

use crate::baseline::bits::Row;
use crate::baseline::edges::Edges;
use crate::baseline::reader::{sizes, without_edge};
use crate::baseline::refused;
use raskjomi::exports::RaskjomiAnswer;
use std::ops::Range;

/// The game's sizes, or refusals 1 to 6.
pub fn read(game: &[u16]) -> Result<(usize, usize), RaskjomiAnswer> {
    let (n, m) = sizes(game)?;
    let first = 2 + 2 * n;
    below(game, 2 + n..first, 2, 5)?;
    below(game, first..game.len(), n, 6)?;
    Ok((n, m))
}

/// The same, and refusal 8.
pub fn read_whole(game: &[u16]) -> Result<(usize, usize), RaskjomiAnswer> {
    let (n, m) = read(game)?;
    match without_edge(&game[2 + 2 * n..2 + 2 * n + m], n) {
        Some(vertex) => Err(refused(8, vertex)),
        None => Ok((n, m)),
    }
}

/// Puts owners and edges into empty rows; or refusal 8.
pub fn read_edges<const WORDS: usize, const ROWS: usize>(
    game: &[u16],
    n: usize,
    m: usize,
    edges: &mut Edges<WORDS, ROWS>,
) -> Result<(), RaskjomiAnswer> {
    edges.set_owners(&game[2 + n..2 + 2 * n]);
    let (sources, targets) = game[2 + 2 * n..].split_at(m);
    for (&source, &target) in sources.iter().zip(targets) {
        edges.insert(source as usize, target as usize);
    }
    match edges.successors[..n].iter().position(|row| row.is_empty()) {
        Some(vertex) => Err(refused(8, vertex)),
        None => Ok(()),
    }
}

/// The successors of each vertex, in a game that has no refusal below 8.
pub fn successors<const WORDS: usize, const ROWS: usize>(game: &[u16]) -> [Row<WORDS>; ROWS] {
    let mut successors = [Row::EMPTY; ROWS];
    let (n, m) = (game[0] as usize, game[1] as usize);
    let (sources, targets) = game[2 + 2 * n..].split_at(m);
    for (&source, &target) in sources.iter().zip(targets) {
        successors[source as usize].insert(target as usize);
    }
    successors
}

/// Whether all words of a part are below a limit; else the refusal of this number.
pub fn below(
    words: &[u16],
    part: Range<usize>,
    limit: usize,
    number: u32,
) -> Result<(), RaskjomiAnswer> {
    let (first, words) = (part.start, &words[part]);
    let largest = words.iter().fold(0, |largest, &word| word.max(largest));
    if (largest as usize) < limit {
        return Ok(());
    }
    let place = words.iter().position(|&word| word as usize >= limit);
    Err(refused(number, first + place.unwrap_or(0)))
}
