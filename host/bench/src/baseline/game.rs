//! A game by its parts.

use super::index::Index;
use super::{EDGES, STARTS};

/// A game's priorities, owners and successors.
pub struct Game<'a> {
    pub priorities: &'a [u16],
    pub owners: &'a [u16],
    pub next: Index<'a>,
}

impl<'a> Game<'a> {
    /// The parts of a table that the reader accepts, with its edges grouped by source.
    pub fn new(
        table: &'a [u16],
        n: usize,
        m: usize,
        starts: &'a mut [u16; STARTS],
        places: &'a mut [u16; EDGES],
    ) -> Game<'a> {
        let (sources, targets) = table[2 + 2 * n..].split_at(m);
        let next = Index::build(sources, targets, &mut starts[..n + 1], places);
        Game { priorities: &table[2..2 + n], owners: &table[2 + n..2 + 2 * n], next }
    }
}
