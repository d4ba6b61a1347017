//! The predecessors of each vertex as lists.

use crate::baseline::edges::Edges;
use crate::baseline::EDGES;

/// For each vertex a part of one list: first Even's predecessors, then Odd's.
pub struct Predecessors<const ROWS: usize> {
    list: [u16; EDGES],
    /// Where Even's begin, where Odd's do, and where these end.
    bounds: [[u16; 3]; ROWS],
}

impl<const ROWS: usize> Predecessors<ROWS> {
    /// The lists of the first n vertices.
    pub fn of<const WORDS: usize>(edges: &Edges<WORDS, ROWS>, n: usize) -> Predecessors<ROWS> {
        let mut lists = Predecessors { list: [0; EDGES], bounds: [[0; 3]; ROWS] };
        let mut end = 0;
        for (row, bounds) in edges.predecessors[..n].iter().zip(&mut lists.bounds) {
            let mut append = |v: usize| {
                lists.list[end] = v as u16;
                end += 1;
            };
            (*row - edges.odd).each(&mut append);
            (*row & edges.odd).each(append);
            let [even, odd] = [*row - edges.odd, *row].map(|row| row.len() as u16);
            let first = end as u16 - odd;
            *bounds = [first, first + even, end as u16];
        }
        lists
    }

    /// Even's predecessors of v.
    pub fn even(&self, v: usize) -> &[u16] {
        let [first, odd, _] = self.bounds[v];
        &self.list[first as usize..odd as usize]
    }

    /// Odd's predecessors of v.
    pub fn odd(&self, v: usize) -> &[u16] {
        let [_, odd, end] = self.bounds[v];
        &self.list[odd as usize..end as usize]
    }
}
