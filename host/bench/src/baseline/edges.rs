//! A game's edges as rows of bits, and what falls when vertices are taken out of a row.

use super::bits::Row;
use super::VERTICES;

/// The edges of a game of at most so many vertices.
pub struct Edges<const WORDS: usize = { VERTICES / 64 }, const ROWS: usize = VERTICES> {
    /// Odd's vertices.
    pub odd: Row<WORDS>,
    pub successors: [Row<WORDS>; ROWS],
    pub predecessors: [Row<WORDS>; ROWS],
}

impl<const WORDS: usize, const ROWS: usize> Edges<WORDS, ROWS> {
    pub const EMPTY: Edges<WORDS, ROWS> =
        Edges { odd: Row::EMPTY, successors: [Row::EMPTY; ROWS], predecessors: [Row::EMPTY; ROWS] };

    pub fn set_owners(&mut self, owners: &[u16]) {
        self.odd = Row::of(owners, |&owner| owner == 1);
    }

    pub fn insert(&mut self, source: usize, target: usize) {
        self.successors[source].insert(target);
        self.predecessors[target].insert(source);
    }

    /// The vertices with a successor in `lost` that are Odd's or have none in `left`.
    pub fn fall(&self, lost: Row<WORDS>, left: Row<WORDS>) -> Row<WORDS> {
        self.falling(lost.union(&self.predecessors), self.odd, left)
    }

    /// Of `mask`, what `fall` gives; the smaller of `mask` and `lost` is gone through.
    #[inline]
    pub fn fall_within(&self, mask: Row<WORDS>, lost: Row<WORDS>, left: Row<WORDS>) -> Row<WORDS> {
        let near = if mask.len() < lost.len() {
            mask - self.apart(mask, lost)
        } else {
            mask & lost.union(&self.predecessors)
        };
        self.falling(near, self.odd, left)
    }

    /// What `fall` gives, where `lost` and `left` together are all vertices; the smaller of the two is gone through.
    pub fn fall_of_all(&self, lost: Row<WORDS>, left: Row<WORDS>) -> Row<WORDS> {
        if lost.len() < left.len() {
            return self.fall(lost, left);
        }
        let all = lost | left;
        all - self.falling(left.union(&self.predecessors), all - self.odd, lost)
    }

    /// Of `near` the vertices of a player, and the other's without a successor in `left`.
    #[inline]
    fn falling(&self, near: Row<WORDS>, player: Row<WORDS>, left: Row<WORDS>) -> Row<WORDS> {
        near & player | self.apart(near - player, left)
    }

    /// The members of a row without a successor in another.
    #[inline]
    fn apart(&self, row: Row<WORDS>, other: Row<WORDS>) -> Row<WORDS> {
        row.filter(|w| !self.successors[w].meets(other))
    }
}
