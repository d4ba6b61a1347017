//! Sets of vertices as rows of bits, and sets of pairs.

use super::VERTICES;
use std::array::from_fn;
use std::ops::{BitAnd, BitOr, Sub};

/// A set of vertices: v is in it if bit v % 64 of word v / 64 is set. So many words hold all vertices of a game.
#[derive(Clone, Copy)]
pub struct Row<const WORDS: usize = { VERTICES / 64 }>([u64; WORDS]);

/// A row for each vertex.
pub type Rows = [Row; VERTICES];

impl<const WORDS: usize> Row<WORDS> {
    pub const EMPTY: Row<WORDS> = Row([0; WORDS]);

    /// The first n vertices.
    pub fn first(n: usize) -> Row<WORDS> {
        Row(from_fn(|k| match n.saturating_sub(64 * k) {
            0 => 0,
            left => u64::MAX >> (64 - left.min(64)),
        }))
    }

    /// The words that the first n vertices take.
    pub fn words(&self, n: usize) -> &[u64] {
        &self.0[..n.div_ceil(64)]
    }

    /// The places of the items for which the test holds.
    pub fn of<T>(items: &[T], test: impl Fn(&T) -> bool) -> Row<WORDS> {
        let bit = |word: u64, item: &T| word << 1 | test(item) as u64;
        let word = |items: &[T]| items.iter().rev().fold(0, bit);
        let mut words = items.chunks(64).map(word);
        Row(from_fn(|_| words.next().unwrap_or(0)))
    }

    pub fn insert(&mut self, v: usize) {
        self.0[v / 64] |= 1 << (v % 64);
    }

    pub fn remove(&mut self, v: usize) {
        self.0[v / 64] &= !(1 << (v % 64));
    }

    /// The row without v.
    pub fn without(mut self, v: usize) -> Row<WORDS> {
        self.remove(v);
        self
    }

    pub fn has(self, v: usize) -> bool {
        self.0[v / 64] >> (v % 64) & 1 == 1
    }

    pub fn is_empty(self) -> bool {
        self.0.iter().fold(0, |all, word| all | word) == 0
    }

    pub fn len(self) -> u32 {
        self.0.iter().map(|word| word.count_ones()).sum()
    }

    /// Whether the rows have a member in common.
    pub fn meets(self, other: Row<WORDS>) -> bool {
        !(self & other).is_empty()
    }

    /// Whether the test holds for every member; it is tried, ascending, until it doesn't.
    #[inline]
    pub fn all(self, mut test: impl FnMut(usize) -> bool) -> bool {
        for (k, mut word) in self.0.into_iter().enumerate() {
            while word != 0 {
                if !test(64 * k + word.trailing_zeros() as usize) {
                    return false;
                }
                word &= word - 1;
            }
        }
        true
    }

    /// Visits the members, ascending.
    #[inline]
    pub fn each(self, mut visit: impl FnMut(usize)) {
        self.all(|v| {
            visit(v);
            true
        });
    }

    /// The lowest member for which the test holds.
    #[inline]
    pub fn find(self, mut test: impl FnMut(usize) -> bool) -> Option<usize> {
        let mut found = None;
        self.all(|v| {
            found = test(v).then_some(v);
            found.is_none()
        });
        found
    }

    /// The member, where there is one alone.
    pub fn only(self) -> Option<usize> {
        let lowest = self.find(|_| true)?;
        self.without(lowest).is_empty().then_some(lowest)
    }

    /// The members for which the test holds.
    #[inline]
    pub fn filter(self, mut test: impl FnMut(usize) -> bool) -> Row<WORDS> {
        let mut kept = Row::EMPTY;
        self.each(|v| kept.0[v / 64] |= (test(v) as u64) << (v % 64));
        kept
    }

    /// The union of the members' rows.
    #[inline]
    pub fn union<const ROWS: usize>(self, rows: &[Row<WORDS>; ROWS]) -> Row<WORDS> {
        let mut union = Row::EMPTY;
        self.each(|v| union = union | rows[v]);
        union
    }
}

/// A set of pairs of vertices, which are numbered row by row.
pub struct Pairs([u64; VERTICES * VERTICES / 64]);

impl Pairs {
    pub const NONE: Pairs = Pairs([0; VERTICES * VERTICES / 64]);

    /// Adds a pair; whether it is new.
    pub fn insert(&mut self, pair: usize) -> bool {
        let new = !self.has(pair);
        self.0[pair / 64] |= 1 << (pair % 64);
        new
    }

    pub fn has(&self, pair: usize) -> bool {
        self.0[pair / 64] >> (pair % 64) & 1 == 1
    }
}

impl<const WORDS: usize> BitAnd for Row<WORDS> {
    type Output = Row<WORDS>;

    fn bitand(self, other: Row<WORDS>) -> Row<WORDS> {
        Row(from_fn(|k| self.0[k] & other.0[k]))
    }
}

impl<const WORDS: usize> BitOr for Row<WORDS> {
    type Output = Row<WORDS>;

    fn bitor(self, other: Row<WORDS>) -> Row<WORDS> {
        Row(from_fn(|k| self.0[k] | other.0[k]))
    }
}

impl<const WORDS: usize> Sub for Row<WORDS> {
    type Output = Row<WORDS>;

    fn sub(self, other: Row<WORDS>) -> Row<WORDS> {
        Row(from_fn(|k| self.0[k] & !other.0[k]))
    }
}
