//! What rows lose in a pass.

use crate::baseline::bits::Row;

/// No single vertex.
const MANY: u16 = u16::MAX;

/// The losses of a pass.
pub struct Losses<const WORDS: usize, const ROWS: usize> {
    /// The rows that lose something, in the sequence in which they were found.
    losing: [u16; ROWS],
    pub count: usize,
    /// What each of these loses, and the vertex that is known to be all of it.
    lost: [Row<WORDS>; ROWS],
    single: [u16; ROWS],
    /// The number of the pass, and the last one in which each row lost something.
    pass: u32,
    last: [u32; ROWS],
}

impl<const WORDS: usize, const ROWS: usize> Losses<WORDS, ROWS> {
    pub const NONE: Losses<WORDS, ROWS> = Losses {
        losing: [0; ROWS],
        count: 0,
        lost: [Row::EMPTY; ROWS],
        single: [MANY; ROWS],
        pass: 0,
        last: [0; ROWS],
    };

    /// Begins the next pass.
    pub fn begin(&mut self) {
        self.pass += 1;
        self.count = 0;
    }

    /// The row that was found at this place.
    #[inline]
    pub fn at(&self, place: usize) -> usize {
        self.losing[place] as usize
    }

    /// What row v loses.
    #[inline]
    pub fn of(&self, v: usize) -> Row<WORDS> {
        self.lost[v]
    }

    /// The vertex that row v loses, if it is one alone.
    #[inline]
    pub fn single(&self, v: usize) -> Option<usize> {
        match self.single[v] {
            MANY => self.lost[v].only(),
            w => Some(w as usize),
        }
    }

    /// Row v loses these, too.
    #[inline]
    pub fn add(&mut self, v: usize, lost: Row<WORDS>) {
        self.lost[v] = if self.is_first(v) { lost } else { self.lost[v] | lost };
        self.single[v] = MANY;
    }

    /// The same, where they may be none.
    #[inline]
    pub fn add_some(&mut self, v: usize, lost: Row<WORDS>) {
        if !lost.is_empty() {
            self.add(v, lost);
        }
    }

    /// Adds the reverse of each loss.
    pub fn add_reverses(&mut self) {
        for i in 0..self.count {
            let v = self.at(i);
            self.of(v).each(|w| self.add_one(w, v));
        }
    }

    /// Row v loses w, too.
    #[inline]
    pub fn add_one(&mut self, v: usize, w: usize) {
        if self.is_first(v) {
            self.lost[v] = Row::EMPTY;
            self.single[v] = w as u16;
        } else if self.single[v] != w as u16 {
            self.single[v] = MANY;
        }
        self.lost[v].insert(w);
    }

    /// Whether row v lost nothing in this pass until now; it does now.
    #[inline]
    fn is_first(&mut self, v: usize) -> bool {
        let first = self.last[v] != self.pass;
        if first {
            self.last[v] = self.pass;
            self.losing[self.count] = v as u16;
            self.count += 1;
        }
        first
    }
}
