//! The passes by rows alone: what falls at a changed row is asked only of what its predecessors still have.

use super::losses::Losses;
use super::start::Priorities;
use crate::baseline::bits::Row;
use crate::baseline::edges::Edges;
use std::mem::swap;

/// Writes the rows of the order or, with `mirror`, of the largest governed bisimulation; the number of passes.
pub fn settle<const WORDS: usize, const ROWS: usize>(
    edges: &Edges<WORDS, ROWS>,
    priorities: &[u16],
    m: usize,
    mirror: bool,
    marked: &mut [Row<WORDS>; ROWS],
) -> u32 {
    let parted = Priorities::part(priorities, marked);
    if parted.count == 1 {
        return 1;
    }
    let (mut one, mut other) = (Losses::NONE, Losses::NONE);
    let (mut last, mut losses) = (&mut one, &mut other);
    last.begin();
    let all = Row::first(priorities.len());
    (0..priorities.len()).for_each(|v| last.add(v, all - marked[v]));
    let mut masks = Masks { edges, marked, gone: Losses::NONE };
    masks.first_pass(&parted, m, all, last, losses);
    let mut passes = 1;
    while masks.take_out(losses, mirror) {
        swap(&mut last, &mut losses);
        masks.pass(last, losses, |masks, a| masks.fall(a, last.of(a)));
        passes += 1;
    }
    passes
}

struct Masks<'a, const WORDS: usize, const ROWS: usize> {
    edges: &'a Edges<WORDS, ROWS>,
    /// The w for which (v, w) is marked, for each v.
    marked: &'a mut [Row<WORDS>; ROWS],
    /// For Odd's v what its successors' rows lost.
    gone: Losses<WORDS, ROWS>,
}

impl<const WORDS: usize, const ROWS: usize> Masks<'_, WORDS, ROWS> {
    /// The first pass. Where there are few priorities, what falls is worked out once for each.
    fn first_pass(
        &mut self,
        parted: &Priorities<ROWS>,
        m: usize,
        all: Row<WORDS>,
        last: &Losses<WORDS, ROWS>,
        losses: &mut Losses<WORDS, ROWS>,
    ) {
        if parted.are_few(m) {
            let falls = parted.falls(self.edges, self.marked, all);
            self.pass(last, losses, |_, a| falls[parted.number[a] as usize]);
        } else {
            self.pass(last, losses, |masks, a| masks.fall(a, last.of(a)));
        }
    }

    /// What rows lose after these losses, where `fall` tells what falls for Even's predecessors of a changed row.
    #[inline]
    fn pass(
        &mut self,
        last: &Losses<WORDS, ROWS>,
        losses: &mut Losses<WORDS, ROWS>,
        fall: impl Fn(&Self, usize) -> Row<WORDS>,
    ) {
        losses.begin();
        self.gone.begin();
        for i in 0..last.count {
            let a = last.at(i);
            let (near, falling) = (self.edges.predecessors[a], fall(self, a));
            if !falling.is_empty() {
                (near - self.edges.odd).each(|v| losses.add_some(v, self.marked[v] & falling));
            }
            (near & self.edges.odd).each(|v| self.gone.add(v, last.of(a)));
        }
        for i in 0..self.gone.count {
            let v = self.gone.at(i);
            losses.add_some(v, self.loss(v));
        }
    }

    /// What falls for a changed row, of what Even's predecessors still have beside themselves.
    #[inline]
    fn fall(&self, a: usize, lost: Row<WORDS>) -> Row<WORDS> {
        let mut mask = Row::EMPTY;
        let near = self.edges.predecessors[a] - self.edges.odd;
        near.each(|v| mask = mask | self.marked[v].without(v));
        if mask.is_empty() {
            return mask;
        }
        self.edges.fall_within(mask, lost, self.marked[a])
    }

    /// What Odd's v loses.
    #[inline]
    fn loss(&self, v: usize) -> Row<WORDS> {
        let mask = self.marked[v].without(v);
        if mask.is_empty() {
            return mask;
        }
        let (mut less, mut left) = (self.gone.of(v), Row::EMPTY);
        let some = self.edges.successors[v].all(|x| {
            less = less - self.marked[x];
            left = left | self.marked[x];
            !less.is_empty()
        });
        if !some {
            return Row::EMPTY;
        }
        self.edges.fall_within(mask, less, left)
    }

    /// Takes out what was lost and, with `mirror`, its reverse; whether that is something.
    fn take_out(&mut self, losses: &mut Losses<WORDS, ROWS>, mirror: bool) -> bool {
        if mirror {
            losses.add_reverses();
        }
        for v in (0..losses.count).map(|i| losses.at(i)) {
            self.marked[v] = self.marked[v] - losses.of(v);
        }
        losses.count > 0
    }
}
