//! The passes by rows, by their columns and by lists: each row that lost something in the last pass tells its
//! predecessors, and one that lost a vertex alone tells it by lists.

use super::losses::Losses;
use super::predecessors::Predecessors;
use super::start::Priorities;
use crate::baseline::bits::Row;
use crate::baseline::edges::Edges;

/// Writes the rows of the order or, with `mirror`, of the largest governed bisimulation; the number of passes.
pub fn settle<const WORDS: usize, const ROWS: usize>(
    edges: &Edges<WORDS, ROWS>,
    priorities: &[u16],
    m: usize,
    mirror: bool,
    marked: &mut [Row<WORDS>; ROWS],
) -> u32 {
    let n = priorities.len();
    let parted = Priorities::part(priorities, marked);
    if parted.count == 1 {
        return 1;
    }
    let all = Row::first(n);
    let mut rounds = Rounds {
        edges,
        predecessors: Predecessors::of(edges, n),
        columns: *marked,
        marked,
        changed: [0; ROWS],
        count: n,
        lost: [Row::EMPTY; ROWS],
        single: [None; ROWS],
        reached: [all; ROWS],
        losses: Losses::NONE,
        gone: Losses::NONE,
        mirror,
    };
    rounds.start(n, all);
    rounds.first_pass(&parted, m, all);
    let mut passes = 1;
    while rounds.take_out() {
        rounds.pass(|rounds, a| rounds.fall(a));
        passes += 1;
    }
    passes
}

struct Rounds<'a, const WORDS: usize, const ROWS: usize> {
    edges: &'a Edges<WORDS, ROWS>,
    predecessors: Predecessors<ROWS>,
    /// The w for which (v, w) is marked, for each v; and the v for each w, where the relation isn't symmetric.
    marked: &'a mut [Row<WORDS>; ROWS],
    columns: [Row<WORDS>; ROWS],
    /// The rows that lost marks in the last pass, and how many they are.
    changed: [u16; ROWS],
    count: usize,
    /// What each of these lost: one vertex alone, or a row.
    single: [Option<u16>; ROWS],
    lost: [Row<WORDS>; ROWS],
    /// For Odd's v the union of its successors' rows.
    reached: [Row<WORDS>; ROWS],
    /// What rows lose in this pass.
    losses: Losses<WORDS, ROWS>,
    /// For Odd's v what its successors' rows lost, as far as it is in `reached`.
    gone: Losses<WORDS, ROWS>,
    /// Whether the reverse of what is lost is lost too.
    mirror: bool,
}

impl<const WORDS: usize, const ROWS: usize> Rounds<'_, WORDS, ROWS> {
    /// All rows changed in pass 0.
    fn start(&mut self, n: usize, all: Row<WORDS>) {
        for v in 0..n {
            self.changed[v] = v as u16;
            self.lost[v] = all - self.marked[v];
        }
    }

    /// The first pass. Where there are few priorities, what falls is worked out once for each.
    fn first_pass(&mut self, parted: &Priorities<ROWS>, m: usize, all: Row<WORDS>) {
        if parted.are_few(m) {
            let falls = parted.falls(self.edges, self.marked, all);
            self.pass(|_, a| falls[parted.number[a] as usize]);
        } else {
            self.pass(|rounds, a| rounds.fall(a));
        }
    }

    /// What rows lose in a pass, where `fall` tells what falls for Even's predecessors of a changed row.
    #[inline]
    fn pass(&mut self, fall: impl Fn(&Self, usize) -> Row<WORDS>) {
        self.losses.begin();
        self.gone.begin();
        for i in 0..self.count {
            let a = self.changed[i] as usize;
            match self.single[a] {
                Some(x) => self.tell_one(a, x as usize),
                None => self.tell(a, fall(self, a)),
            }
        }
        for i in 0..self.gone.count {
            self.lose_odd(self.gone.at(i));
        }
    }

    /// What falls for a changed row, of what Even's predecessors still have beside themselves.
    #[inline]
    fn fall(&self, a: usize) -> Row<WORDS> {
        let mut mask = Row::EMPTY;
        for &v in self.predecessors.even(a) {
            mask = mask | self.marked[v as usize].without(v as usize);
        }
        if mask.is_empty() {
            return mask;
        }
        self.edges.fall_within(mask, self.lost[a], self.marked[a])
    }

    /// Tells the predecessors of a, for which these fall.
    #[inline]
    fn tell(&mut self, a: usize, fall: Row<WORDS>) {
        if !fall.is_empty() {
            for &v in self.predecessors.even(a) {
                self.losses.add_some(v as usize, self.marked[v as usize] & fall);
            }
        }
        for &v in self.predecessors.odd(a) {
            self.gone.add_some(v as usize, self.lost[a] & self.reached[v as usize]);
        }
    }

    /// Tells the predecessors of a, whose row lost x alone: what can fall is a predecessor of x.
    #[inline]
    fn tell_one(&mut self, a: usize, x: usize) {
        for i in 0..self.predecessors.even(x).len() {
            self.lose_pair(a, self.predecessors.even(x)[i] as usize, false);
        }
        for i in 0..self.predecessors.odd(x).len() {
            self.lose_pair(a, self.predecessors.odd(x)[i] as usize, true);
        }
        let column = self.column(x);
        for &v in self.predecessors.odd(a) {
            let v = v as usize;
            if self.reached[v].has(x) && !self.edges.successors[v].meets(column) {
                self.gone.add_one(v, x);
            }
        }
    }

    /// Even's predecessors of a lose w, if it falls. Where that isn't known it is asked at the first that has w.
    #[inline]
    fn lose_pair(&mut self, a: usize, w: usize, known: bool) {
        let mut falls = known;
        for &v in self.predecessors.even(a) {
            let v = v as usize;
            if v == w || !self.marked[v].has(w) {
                continue;
            }
            if !falls && self.edges.successors[w].meets(self.marked[a]) {
                return;
            }
            falls = true;
            self.losses.add_one(v, w);
        }
    }

    /// What Odd's v loses.
    #[inline]
    fn lose_odd(&mut self, v: usize) {
        let mask = self.marked[v].without(v);
        if mask.is_empty() {
            return;
        }
        let (next, gone) = (self.edges.successors[v], self.gone.of(v));
        let less = if gone.len() <= next.len() {
            gone.filter(|x| !next.meets(self.column(x)))
        } else {
            let mut less = gone;
            next.each(|x| less = less - self.marked[x]);
            less
        };
        if less.is_empty() {
            return;
        }
        self.reached[v] = self.reached[v] - less;
        self.losses.add_some(v, self.edges.fall_within(mask, less, self.reached[v]));
    }

    /// The v for which (v, x) is marked.
    #[inline]
    fn column(&self, x: usize) -> Row<WORDS> {
        if self.mirror {
            self.marked[x]
        } else {
            self.columns[x]
        }
    }

    /// Takes out what was lost; whether that is something.
    #[inline]
    fn take_out(&mut self) -> bool {
        if self.mirror {
            self.losses.add_reverses();
        }
        self.count = self.losses.count;
        for i in 0..self.count {
            let v = self.losses.at(i);
            let single = self.losses.single(v);
            self.changed[i] = v as u16;
            self.single[v] = single.map(|w| w as u16);
            match single {
                Some(w) => self.unmark(v, w),
                None => self.unmark_all(v),
            }
        }
        self.count > 0
    }

    fn unmark(&mut self, v: usize, w: usize) {
        self.marked[v].remove(w);
        if !self.mirror {
            self.columns[w].remove(v);
        }
    }

    fn unmark_all(&mut self, v: usize) {
        let lost = self.losses.of(v);
        self.lost[v] = lost;
        self.marked[v] = self.marked[v] - lost;
        if !self.mirror {
            lost.each(|w| self.columns[w].remove(v));
        }
    }
}
