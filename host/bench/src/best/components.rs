//! Strongly connected components of some positions of a plan, by Tarjan's algorithm without recursion.

use crate::baseline::index::Index;

/// What a position is marked with once its component is known: more than any visit.
const KNOWN: u16 = u16::MAX;

/// The components of fewer than P positions, and the memory of the search for them.
pub struct Components<const P: usize> {
    /// The component of each position. No link leads to a component of a higher number.
    pub of: [u16; P],
    pub count: usize,
    /// The visit at which each position was entered, from 1 on, and the earliest that it is known to reach.
    entered: [u16; P],
    reached: [u16; P],
    visits: u16,
    /// The links that are gone through already.
    done: [u16; P],
    /// The way from the root, and the positions whose component isn't known yet.
    path: [u16; P],
    depth: usize,
    open: [u16; P],
    opened: usize,
}

impl<const P: usize> Components<P> {
    pub const NONE: Components<P> = Components {
        of: [0; P],
        count: 0,
        entered: [0; P],
        reached: [0; P],
        visits: 0,
        done: [0; P],
        path: [0; P],
        depth: 0,
        open: [0; P],
        opened: 0,
    };

    /// Finds the components of these positions, by the links that the test allows, all of which stay among them.
    pub fn find(&mut self, live: &[u16], next: &Index, allowed: impl Fn(usize, usize) -> bool) {
        live.iter().for_each(|&v| self.entered[v as usize] = 0);
        (self.count, self.visits) = (0, 0);
        for &root in live {
            if self.entered[root as usize] == 0 {
                self.enter(root as usize);
            }
            while self.depth > 0 {
                self.step(next, &allowed);
            }
        }
    }

    fn enter(&mut self, v: usize) {
        self.visits += 1;
        (self.entered[v], self.reached[v], self.done[v]) = (self.visits, self.visits, 0);
        (self.path[self.depth], self.open[self.opened]) = (v as u16, v as u16);
        self.depth += 1;
        self.opened += 1;
    }

    /// Goes through the next link of the last position on the path, or leaves that.
    fn step(&mut self, next: &Index, allowed: impl Fn(usize, usize) -> bool) {
        let v = self.path[self.depth - 1] as usize;
        let Some(&w) = next.of(v).get(self.done[v] as usize) else {
            return self.leave(v);
        };
        self.done[v] += 1;
        let w = w as usize;
        if !allowed(v, w) {
            return;
        }
        match self.entered[w] {
            0 => self.enter(w),
            visit => self.reached[v] = self.reached[v].min(visit),
        }
    }

    /// Takes the last position off the path; where it reaches none before it, a component is known.
    fn leave(&mut self, v: usize) {
        self.depth -= 1;
        if self.depth > 0 {
            let before = self.path[self.depth - 1] as usize;
            self.reached[before] = self.reached[before].min(self.reached[v]);
        }
        if self.reached[v] < self.entered[v] {
            return;
        }
        while self.entered[v] != KNOWN {
            self.opened -= 1;
            let member = self.open[self.opened] as usize;
            (self.entered[member], self.of[member]) = (KNOWN, self.count as u16);
        }
        self.count += 1;
    }
}
