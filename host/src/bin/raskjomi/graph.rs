//! A game's vertices with their successors, and the test of a pair.

use raskjomi::{Game, Player};

/// A game by its vertices.
pub struct Graph {
    pub priorities: Vec<u16>,
    /// Whether each vertex is Even's.
    pub evens: Vec<bool>,
    /// The successors of each vertex, ascending, each once.
    pub successors: Vec<Vec<usize>>,
}

/// Why a pair (v, w) fails the test of direct simulations under a relation.
#[derive(Clone, Copy, Debug, PartialEq, Eq)]
pub enum Cause {
    /// The priorities differ.
    Priorities,
    /// This successor of v is related to no successor of w; both are Even's.
    Source(usize),
    /// No successor of v is related to this successor of w; both are Odd's.
    Target(usize),
    /// These successors aren't related, and both players may choose them: v is Even's, w is Odd's.
    Both(usize, usize),
    /// No successor of v is related to one of w: v is Odd's, w is Even's.
    Each,
}

impl Graph {
    pub fn new(game: &Game) -> Graph {
        let mut successors = vec![Vec::new(); game.size().vertices];
        game.edges().for_each(|(source, target)| successors[source].push(target));
        successors.iter_mut().for_each(|list| list.sort());
        Graph {
            priorities: game.priorities().to_vec(),
            evens: game.vertices().map(|vertex| game.owner(vertex) == Player::Even).collect(),
            successors,
        }
    }

    /// The number of vertices.
    pub fn n(&self) -> usize {
        self.priorities.len()
    }

    /// Why the pair fails the test, if it does.
    pub fn cause(
        &self,
        v: usize,
        w: usize,
        related: impl Fn(usize, usize) -> bool,
    ) -> Option<Cause> {
        let (of_v, of_w) = (&self.successors[v], &self.successors[w]);
        if self.priorities[v] != self.priorities[w] {
            return Some(Cause::Priorities);
        }
        match (self.evens[v], self.evens[w]) {
            (true, true) => {
                let alone = of_v.iter().find(|&&x| !of_w.iter().any(|&y| related(x, y)));
                alone.map(|&x| Cause::Source(x))
            }
            (false, false) => {
                let alone = of_w.iter().find(|&&y| !of_v.iter().any(|&x| related(x, y)));
                alone.map(|&y| Cause::Target(y))
            }
            (true, false) => {
                let mut pairs = of_v.iter().flat_map(|&x| of_w.iter().map(move |&y| (x, y)));
                pairs.find(|&(x, y)| !related(x, y)).map(|(x, y)| Cause::Both(x, y))
            }
            (false, true) => {
                let some = of_v.iter().any(|&x| of_w.iter().any(|&y| related(x, y)));
                (!some).then_some(Cause::Each)
            }
        }
    }

    /// The pairs of successors that a cause says aren't related.
    pub fn unrelated(&self, v: usize, w: usize, cause: Cause) -> Vec<(usize, usize)> {
        let (of_v, of_w) = (&self.successors[v], &self.successors[w]);
        match cause {
            Cause::Priorities => Vec::new(),
            Cause::Source(x) => of_w.iter().map(|&y| (x, y)).collect(),
            Cause::Target(y) => of_v.iter().map(|&x| (x, y)).collect(),
            Cause::Both(x, y) => vec![(x, y)],
            Cause::Each => of_v.iter().flat_map(|&x| of_w.iter().map(move |&y| (x, y))).collect(),
        }
    }

    /// The pairs of successors by which a pair passes the test under a relation.
    pub fn matches(
        &self,
        v: usize,
        w: usize,
        related: impl Fn(usize, usize) -> bool,
    ) -> Vec<(usize, usize)> {
        let (of_v, of_w) = (&self.successors[v], &self.successors[w]);
        let all = of_v.iter().flat_map(|&x| of_w.iter().map(move |&y| (x, y)));
        let mut fit = all.filter(|&(x, y)| related(x, y));
        match (self.evens[v], self.evens[w]) {
            (true, true) => {
                let best = |&x: &usize| Some((x, *of_w.iter().find(|&&y| related(x, y))?));
                of_v.iter().filter_map(best).collect()
            }
            (false, false) => {
                let best = |&y: &usize| Some((*of_v.iter().find(|&&x| related(x, y))?, y));
                of_w.iter().filter_map(best).collect()
            }
            (true, false) => fit.collect(),
            (false, true) => fit.next().into_iter().collect(),
        }
    }
}
