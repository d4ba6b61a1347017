//! The game table and its reader.

use crate::calls::{refuse_at, refuse_if};
use crate::{Oracle, Refusal, Trap};
use std::collections::BTreeSet;

const MOST_VERTICES: usize = 512;
const MOST_EDGES: usize = 4096;

/// An accepted game: priorities, owners (0 Even, 1 Odd) and successors of the vertices.
#[derive(Clone, Debug)]
pub struct Game {
    pub priority: Vec<u16>,
    pub owner: Vec<u16>,
    /// The edges as the table lists them, which may be several times.
    pub listed: Vec<(usize, usize)>,
    pub edges: BTreeSet<(usize, usize)>,
    pub successors: Vec<BTreeSet<usize>>,
}

impl Game {
    /// The number of vertices.
    pub fn n(&self) -> usize {
        self.priority.len()
    }

    /// The number of edges in the table.
    pub fn m(&self) -> usize {
        self.listed.len()
    }

    /// The length of the game's table.
    pub fn words(&self) -> usize {
        2 + 2 * self.n() + 2 * self.m()
    }

    /// A game from its parts, which are taken to be good.
    pub fn new(priority: Vec<u16>, owner: Vec<u16>, listed: Vec<(usize, usize)>) -> Game {
        let edges = BTreeSet::from_iter(listed.iter().copied());
        let mut successors = vec![BTreeSet::new(); priority.len()];
        for &(source, target) in &edges {
            successors[source].insert(target);
        }
        Game { priority, owner, listed, edges, successors }
    }

    /// How often the table has the edge.
    pub fn times(&self, edge: (usize, usize)) -> usize {
        self.listed.iter().filter(|&&other| other == edge).count()
    }

    /// The game's table.
    pub fn table(&self) -> Vec<u16> {
        let sizes = [self.n(), self.m()].map(|size| size as u16);
        let mut words = sizes.to_vec();
        words.extend(&self.priority);
        words.extend(&self.owner);
        words.extend(self.listed.iter().map(|edge| edge.0 as u16));
        words.extend(self.listed.iter().map(|edge| edge.1 as u16));
        words
    }
}

/// Where the parts of a table of the right length stand.
struct Parts<'a> {
    n: usize,
    m: usize,
    words: &'a [u16],
}

impl Parts<'_> {
    fn owners(&self) -> &[u16] {
        &self.words[2 + self.n..2 + 2 * self.n]
    }

    /// The word where the edges start.
    fn edges_at(&self) -> usize {
        2 + 2 * self.n
    }

    fn ends(&self) -> &[u16] {
        &self.words[self.edges_at()..]
    }

    fn edges(&self) -> Vec<(usize, usize)> {
        let (sources, targets) = self.ends().split_at(self.m);
        let pairs = sources.iter().zip(targets);
        pairs.map(|(&source, &target)| (source as usize, target as usize)).collect()
    }
}

impl Oracle {
    /// Reads a table: refusals 1 to 6, then 8, in order.
    pub fn game(&self, words: &[u16]) -> Result<Game, Refusal> {
        let length = words.len();
        refuse_if(length < 2, 1, length)?;
        let (n, m) = (words[0] as usize, words[1] as usize);
        let more = self.falls_for(Trap::OneVertexMore) as usize;
        refuse_if(n == 0 || n > MOST_VERTICES + more, 2, 0)?;
        refuse_if(m > MOST_EDGES, 3, 1)?;
        let needed = 2 + 2 * n + 2 * m;
        let long_taken = self.falls_for(Trap::LongTableTaken) && length > needed;
        refuse_if(length != needed && !long_taken, 4, length)?;
        let parts = Parts { n, m, words: &words[..needed] };
        self.owners_and_ends(&parts)?;
        self.vertices(&parts)?;
        let priority = words[2..2 + n].to_vec();
        Ok(Game::new(priority, parts.owners().to_vec(), parts.edges()))
    }

    /// Refusals 5 and 6.
    fn owners_and_ends(&self, parts: &Parts) -> Result<(), Refusal> {
        let bad_owner = parts.owners().iter().position(|&owner| owner > 1);
        let bad_owner = refuse_at(bad_owner.map(|i| 2 + parts.n + i), 5);
        let bad_end = refuse_at(self.bad_end(parts).map(|i| parts.edges_at() + i), 6);
        if self.falls_for(Trap::EndsBeforeOwners) {
            bad_end.and(bad_owner)
        } else {
            bad_owner.and(bad_end)
        }
    }

    /// The first end that is no vertex, counted from the first source.
    fn bad_end(&self, parts: &Parts) -> Option<usize> {
        let bad = |end: &usize| *end >= parts.n;
        if self.falls_for(Trap::EndsEdgeByEdge) {
            let edges = parts.edges();
            let edge = edges.iter().position(|(source, target)| bad(source) || bad(target))?;
            return Some(if bad(&edges[edge].0) { edge } else { parts.m + edge });
        }
        parts.ends().iter().position(|&end| bad(&(end as usize)))
    }

    /// Refusal 8.
    fn vertices(&self, parts: &Parts) -> Result<(), Refusal> {
        let edges = parts.edges();
        if self.falls_for(Trap::RepeatRefused) {
            let repeat = (0..parts.m).find(|&j| edges[..j].contains(&edges[j]));
            refuse_at(repeat.map(|j| parts.edges_at() + j), 7)?;
        }
        let sink = (0..parts.n).find(|&v| edges.iter().all(|&(source, _)| source != v));
        let as_word = self.falls_for(Trap::SinkAsWord);
        refuse_at(sink.map(|v| if as_word { 2 + v } else { v }), 8)
    }

    /// The number of different edges.
    pub fn different(&self, game: &Game) -> usize {
        if self.falls_for(Trap::RepeatCountedApart) {
            let mut listed = game.listed.clone();
            listed.dedup();
            return listed.len();
        }
        if self.falls_for(Trap::RepeatsCounted) {
            return game.m();
        }
        game.edges.len()
    }
}
