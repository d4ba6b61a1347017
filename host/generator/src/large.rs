//! Games of any size by their parts, and their words.

use crate::{Lcg, Table};

/// Priorities and owners (0 Even, 1 Odd) of the vertices, and the edges in table order.
#[derive(Clone, Debug, PartialEq, Eq)]
pub struct LargeTable {
    pub priorities: Vec<u32>,
    pub owners: Vec<u32>,
    pub edges: Vec<(u32, u32)>,
}

impl From<&Table> for LargeTable {
    fn from(table: &Table) -> LargeTable {
        let widened = |words: &[u16]| words.iter().map(|&word| word.into()).collect();
        let edges = table.edges.iter().map(|edge| (edge.0.into(), edge.1.into()));
        LargeTable {
            priorities: widened(&table.priorities),
            owners: widened(&table.owners),
            edges: edges.collect(),
        }
    }
}

impl LargeTable {
    /// The number of vertices.
    pub fn n(&self) -> usize {
        self.priorities.len()
    }

    /// The number of edges in the table.
    pub fn m(&self) -> usize {
        self.edges.len()
    }

    /// The game of a table's words, which are as many as their first two say.
    pub fn of_words(words: &[u32]) -> LargeTable {
        let (n, m) = (words[0] as usize, words[1] as usize);
        let (vertices, edges) = words[2..].split_at(2 * n);
        let (priorities, owners) = vertices.split_at(n);
        let (sources, targets) = edges.split_at(m);
        LargeTable {
            priorities: priorities.to_vec(),
            owners: owners.to_vec(),
            edges: sources.iter().copied().zip(targets.iter().copied()).collect(),
        }
    }

    /// The words of the table.
    pub fn words(&self) -> Vec<u32> {
        let mut words = Vec::with_capacity(2 + 2 * self.n() + 2 * self.m());
        words.extend([self.n() as u32, self.m() as u32]);
        words.extend(&self.priorities);
        words.extend(&self.owners);
        words.extend(self.edges.iter().map(|edge| edge.0));
        words.extend(self.edges.iter().map(|edge| edge.1));
        words
    }

    /// The same game with other vertex numbers and another sequence of edges.
    pub fn shuffled(&self, lcg: &mut Lcg) -> LargeTable {
        let mut number: Vec<u32> = (0..self.n() as u32).collect();
        lcg.shuffle(&mut number);
        let mut shuffled = self.clone();
        for (v, &place) in number.iter().enumerate() {
            shuffled.priorities[place as usize] = self.priorities[v];
            shuffled.owners[place as usize] = self.owners[v];
        }
        for edge in &mut shuffled.edges {
            *edge = (number[edge.0 as usize], number[edge.1 as usize]);
        }
        lcg.shuffle(&mut shuffled.edges);
        shuffled
    }

    /// The same game with its edges by source.
    pub fn by_source(mut self) -> LargeTable {
        self.edges.sort_by_key(|edge| edge.0);
        self
    }

    /// The game with each owner drawn anew.
    pub fn with_owners(mut self, lcg: &mut Lcg) -> LargeTable {
        self.owners.iter_mut().for_each(|owner| *owner = lcg.below(2) as u32);
        self
    }

    /// The game with each priority drawn anew, below `priorities`.
    pub fn with_priorities(mut self, lcg: &mut Lcg, priorities: usize) -> LargeTable {
        self.priorities.iter_mut().for_each(|priority| *priority = lcg.below(priorities) as u32);
        self
    }
}

/// The edges of a game by one of their ends: the numbers of those of each vertex.
pub(crate) struct Ends {
    starts: Vec<u32>,
    pub edges: Vec<u32>,
}

impl Ends {
    /// `end` is the end of each edge by which they are found.
    pub fn new(game: &LargeTable, end: impl Fn(&(u32, u32)) -> u32) -> Ends {
        let mut starts = vec![0; game.n() + 2];
        for edge in &game.edges {
            starts[end(edge) as usize + 2] += 1;
        }
        for v in 2..starts.len() {
            starts[v] += starts[v - 1];
        }
        let mut edges = vec![0; game.m()];
        for (j, edge) in game.edges.iter().enumerate() {
            let place = &mut starts[end(edge) as usize + 1];
            edges[*place as usize] = j as u32;
            *place += 1;
        }
        Ends { starts, edges }
    }

    /// Where in `edges` those of v stand.
    pub fn of(&self, v: usize) -> std::ops::Range<usize> {
        self.starts[v] as usize..self.starts[v + 1] as usize
    }
}
