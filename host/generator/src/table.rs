//! A game by its parts, and its table.

use crate::Lcg;

/// Priorities and owners (0 Even, 1 Odd) of the vertices, and the edges in table order.
#[derive(Clone, Debug, PartialEq, Eq)]
pub struct Table {
    pub priorities: Vec<u16>,
    pub owners: Vec<u16>,
    pub edges: Vec<(u16, u16)>,
}

impl Table {
    /// The number of vertices.
    pub fn n(&self) -> usize {
        self.priorities.len()
    }

    /// The number of edges in the table.
    pub fn m(&self) -> usize {
        self.edges.len()
    }

    /// The words of the table.
    pub fn words(&self) -> Vec<u16> {
        let mut words = vec![self.n() as u16, self.m() as u16];
        words.extend(&self.priorities);
        words.extend(&self.owners);
        words.extend(self.edges.iter().map(|edge| edge.0));
        words.extend(self.edges.iter().map(|edge| edge.1));
        words
    }

    /// The game of a table that a reader accepts.
    pub fn from_words(words: &[u16]) -> Table {
        let (n, m) = (words[0] as usize, words[1] as usize);
        let (vertices, ends) = words[2..].split_at(2 * n);
        let (sources, targets) = ends.split_at(m);
        Table {
            priorities: vertices[..n].to_vec(),
            owners: vertices[n..].to_vec(),
            edges: sources.iter().copied().zip(targets.iter().copied()).collect(),
        }
    }

    /// The successors of each vertex, each once.
    pub fn successors(&self) -> Vec<Vec<usize>> {
        let mut successors = vec![Vec::new(); self.n()];
        for &(source, target) in &self.edges {
            let of_source: &mut Vec<usize> = &mut successors[source as usize];
            if !of_source.contains(&(target as usize)) {
                of_source.push(target as usize);
            }
        }
        successors
    }

    /// The same game with other vertex numbers and another sequence of edges.
    pub fn shuffled(&self, lcg: &mut Lcg) -> Table {
        let mut number: Vec<u16> = (0..self.n() as u16).collect();
        lcg.shuffle(&mut number);
        let mut shuffled = self.clone();
        for (v, &place) in number.iter().enumerate() {
            let place = place as usize;
            shuffled.priorities[place] = self.priorities[v];
            shuffled.owners[place] = self.owners[v];
        }
        for edge in &mut shuffled.edges {
            *edge = (number[edge.0 as usize], number[edge.1 as usize]);
        }
        lcg.shuffle(&mut shuffled.edges);
        shuffled
    }

    /// The same game with each edge once, ascending.
    pub fn without_repeats(mut self) -> Table {
        self.edges.sort();
        self.edges.dedup();
        self
    }

    /// The game with the players exchanged: each owner is the other, and each priority one higher,
    /// modulo 65,536.
    pub fn exchanged(mut self) -> Table {
        self.owners.iter_mut().for_each(|owner| *owner = 1 - *owner);
        self.priorities.iter_mut().for_each(|priority| *priority = priority.wrapping_add(1));
        self
    }

    /// The game with all vertices one player's.
    pub fn owned_by(mut self, player: u16) -> Table {
        self.owners.fill(player);
        self
    }

    /// The game with each owner drawn anew.
    pub fn with_owners(mut self, lcg: &mut Lcg) -> Table {
        for owner in &mut self.owners {
            *owner = lcg.below(2) as u16;
        }
        self
    }

    /// The game with each priority drawn anew, below `priorities`.
    pub fn with_priorities(mut self, lcg: &mut Lcg, priorities: usize) -> Table {
        for priority in &mut self.priorities {
            *priority = lcg.below(priorities) as u16;
        }
        self
    }
}
