//! A view of a game's words and a solution's, and the edges that the solution keeps.

use super::table::Table;

/// A game and a solution that the refusals 1 to 84 let pass.
#[derive(Clone, Copy, Debug)]
pub(super) struct Solved<'a> {
    pub priorities: &'a [u32],
    owners: &'a [u32],
    sources: &'a [u32],
    targets: &'a [u32],
    pub winners: &'a [u32],
    choices: &'a [u32],
}

impl<'a> Solved<'a> {
    pub fn new(game: &'a [u32], solution: &'a [u32]) -> Solved<'a> {
        let Table { n, priorities, owners, sources, targets, .. } = Table::new(game);
        let (winners, choices) = solution.split_at(n);
        Solved { priorities, owners, sources, targets, winners, choices }
    }

    /// The number of vertices.
    pub fn n(&self) -> usize {
        self.priorities.len()
    }

    /// Whether a vertex has a priority of the player who is said to lose there.
    pub fn is_lost(&self, v: u32) -> bool {
        self.priorities[v as usize] % 2 != self.winners[v as usize]
    }

    /// The kept edges with their numbers: all moves of the loser, and the chosen ones of the winner.
    pub fn numbered(self) -> impl Iterator<Item = (u32, (u32, u32))> + Clone + 'a {
        let ends = self.sources.iter().copied().zip(self.targets.iter().copied());
        (0..).zip(ends).filter(move |&(edge, (source, _))| {
            let v = source as usize;
            self.owners[v] != self.winners[v] || self.choices[v] == edge
        })
    }

    /// The kept edges.
    pub fn kept(self) -> impl Iterator<Item = (u32, u32)> + Clone + 'a {
        self.numbered().map(|(_, ends)| ends)
    }
}
