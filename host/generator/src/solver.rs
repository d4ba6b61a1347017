//! Winners and positional strategies by Zielonka's recursive algorithm. The lowest priority seen
//! for ever decides, and even favours Even.

use crate::Table;

/// Who wins from each vertex, and where the winner goes from the vertices of its own.
#[derive(Clone, Debug)]
pub struct Solution {
    /// 0 where Even wins, 1 where Odd does.
    pub winner: Vec<u16>,
    /// The successor to take, for each vertex that belongs to its winner.
    pub choice: Vec<usize>,
}

/// Solves the game.
pub fn solve(game: &Table) -> Solution {
    let n = game.n();
    let solution = Solution { winner: vec![0; n], choice: vec![0; n] };
    let mut solver = Solver { game, successors: game.successors(), solution };
    solver.solve(&vec![true; n]);
    solver.solution
}

struct Solver<'a> {
    game: &'a Table,
    successors: Vec<Vec<usize>>,
    solution: Solution,
}

impl Solver<'_> {
    /// Solves the part of the game that `alive` marks, in which each vertex has a successor.
    fn solve(&mut self, alive: &[bool]) {
        let Some(lowest) = self.vertices(alive).map(|v| self.game.priorities[v]).min() else {
            return;
        };
        let player = lowest % 2;
        let lowest_ones = |v: usize| alive[v] && self.game.priorities[v] == lowest;
        let mut near: Vec<bool> = (0..alive.len()).map(lowest_ones).collect();
        self.choose_any(&near, alive, player);
        self.attract(&mut near, alive, player);
        self.solve(&without(alive, &near));
        let lost = |v: usize| alive[v] && !near[v] && self.solution.winner[v] != player;
        let mut lost: Vec<bool> = (0..alive.len()).map(lost).collect();
        if !lost.contains(&true) {
            return self.award(alive, player);
        }
        self.attract(&mut lost, alive, 1 - player);
        self.award(&lost, 1 - player);
        self.solve(&without(alive, &lost));
    }

    fn vertices<'b>(&self, set: &'b [bool]) -> impl Iterator<Item = usize> + 'b {
        (0..set.len()).filter(|&v| set[v])
    }

    /// Notes any living successor as the choice at the player's vertices of a set.
    fn choose_any(&mut self, set: &[bool], alive: &[bool], player: u16) {
        for v in self.vertices(set) {
            if self.game.owners[v] == player {
                let next = self.successors[v].iter().find(|&&x| alive[x]);
                self.solution.choice[v] = *next.expect("each vertex has a living successor");
            }
        }
    }

    /// Extends the set by the living vertices from which the player forces the token into it.
    fn attract(&mut self, set: &mut [bool], alive: &[bool], player: u16) {
        let mut grown = true;
        while grown {
            grown = false;
            for v in 0..set.len() {
                if alive[v] && !set[v] && self.forced(v, set, alive, player) {
                    set[v] = true;
                    grown = true;
                }
            }
        }
    }

    /// Whether the player forces a step from v into the set; notes the player's own choice.
    fn forced(&mut self, v: usize, set: &[bool], alive: &[bool], player: u16) -> bool {
        let mut living = self.successors[v].iter().copied().filter(|&x| alive[x]);
        if self.game.owners[v] != player {
            return living.all(|x| set[x]);
        }
        let Some(next) = living.find(|&x| set[x]) else { return false };
        self.solution.choice[v] = next;
        true
    }

    fn award(&mut self, set: &[bool], player: u16) {
        for v in self.vertices(set) {
            self.solution.winner[v] = player;
        }
    }
}

/// The vertices of the first set that aren't in the second.
fn without(set: &[bool], other: &[bool]) -> Vec<bool> {
    set.iter().zip(other).map(|(&inside, &out)| inside && !out).collect()
}
