//! What a solution decides that leaves out vertices.

use super::flaw::Moves;
use super::solved::Solved;
use super::table::Table;
use super::write::by_source;
use super::{LargeGame, LargeSolution};
use crate::{Plan, Player, MOST_VERTICES};

/// The word of a winner where a solution names none.
pub const NO_WINNER: u32 = u32::MAX;

/// The part of a game that a solution decides: the vertices from which its moves, and all of the loser's, come to no vertex without a winner.
#[derive(Clone, Debug, PartialEq, Eq)]
#[non_exhaustive]
pub struct Decided {
    /// The game, but that the moves of the other vertices lead to themselves. Plays from the decided ones by the solution never come to these,
    /// so that they are plays of the game itself, and have the same winner.
    pub game: LargeGame,
    /// The solution, but that each of the other vertices is won by the player of its priority.
    pub solution: LargeSolution,
    /// For each of the other vertices one without a winner that the solution's moves come to, for a decided one none.
    pub open: Vec<Option<u32>>,
}

impl Decided {
    /// The plan of the winner at a decided vertex from there on, whose positions are vertices, as they are found breadth first. It is one of the
    /// game itself, where [`accept_plan`](crate::accept_plan) judges it. Of a game above the limits, and of other vertices, there is none.
    ///
    /// ```
    /// use raskjomi::large::NO_WINNER;
    /// use raskjomi::{LargeGame, LargeSolution};
    /// let game = LargeGame::new(vec![3, 4, 0, 2, 1, 0, 0, 0, 0, 0, 1, 2, 0, 1, 2, 2])?;
    /// let part = game.decided(&LargeSolution::from_words(vec![0, 0, NO_WINNER, 0, 2, 3]));
    /// assert_eq!(part.plan(0).expect("a decided vertex").words(), [1, 1, 0, 0, 0]);
    /// assert_eq!(part.plan(1), None);
    /// # Ok::<(), raskjomi::Refusal>(())
    /// ```
    ///
    /// # Panics
    ///
    /// May panic on a solution that the refusals up to 84 don't let pass.
    pub fn plan(&self, vertex: u32) -> Option<Plan> {
        let n = self.open.len();
        if n > MOST_VERTICES || self.open.get(vertex as usize)?.is_some() {
            return None;
        }
        let moves = Moves::new(&Solved::new(self.game.words(), self.solution.words()));
        let (mut found, mut places, mut links) = (vec![vertex as u16], vec![None; n], Vec::new());
        places[vertex as usize] = Some(0);
        let mut position = 0;
        while let Some(&v) = found.get(position) {
            for target in moves.targets(v.into()) {
                let place = *places[target as usize].get_or_insert_with(|| {
                    found.push(target as u16);
                    found.len() as u16 - 1
                });
                links.push((position as u16, place));
            }
            position += 1;
        }
        Some(Plan::new(&found, &links))
    }
}

impl LargeGame {
    /// The part of the game that a solution decides, which names no winner at some vertices. Whether it is right there
    /// [`check`](LargeGame::check) tells, of the game and the solution that are given back.
    ///
    /// ```
    /// use raskjomi::large::NO_WINNER;
    /// use raskjomi::{LargeGame, LargeSolution, Player};
    /// // Even moves from vertex 0, of priority 0, round or to 1, which leads to 2; 2 leads to itself.
    /// let game = LargeGame::new(vec![3, 4, 0, 2, 1, 0, 0, 0, 0, 0, 1, 2, 0, 1, 2, 2])?;
    /// let part = game.decided(&LargeSolution::from_words(vec![0, 0, NO_WINNER, 0, 2, 3]));
    /// assert_eq!(part.open, [None, Some(2), Some(2)]);
    /// part.game.check(&part.solution, &part.game.certify(&part.solution)?)?;
    /// assert_eq!(part.solution.winner(0), Some(Player::Even));
    /// # Ok::<(), Box<dyn std::error::Error>>(())
    /// ```
    pub fn decided(&self, solution: &LargeSolution) -> Decided {
        let open = open(self, solution);
        let Table { n, m, priorities, sources, .. } = Table::new(self.words());
        let mut words = self.words().to_vec();
        for (target, &source) in words[2 + 2 * n + m..].iter_mut().zip(sources) {
            if open[source as usize].is_some() {
                *target = source;
            }
        }
        let mut winners = solution.words().to_vec();
        for (v, _) in open.iter().enumerate().filter(|(_, open)| open.is_some()) {
            if let Some(winner) = winners.get_mut(v) {
                *winner = priorities[v] % 2;
            }
        }
        let game = LargeGame::new(words).expect("targets are sources of the same table");
        Decided { game, solution: LargeSolution::from_words(winners), open }
    }
}

/// The vertices from which kept edges come to one without a winner, each with such a one.
fn open(game: &LargeGame, solution: &LargeSolution) -> Vec<Option<u32>> {
    let Table { n, targets, .. } = Table::new(game.words());
    let (starts, edges) = by_source(n, targets);
    let is_kept = |edge: u32, winner: Player| {
        let source = game.source(edge);
        game.owner(source) != winner || solution.edge(source) == Some(edge)
    };
    let without = |v: &u32| solution.winner(*v).is_none();
    let mut found: Vec<u32> = (0..n as u32).filter(without).collect();
    let mut open = vec![None; n];
    found.iter().for_each(|&v| open[v as usize] = Some(v));
    while let Some(w) = found.pop() {
        for &edge in &edges[starts[w as usize]..starts[w as usize + 1]] {
            let v = game.source(edge);
            let kept = solution.winner(v).is_some_and(|winner| is_kept(edge, winner));
            if kept && open[v as usize].is_none() {
                open[v as usize] = open[w as usize];
                found.push(v);
            }
        }
    }
    open
}
