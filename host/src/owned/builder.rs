//! Games that are put together.

use super::{word, Game};
use crate::{Player, Refusal};

/// A game that is put together from vertices and edges.
#[derive(Clone, Debug, Default)]
pub struct GameBuilder {
    priorities: Vec<u16>,
    owners: Vec<u16>,
    sources: Vec<u16>,
    targets: Vec<u16>,
}

impl GameBuilder {
    /// Adds a vertex and gives its number, the next from 0 on.
    ///
    /// ```
    /// let mut game = raskjomi::Game::builder();
    /// assert_eq!([3, 0].map(|priority| game.vertex(priority, raskjomi::Player::Odd)), [0, 1]);
    /// ```
    pub fn vertex(&mut self, priority: u16, owner: Player) -> u16 {
        self.priorities.push(priority);
        self.owners.push(u32::from(owner) as u16);
        word(self.priorities.len() - 1)
    }

    /// Adds an edge; one that is there already counts once.
    ///
    /// ```
    /// let mut game = raskjomi::Game::builder();
    /// let door = game.vertex(0, raskjomi::Player::Even);
    /// assert_eq!(game.edge(door, door).edge(door, door).build()?.size().different, 1);
    /// # Ok::<(), raskjomi::Refusal>(())
    /// ```
    pub fn edge(&mut self, source: u16, target: u16) -> &mut GameBuilder {
        self.sources.push(source);
        self.targets.push(target);
        self
    }

    /// The game.
    ///
    /// # Errors
    ///
    /// The reader's refusals: no vertex or too many, too many edges, an edge to a vertex that isn't there, a
    /// vertex without an edge.
    ///
    /// ```
    /// let mut game = raskjomi::Game::builder();
    /// game.vertex(0, raskjomi::Player::Even);
    /// assert_eq!(game.build().unwrap_err().number, 8);
    /// ```
    pub fn build(&self) -> Result<Game, Refusal> {
        let sizes = [word(self.priorities.len()), word(self.sources.len())];
        let parts = [&self.priorities, &self.owners, &self.sources, &self.targets];
        let words = parts.iter().flat_map(|part| part.iter().copied());
        Game::new(sizes.into_iter().chain(words).collect())
    }
}
