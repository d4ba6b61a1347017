//! Games that own their words.

use super::{part, GameBuilder};
use crate::{Player, Refusal, Size, MOST_TABLE_WORDS};
use std::collections::HashSet;

/// A game that the reader accepts, with the words of its table.
///
/// ```
/// use raskjomi::{Game, Player};
/// let mut game = Game::builder();
/// let door = game.vertex(0, Player::Even);
/// let hall = game.vertex(1, Player::Even);
/// let gate = game.vertex(0, Player::Odd);
/// game.edge(door, hall).edge(hall, hall).edge(gate, hall);
/// let reduced = game.build()?.reduce();
/// assert_eq!(reduced.classes, [0, 1, 0]);
/// assert_eq!(reduced.game.words(), [2, 2, 0, 1, 0, 0, 0, 1, 1, 1]);
/// # Ok::<(), raskjomi::Refusal>(())
/// ```
#[derive(Clone, Debug, PartialEq, Eq)]
pub struct Game {
    words: Vec<u16>,
    size: Size,
}

impl Game {
    /// An empty builder.
    ///
    /// ```
    /// let mut builder = raskjomi::Game::builder();
    /// let door = builder.vertex(0, raskjomi::Player::Even);
    /// assert_eq!(builder.edge(door, door).build()?.words(), [1, 1, 0, 0, 0, 0]);
    /// # Ok::<(), raskjomi::Refusal>(())
    /// ```
    pub fn builder() -> GameBuilder {
        GameBuilder::default()
    }

    /// The game of a table.
    ///
    /// ```
    /// use raskjomi::Game;
    /// assert!(Game::new(vec![1, 1, 0, 0, 0, 0]).is_ok());
    /// assert_eq!(Game::new(vec![1, 1, 0, 2, 0, 0]).unwrap_err().to_string(), "refused 5 at 3: an owner is above 1");
    /// ```
    ///
    /// # Errors
    ///
    /// Those of [`read`](crate::read).
    pub fn new(words: Vec<u16>) -> Result<Game, Refusal> {
        let size = crate::read(&words)?;
        Ok(Game { words, size })
    }

    /// The game that begins words which a call has written, where each edge stands once.
    pub(super) fn granted(mut words: Vec<u16>, size: Size) -> Game {
        words.truncate(size.words());
        Game { words, size }
    }

    /// The game that a seed draws: so many vertices, edges out of each, and priorities.
    ///
    /// ```
    /// let game = raskjomi::Game::seed(1, 3, 2, 4)?;
    /// assert_eq!((game.size().vertices, game.size().edges), (3, 6));
    /// assert_eq!(raskjomi::Game::seed(1, 3, 17, 4).unwrap_err().number, 31);
    /// # Ok::<(), raskjomi::Refusal>(())
    /// ```
    ///
    /// # Errors
    ///
    /// Refusal 31 of the numbers, as [`seed`](crate::seed()) has it.
    pub fn seed(seed: u32, vertices: u32, degree: u32, priorities: u32) -> Result<Game, Refusal> {
        let mut words = vec![0; MOST_TABLE_WORDS];
        let (n, m) = crate::seed(seed, vertices, degree, priorities, &mut words)?;
        words.truncate(2 + 2 * n + 2 * m);
        Game::new(words)
    }

    /// The game where the lowest priority decides, of this one where the highest does.
    ///
    /// ```
    /// let game: raskjomi::Game = "2 2 / 3 0 / 0 1 / 0 1 / 1 0".parse()?;
    /// assert_eq!(game.convert()?.priorities(), [1, 4]);
    /// # Ok::<(), Box<dyn std::error::Error>>(())
    /// ```
    ///
    /// # Errors
    ///
    /// Refusal 36, as [`convert`](crate::convert()) has it.
    pub fn convert(&self) -> Result<Game, Refusal> {
        let mut words = vec![0; self.size.words()];
        crate::convert(&self.words, &mut words)?;
        Ok(Game { words, size: self.size })
    }

    /// The words of its table.
    ///
    /// ```
    /// let game: raskjomi::Game = "2 3 / 4 1 / 0 1 / 0 0 1 / 1 0 1".parse()?;
    /// assert_eq!(game.words(), [2, 3, 4, 1, 0, 1, 0, 0, 1, 1, 0, 1]);
    /// # Ok::<(), raskjomi::formats::ReadError>(())
    /// ```
    pub fn words(&self) -> &[u16] {
        &self.words
    }

    /// Its sizes.
    ///
    /// ```
    /// let game: raskjomi::Game = "2 3 / 4 1 / 0 1 / 0 0 1 / 1 0 1".parse()?;
    /// assert_eq!((game.size().vertices, game.size().edges), (2, 3));
    /// # Ok::<(), raskjomi::formats::ReadError>(())
    /// ```
    pub fn size(&self) -> Size {
        self.size
    }

    /// The priorities of its vertices.
    ///
    /// ```
    /// let game: raskjomi::Game = "2 3 / 4 1 / 0 1 / 0 0 1 / 1 0 1".parse()?;
    /// assert_eq!(game.priorities(), [4, 1]);
    /// # Ok::<(), raskjomi::formats::ReadError>(())
    /// ```
    pub fn priorities(&self) -> &[u16] {
        part(&self.words, 2, self.size.vertices)
    }

    /// The owners of its vertices, by their numbers: 0 for Even, 1 for Odd.
    ///
    /// ```
    /// let game: raskjomi::Game = "2 3 / 4 1 / 0 1 / 0 0 1 / 1 0 1".parse()?;
    /// assert_eq!(game.owners(), [0, 1]);
    /// # Ok::<(), raskjomi::formats::ReadError>(())
    /// ```
    pub fn owners(&self) -> &[u16] {
        part(&self.words, 2 + self.size.vertices, self.size.vertices)
    }

    /// The sources of the edges in its table, repeats included.
    ///
    /// ```
    /// let game: raskjomi::Game = "2 3 / 4 1 / 0 1 / 0 0 1 / 1 0 1".parse()?;
    /// assert_eq!(game.sources(), [0, 0, 1]);
    /// # Ok::<(), raskjomi::formats::ReadError>(())
    /// ```
    pub fn sources(&self) -> &[u16] {
        part(&self.words, 2 + 2 * self.size.vertices, self.size.edges)
    }

    /// The targets of the edges in its table, repeats included.
    ///
    /// ```
    /// let game: raskjomi::Game = "2 3 / 4 1 / 0 1 / 0 0 1 / 1 0 1".parse()?;
    /// assert_eq!(game.targets(), [1, 0, 1]);
    /// # Ok::<(), raskjomi::formats::ReadError>(())
    /// ```
    pub fn targets(&self) -> &[u16] {
        part(&self.words, 2 + 2 * self.size.vertices + self.size.edges, self.size.edges)
    }

    /// The priority of a vertex.
    ///
    /// ```
    /// let game: raskjomi::Game = "2 3 / 4 1 / 0 1 / 0 0 1 / 1 0 1".parse()?;
    /// assert_eq!(game.priority(0), 4);
    /// # Ok::<(), raskjomi::formats::ReadError>(())
    /// ```
    ///
    /// # Panics
    ///
    /// If there is no such vertex, as a slice does.
    pub fn priority(&self, vertex: usize) -> u16 {
        self.priorities()[vertex]
    }

    /// The player who moves at a vertex.
    ///
    /// ```
    /// let game: raskjomi::Game = "2 3 / 4 1 / 0 1 / 0 0 1 / 1 0 1".parse()?;
    /// assert_eq!(game.owner(1), raskjomi::Player::Odd);
    /// # Ok::<(), raskjomi::formats::ReadError>(())
    /// ```
    ///
    /// # Panics
    ///
    /// If there is no such vertex, as a slice does.
    pub fn owner(&self, vertex: usize) -> Player {
        if self.owners()[vertex] == 0 {
            Player::Even
        } else {
            Player::Odd
        }
    }

    /// The successors of a vertex, each once, in the sequence of the table.
    ///
    /// ```
    /// let game: raskjomi::Game = "2 3 / 4 1 / 0 1 / 0 0 1 / 1 0 1".parse()?;
    /// assert!(game.successors(0).eq([1, 0]));
    /// # Ok::<(), raskjomi::formats::ReadError>(())
    /// ```
    pub fn successors(&self, vertex: usize) -> impl Iterator<Item = usize> + '_ {
        self.edges().filter(move |edge| edge.0 == vertex).map(|edge| edge.1)
    }

    /// The different edges, each where the table first has it.
    ///
    /// ```
    /// let game: raskjomi::Game = "2 3 / 4 1 / 0 1 / 0 0 1 / 1 1 1".parse()?;
    /// assert!(game.edges().eq([(0, 1), (1, 1)]), "the first one stands there twice");
    /// # Ok::<(), raskjomi::formats::ReadError>(())
    /// ```
    pub fn edges(&self) -> impl Iterator<Item = (usize, usize)> + '_ {
        let edges = self.sources().iter().zip(self.targets());
        let mut earlier = HashSet::new();
        edges
            .map(|(&source, &target)| (source.into(), target.into()))
            .filter(move |&edge| earlier.insert(edge))
    }

    /// The vertices, from 0 on.
    ///
    /// ```
    /// let game: raskjomi::Game = "3 3 / 0 1 0 / 0 0 1 / 0 1 2 / 1 1 1".parse()?;
    /// assert_eq!(game.vertices().filter(|&v| game.priority(v) == 0).count(), 2);
    /// # Ok::<(), raskjomi::formats::ReadError>(())
    /// ```
    pub fn vertices(&self) -> std::ops::Range<usize> {
        0..self.size.vertices
    }
}
