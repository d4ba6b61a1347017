//! A game of any size that owns its words.

use super::{certificate, large_read, large_solution};
use super::{Certificate, LargeSize, LargeSolution, Uncertified};
use crate::{Game, Player, Refusal};

/// A large game that the reader accepts, with the words of its table.
///
/// Vertices and edges are numbered from 0. A method that is asked for one that isn't there panics, as a slice does.
///
/// ```
/// use raskjomi::{LargeGame, Player};
/// let game = LargeGame::new(vec![2, 3, 1, 0, 0, 1, 0, 0, 1, 0, 1, 0])?;
/// assert_eq!((game.size().vertices, game.size().edges), (2, 3));
/// assert_eq!((game.priority(0), game.owner(1)), (1, Player::Odd));
/// assert_eq!((game.source(1), game.target(1)), (0, 1));
/// assert!(game.edges().eq([(0, 0), (0, 1), (1, 0)]));
/// # Ok::<(), raskjomi::Refusal>(())
/// ```
#[derive(Clone, Debug, PartialEq, Eq)]
pub struct LargeGame {
    words: Vec<u32>,
    size: LargeSize,
}

impl LargeGame {
    /// The game of a table.
    ///
    /// ```
    /// let refusal = raskjomi::LargeGame::new(vec![1, 1, 0, 2, 0, 0]).unwrap_err();
    /// assert_eq!(refusal.to_string(), "refused 5 at 3: an owner is above 1");
    /// ```
    ///
    /// # Errors
    ///
    /// Those of [`large_read`].
    pub fn new(words: Vec<u32>) -> Result<LargeGame, Refusal> {
        let size = large_read(&words)?;
        Ok(LargeGame { words, size })
    }

    /// The words of its table.
    pub fn words(&self) -> &[u32] {
        &self.words
    }

    /// Its sizes.
    pub fn size(&self) -> LargeSize {
        self.size
    }

    /// The priority of a vertex.
    pub fn priority(&self, vertex: u32) -> u32 {
        self.part(2, self.size.vertices)[vertex as usize]
    }

    /// The player who moves at a vertex.
    pub fn owner(&self, vertex: u32) -> Player {
        match self.part(2 + self.size.vertices, self.size.vertices)[vertex as usize] {
            crate::EVEN => Player::Even,
            _ => Player::Odd,
        }
    }

    /// The vertex that an edge leaves.
    pub fn source(&self, edge: u32) -> u32 {
        self.sources()[edge as usize]
    }

    /// The vertex that an edge leads to.
    pub fn target(&self, edge: u32) -> u32 {
        self.targets()[edge as usize]
    }

    /// The edges in the sequence of the table, each with its source and its target.
    pub fn edges(&self) -> impl ExactSizeIterator<Item = (u32, u32)> + '_ {
        self.sources().iter().copied().zip(self.targets().iter().copied())
    }

    /// Judges a solution by a certificate.
    ///
    /// ```
    /// use raskjomi::{Certificate, LargeGame, LargeSolution, Player};
    /// let game = LargeGame::new(vec![1, 1, 0, 0, 0, 0])?;
    /// let certificate = Certificate::new(&[0], &[0], &[0]);
    /// assert!(game.check(&LargeSolution::new(&[Player::Even], &[0]), &certificate).is_ok());
    /// let refusal = game.check(&LargeSolution::new(&[Player::Odd], &[0]), &certificate).unwrap_err();
    /// assert_eq!((refusal.number, refusal.place), (89, 0));
    /// # Ok::<(), raskjomi::Refusal>(())
    /// ```
    ///
    /// # Errors
    ///
    /// Refusals 81 to 89, as [`large_solution`] has them.
    pub fn check(
        &self,
        solution: &LargeSolution,
        certificate: &Certificate,
    ) -> Result<(), Refusal> {
        large_solution(&self.words, solution.words(), certificate.words())
    }

    /// Makes a certificate of a solution. Every right solution has one; nobody has to trust that this one is right, since
    /// [`check`](LargeGame::check) judges it.
    ///
    /// ```
    /// use raskjomi::{LargeGame, LargeSolution, Player, Uncertified};
    /// let game = LargeGame::new(vec![2, 3, 1, 0, 0, 1, 0, 0, 1, 0, 1, 0])?;
    /// let solution = LargeSolution::new(&[Player::Even, Player::Even], &[1, 2]);
    /// let certificate = game.certify(&solution)?;
    /// assert!(game.check(&solution, &certificate).is_ok());
    /// // By edge 0 Even goes round at vertex 0, where the priority is 1.
    /// let wrong = LargeSolution::new(&[Player::Even, Player::Even], &[0, 2]);
    /// let Err(Uncertified::Flawed(flaw)) = game.certify(&wrong) else { panic!("Odd wins by the loop") };
    /// assert_eq!((flaw.vertices, flaw.edges), (vec![0], vec![0]));
    /// # Ok::<(), Box<dyn std::error::Error>>(())
    /// ```
    ///
    /// # Errors
    ///
    /// Refusals 81 to 84 of the solution, or else a closed walk that the loser wins by the solution's moves.
    pub fn certify(&self, solution: &LargeSolution) -> Result<Certificate, Uncertified> {
        // No game has a certificate of no words, so that 85 says that the solution passes all refusals before it.
        match large_solution(&self.words, solution.words(), &[]) {
            Err(refusal) if refusal.number < 85 => Err(refusal.into()),
            _ => Ok(Certificate::from_words(certificate::make(&self.words, solution.words())?)),
        }
    }

    pub(super) fn sources(&self) -> &[u32] {
        self.part(2 + 2 * self.size.vertices, self.size.edges)
    }

    /// The same as a game for the calls that have limits, where it is within them, its priorities fit 16 bits, and each vertex has an edge out.
    ///
    /// ```
    /// use raskjomi::{Game, LargeGame};
    /// let game: Game = "1 1 / 4 / 1 / 0 / 0".parse()?;
    /// assert_eq!(LargeGame::from(&game).within_limits(), Some(game));
    /// assert_eq!(LargeGame::new(vec![1, 1, 70_000, 0, 0, 0])?.within_limits(), None);
    /// # Ok::<(), Box<dyn std::error::Error>>(())
    /// ```
    pub fn within_limits(&self) -> Option<Game> {
        let words = self.words.iter().map(|&word| u16::try_from(word).ok());
        Game::new(words.collect::<Option<_>>()?).ok()
    }

    fn targets(&self) -> &[u32] {
        self.part(2 + 2 * self.size.vertices + self.size.edges, self.size.edges)
    }

    /// So many words from one on.
    fn part(&self, from: usize, count: usize) -> &[u32] {
        &self.words[from..from + count]
    }
}

/// A game within the limits as one of any size.
impl From<&Game> for LargeGame {
    fn from(game: &Game) -> LargeGame {
        let words = game.words().iter().map(|&word| word.into()).collect();
        LargeGame::new(words).expect("the reader of large games refuses nothing more")
    }
}
