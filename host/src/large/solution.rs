//! Solutions of large games, and certificates, as values that own their words.

use super::saved::{self, About, SavedError};
use super::{Flaw, LargeGame};
use crate::{Player, Refusal};
use std::fmt;
use std::io::{self, Read, Write};

/// A solution of a large game by its words, which no call has judged yet.
///
/// ```
/// use raskjomi::{LargeSolution, Player};
/// let solution = LargeSolution::new(&[Player::Even, Player::Odd], &[1, 2]);
/// assert_eq!(solution.words(), [0, 1, 1, 2]);
/// assert_eq!((solution.winner(1), solution.edge(1)), (Some(Player::Odd), Some(2)));
/// assert_eq!((solution.winner(2), solution.edge(2)), (None, None));
/// ```
#[derive(Clone, Debug, PartialEq, Eq)]
pub struct LargeSolution {
    words: Vec<u32>,
}

impl LargeSolution {
    /// The solution with these winners, one for each vertex, and as many numbers of edges: for each vertex that of an edge out of it, its move
    /// where the winner owns it, and any where not.
    pub fn new(winners: &[Player], edges: &[u32]) -> LargeSolution {
        let winners = winners.iter().map(|&winner| u32::from(winner));
        LargeSolution { words: winners.chain(edges.iter().copied()).collect() }
    }

    /// The solution of words from elsewhere.
    pub fn from_words(words: Vec<u32>) -> LargeSolution {
        LargeSolution { words }
    }

    /// Its words: the winners, then the edges.
    pub fn words(&self) -> &[u32] {
        &self.words
    }

    /// The winner that it names at a vertex, if it names one.
    pub fn winner(&self, vertex: u32) -> Option<Player> {
        let (winners, _) = self.halves();
        Player::try_from(*winners.get(vertex as usize)?).ok()
    }

    /// The edge that it names for a vertex, if there is one.
    pub fn edge(&self, vertex: u32) -> Option<u32> {
        let (_, edges) = self.halves();
        edges.get(vertex as usize).copied()
    }

    fn halves(&self) -> (&[u32], &[u32]) {
        self.words.split_at(self.words.len() / 2)
    }
}

/// A certificate of a solution by its words, which no call has judged yet: an order of the vertices, with a run of places for each.
///
/// ```
/// let certificate = raskjomi::Certificate::new(&[1, 0], &[1, 0], &[1, 1]);
/// assert_eq!(certificate.words(), [1, 0, 1, 0, 1, 1]);
/// ```
#[derive(Clone, Debug, PartialEq, Eq)]
pub struct Certificate {
    words: Vec<u32>,
}

impl Certificate {
    /// The certificate with the place of each vertex, the vertex at each place, and the last place of each place's run.
    pub fn new(places: &[u32], vertices: &[u32], runs: &[u32]) -> Certificate {
        Certificate { words: [places, vertices, runs].concat() }
    }

    /// The certificate of words from elsewhere.
    pub fn from_words(words: Vec<u32>) -> Certificate {
        Certificate { words }
    }

    /// Its words.
    pub fn words(&self) -> &[u32] {
        &self.words
    }

    /// Reads the certificate of a solution as [`save`](Certificate::save) writes it.
    ///
    /// # Errors
    ///
    /// What can't be read, or is the certificate of another game or solution.
    pub fn load(
        input: impl Read,
        game: &LargeGame,
        solution: &LargeSolution,
    ) -> Result<Certificate, SavedError> {
        saved::read(input, About::solution(game.words(), solution.words()))
            .map(Certificate::from_words)
    }

    /// Writes the certificate of a solution, in a form that tells of which: docs/LARGE.md has it.
    ///
    /// ```
    /// use raskjomi::{Certificate, LargeGame, LargeSolution, Player};
    /// let game = LargeGame::new(vec![1, 1, 0, 0, 0, 0])?;
    /// let solution = LargeSolution::new(&[Player::Even], &[0]);
    /// let (certificate, mut file) = (game.certify(&solution)?, Vec::new());
    /// certificate.save(&mut file, &game, &solution)?;
    /// assert_eq!(Certificate::load(&*file, &game, &solution)?, certificate);
    /// // The certificate of another solution.
    /// let other = LargeSolution::new(&[Player::Odd], &[0]);
    /// assert!(Certificate::load(&*file, &game, &other).is_err());
    /// # Ok::<(), Box<dyn std::error::Error>>(())
    /// ```
    ///
    /// # Errors
    ///
    /// Those of `out`.
    pub fn save(
        &self,
        out: impl Write,
        game: &LargeGame,
        solution: &LargeSolution,
    ) -> io::Result<()> {
        saved::write(out, About::solution(game.words(), solution.words()), &self.words)
    }
}

/// Why a solution gets no certificate.
///
/// ```
/// use raskjomi::{LargeGame, LargeSolution, Player};
/// let game = LargeGame::new(vec![1, 1, 0, 0, 0, 0])?;
/// let none = game.certify(&LargeSolution::new(&[Player::Even], &[1])).unwrap_err();
/// assert!(none.to_string().starts_with("refused 83 at 0: "));
/// let none = game.certify(&LargeSolution::new(&[Player::Odd], &[0])).unwrap_err();
/// assert!(none.to_string().starts_with("Odd is said to win at vertex 0, but "));
/// # Ok::<(), raskjomi::Refusal>(())
/// ```
#[derive(Clone, Debug, PartialEq, Eq)]
#[non_exhaustive]
pub enum Uncertified {
    /// It isn't a solution of the game: refusals 81 to 84.
    Refused(Refusal),
    /// It is wrong: the player who is said to lose wins a closed walk.
    Flawed(Flaw),
}

impl From<Refusal> for Uncertified {
    fn from(refusal: Refusal) -> Uncertified {
        Uncertified::Refused(refusal)
    }
}

impl From<Flaw> for Uncertified {
    fn from(flaw: Flaw) -> Uncertified {
        Uncertified::Flawed(flaw)
    }
}

impl fmt::Display for Uncertified {
    fn fmt(&self, f: &mut fmt::Formatter) -> fmt::Result {
        match self {
            Uncertified::Refused(refusal) => refusal.fmt(f),
            Uncertified::Flawed(flaw) => flaw.fmt(f),
        }
    }
}

impl std::error::Error for Uncertified {}
