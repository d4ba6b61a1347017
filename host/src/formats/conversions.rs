//! Games, plans and traces from text and from words.

use super::{read_game, Numbers, ReadError, Unit};
use crate::large::FileError;
use crate::{Game, Plan, Refusal, Trace};
use std::str::FromStr;

/// A game of decimal text or in PGSolver's format, as [`read_game`] tells them apart.
///
/// ```
/// let game: raskjomi::Game = "3 3 / 0 1 0 / 0 0 1 / 0 1 2 / 1 1 1".parse()?;
/// assert_eq!(game.size().vertices, 3);
/// let error = "3 3 / 0 1 0 / 0 0 2 / 0 1 2 / 1 1 1".parse::<raskjomi::Game>().unwrap_err();
/// assert!(error.to_string().starts_with("line 1, word 8 (owner 2): refused 5 at 7: "));
/// # Ok::<(), raskjomi::formats::ReadError>(())
/// ```
impl FromStr for Game {
    type Err = ReadError;

    fn from_str(text: &str) -> Result<Game, ReadError> {
        read_game(text.as_bytes()).map(|file| file.game)
    }
}

/// ```
/// use raskjomi::Game;
/// assert!(Game::try_from(vec![1, 1, 0, 0, 0, 0]).is_ok());
/// assert_eq!(Game::try_from(vec![1, 1, 0, 2, 0, 0]).unwrap_err().number, 5);
/// ```
impl TryFrom<Vec<u16>> for Game {
    type Error = Refusal;

    fn try_from(words: Vec<u16>) -> Result<Game, Refusal> {
        Game::new(words)
    }
}

/// ```
/// assert!(raskjomi::Game::try_from(&[1, 1, 0, 0, 0, 0][..]).is_ok());
/// ```
impl TryFrom<&[u16]> for Game {
    type Error = Refusal;

    fn try_from(words: &[u16]) -> Result<Game, Refusal> {
        Game::new(words.to_vec())
    }
}

/// A plan of decimal text, which nobody has judged.
impl FromStr for Plan {
    type Err = FileError;

    fn from_str(text: &str) -> Result<Plan, FileError> {
        words(text).map(Plan::from_words)
    }
}

/// A trace of decimal text, which nobody has judged.
impl FromStr for Trace {
    type Err = FileError;

    fn from_str(text: &str) -> Result<Trace, FileError> {
        words(text).map(Trace::from_words)
    }
}

fn words(text: &str) -> Result<Vec<u16>, FileError> {
    Numbers::read(text.as_bytes(), Unit::Word, None).map(|read| read.numbers)
}
