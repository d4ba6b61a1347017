//! Files of games, solutions and plans: read, with the place of what is wrong, and written back.
//!
//! A game is binary, decimal text or in PGSolver's format; [`read_game`] tells them apart. Its vertices have ids and names in PGSolver's
//! format, which [`Vertices`] keeps; in the other formats they have numbers alone.
//!
//! ```
//! let file = raskjomi::formats::read_game(b"parity 2; 0 1 0 1 \"a\"; 1 0 0 1 \"end\"; 2 1 1 1 \"b\";")?;
//! let reduced = file.reduce();
//! assert_eq!(reduced.to_pgsolver(false)?, b"parity 1;\n0 1 0 1 \"a\";\n1 0 0 1 \"end\";\n");
//! # Ok::<(), Box<dyn std::error::Error>>(())
//! ```
//!
//! What is written as text, all of [`Game`], [`Plan`](crate::Plan), [`Trace`](crate::Trace) and [`Order`](crate::Order), is their
//! `Display`, and their `FromStr` reads it back; [`to_bytes`] writes words in binary, [`to_pgsolver`] a game in PGSolver's format, [`dot`]
//! draws, and [`json`] has values.

mod binary;
mod conversions;
pub mod dot;
pub mod json;
mod named;
mod numbers;
mod pgsolver;
mod places;
mod solution;
mod text;
mod vertices;

use crate::large::paritysol::SOLUTION;
use crate::large::pgsolver::{GAME, START};
use crate::large::scan::Scanner;
use crate::large::{FileError, FileForm};
use crate::{Game, Refusal};
pub use binary::{is_binary, is_packed};
pub use named::NamedGame;
pub use numbers::{bad_word, number, to_bytes, Numbers};
pub use pgsolver::to_pgsolver;
pub use places::Unit;
pub use solution::Solution;
use std::error::Error;
use std::fmt;
pub use text::{to_text, Part};
pub use vertices::Vertices;

/// Why a game can't be had from a file.
#[derive(Clone, Debug, PartialEq, Eq)]
#[non_exhaustive]
pub enum ReadError {
    /// The file can't be read.
    File(FileError),
    /// The file is read, and the game is refused.
    Refused(Refused),
}

/// A refusal of a game, with its place in the file that it comes from.
#[derive(Clone, Debug, PartialEq, Eq)]
#[non_exhaustive]
pub struct Refused {
    /// The refusal.
    pub refusal: Refusal,
    /// The place in the file, in words.
    pub place: String,
}

/// "line 3, id 5 (vertex id 5): refused 8 at 1: what is refused; what to do"
impl fmt::Display for Refused {
    fn fmt(&self, f: &mut fmt::Formatter) -> fmt::Result {
        let Refused { refusal, place } = self;
        write!(f, "{place}: {refusal}; {}", refusal.explanation().remedy)
    }
}

impl fmt::Display for ReadError {
    fn fmt(&self, f: &mut fmt::Formatter) -> fmt::Result {
        match self {
            ReadError::File(error) => error.fmt(f),
            ReadError::Refused(refused) => refused.fmt(f),
        }
    }
}

impl Error for ReadError {}

impl From<FileError> for ReadError {
    fn from(error: FileError) -> ReadError {
        ReadError::File(error)
    }
}

impl From<Refused> for ReadError {
    fn from(refused: Refused) -> ReadError {
        ReadError::Refused(refused)
    }
}

/// Reads a game: in binary, as decimal text or in PGSolver's format, where the highest priority decides.
///
/// ```
/// use raskjomi::formats::read_game;
/// let file = read_game(b"parity 7; start 7;\n3 2 0 7 \"door\";\n7 1 1 3,7;")?;
/// // Ids 3 and 7 are vertices 0 and 1, and their priorities 2 and 1 are 0 and 1 where the lowest decides.
/// assert_eq!(file.game.words(), [2, 3, 0, 1, 0, 1, 0, 1, 1, 1, 0, 1]);
/// assert_eq!(file.vertices.label(0), "id 3 \"door\"");
/// assert_eq!(read_game(b"2 3 / 0 1 / 0 1 / 0 1 1 / 1 0 1")?.game, file.game);
/// let error = read_game(b"parity 7;\n3 2 0 4;").unwrap_err();
/// assert!(error.to_string().starts_with("line 2, id 3: successor 4 is no vertex of the file; "));
/// let error = read_game(b"parity 7;\n3 2 0;").unwrap_err();
/// assert!(error.to_string().starts_with("line 2, id 3 (vertex id 3): refused 8 at 0: "));
/// # Ok::<(), raskjomi::formats::ReadError>(())
/// ```
///
/// # Errors
///
/// What is wrong with the file, or the refusal of the game, with the place in the file.
pub fn read_game(bytes: &[u8]) -> Result<NamedGame, ReadError> {
    read_game_as(bytes, None, false)
}

/// Reads a game as [`read_game`] does, where somebody says what the bytes are, or that the lowest priority decides in
/// PGSolver's format, too.
///
/// ```
/// let file = raskjomi::formats::read_game_as(b"parity 1; 0 2 0 1; 1 1 0 0;", None, true)?;
/// assert_eq!(file.game.priorities(), [2, 1]);
/// # Ok::<(), raskjomi::formats::ReadError>(())
/// ```
///
/// # Errors
///
/// Those of [`read_game`].
pub fn read_game_as(
    bytes: &[u8],
    form: Option<FileForm>,
    lowest: bool,
) -> Result<NamedGame, ReadError> {
    let read = Numbers::game(bytes, form, lowest)?;
    let game = Game::new(read.numbers.clone()).map_err(|refusal| read.refused(refusal))?;
    Ok(NamedGame { game, vertices: read.vertices, repeats: read.repeats })
}

/// What is in PGSolver's formats.
#[derive(Clone, Copy, Debug, PartialEq, Eq)]
#[non_exhaustive]
pub enum Format {
    /// A game, by its first word.
    Game,
    /// A solution, by its first word.
    Solution,
    /// Lines without a first word, of a game or a solution.
    Lines,
}

/// What a file is of PGSolver's formats, if it is anything.
///
/// ```
/// use raskjomi::formats::{format, Format};
/// assert_eq!(format(b"# solved\nparitysol 1; 0 0 1;"), Some(Format::Solution));
/// assert_eq!((format(b"0 0 1;"), format(b"1 1 0 0 0 0")), (Some(Format::Lines), None));
/// ```
pub fn format(bytes: &[u8]) -> Option<Format> {
    let mut scanner = Scanner::new(bytes);
    let first = scanner.next().ok()?;
    if [GAME, START].iter().any(|word| scanner.is_word(first, word)) {
        return Some(Format::Game);
    }
    if scanner.is_word(first, SOLUTION) {
        return Some(Format::Solution);
    }
    scanner.in_statement(first).then_some(Format::Lines)
}
