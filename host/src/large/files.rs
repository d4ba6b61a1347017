//! Large games and solutions from files: in PGSolver's formats, or as words.
//!
//! Words are decimal numbers between blanks or slashes, with comments after `#`, or in binary 32 bits each, the lowest byte first. A game in
//! binary may have words of 16 bits, as the calls for small games have them.

use super::components::NONE;
use super::file_error::FileError;
use super::identifiers::Identifiers;
use super::paritysol::{self, SOLUTION};
use super::pgsolver::{self, GameFile, GAME, START};
use super::scan::{Scanner, Token};
use std::io::Read;

/// What the bytes of a file are.
#[derive(Clone, Copy, Debug, PartialEq, Eq)]
pub enum FileForm {
    /// Text.
    Text,
    /// Words low byte first.
    Binary,
}

/// How many of the first bytes tell text from binary: a game has its numbers of vertices and edges there.
const FIRST: usize = 8;

/// Reads a game. Where nobody says what its bytes are, it is binary if one of the first ones is of no text. In PGSolver's format the highest
/// priority decides, unless `lowest` says otherwise; in words the lowest does.
///
/// Words are as the file has them: [`LargeGame`](crate::LargeGame) judges them.
///
/// ```
/// use raskjomi::large::read_game;
/// let file = read_game(&b"parity 7; start 7;\n3 2 0 7 \"door\";\n7 1 1 3,7;"[..], None, false)?;
/// // Ids 3 and 7 are vertices 0 and 1, and their priorities 2 and 1 are 0 and 1 where the lowest decides.
/// assert_eq!(file.words, [2, 3, 0, 1, 0, 1, 0, 1, 1, 1, 0, 1]);
/// assert_eq!((file.vertices.label(0), file.start), ("id 3 \"door\"".into(), Some(1)));
/// let error = read_game(&b"parity 7;\n3 2 0 4;"[..], None, false).unwrap_err();
/// assert_eq!(error.to_string(), "line 2, id 3: successor 4 is no vertex of the file; add a line for 4, or take it off the list");
/// # Ok::<(), raskjomi::large::FileError>(())
/// ```
///
/// # Errors
///
/// What is wrong with the file, with its line.
pub fn read_game(
    input: impl Read,
    form: Option<FileForm>,
    lowest: bool,
) -> Result<GameFile, FileError> {
    let mut scanner = Scanner::new(input);
    let words = if is_binary(&scanner, form) {
        words_of_game(bytes(&mut scanner)?)?
    } else {
        let first = scanner.next()?;
        let is_word = |word| scanner.is_word(first, word);
        if is_word(GAME) || is_word(START) || scanner.in_statement(first) {
            return pgsolver::read(&mut scanner, first, lowest);
        }
        if scanner.is_word(first, SOLUTION) {
            let what = "a solution in PGSolver's format, where a game is wanted";
            return Err(FileError::at(scanner.line, None, what, "name the game first"));
        }
        decimal(&mut scanner, first, FORMATS)?
    };
    let vertices = Identifiers::numbers(words.first().copied().unwrap_or_default() as usize);
    let (start, even, repeats) = (None, None, None);
    Ok(GameFile { words, vertices, start, even, in_pgsolver: false, repeats })
}

/// Reads a solution of a game whose words [`LargeGame`](crate::LargeGame) accepts, with what its vertices are called. In PGSolver's format the
/// successors that it names become edges of the game, the first one where there are several copies.
///
/// ```
/// use raskjomi::large::{read_game, read_solution};
/// use raskjomi::{LargeGame, LargeSolution, Player};
/// let file = read_game(&b"parity 1; 0 0 0 0,1; 1 1 1 0;"[..], None, false)?;
/// let words = read_solution(&b"paritysol 1; 0 0 0; 1 0;"[..], None, &file.words, &file.vertices)?;
/// assert_eq!(words, [0, 0, 0, 2]);
/// let (game, solution) = (LargeGame::new(file.words)?, LargeSolution::from_words(words));
/// let certificate = game.certify(&solution)?;
/// game.check(&solution, &certificate)?;
/// assert_eq!(solution.winner(1), Some(Player::Even));
/// # Ok::<(), Box<dyn std::error::Error>>(())
/// ```
///
/// # Errors
///
/// What is wrong with the file, with its line, or the first vertex that it has no line for.
///
/// # Panics
///
/// May panic on words of a game that aren't accepted.
pub fn read_solution(
    input: impl Read,
    form: Option<FileForm>,
    game: &[u32],
    vertices: &Identifiers,
) -> Result<Vec<u32>, FileError> {
    read_some_solution(input, form, game, vertices, true)
}

/// Reads a solution as [`read_solution`] does, which may have no line for some vertices: there the word of the winner is [`NO_WINNER`](super::NO_WINNER).
///
/// ```
/// use raskjomi::large::{read_game, read_partial_solution, NO_WINNER};
/// let file = read_game(&b"parity 1; 0 0 0 0,1; 1 1 1 0;"[..], None, false)?;
/// let words = read_partial_solution(&b"paritysol 1; 1 0;"[..], None, &file.words, &file.vertices)?;
/// assert_eq!(words, [NO_WINNER, 0, 0, 2]);
/// # Ok::<(), Box<dyn std::error::Error>>(())
/// ```
///
/// # Errors
///
/// What is wrong with the file, with its line.
///
/// # Panics
///
/// May panic on words of a game that aren't accepted.
pub fn read_partial_solution(
    input: impl Read,
    form: Option<FileForm>,
    game: &[u32],
    vertices: &Identifiers,
) -> Result<Vec<u32>, FileError> {
    read_some_solution(input, form, game, vertices, false)
}

fn read_some_solution(
    input: impl Read,
    form: Option<FileForm>,
    game: &[u32],
    vertices: &Identifiers,
    whole: bool,
) -> Result<Vec<u32>, FileError> {
    let mut scanner = Scanner::new(input);
    if is_binary(&scanner, form) {
        return whole_words(&bytes(&mut scanner)?);
    }
    let first = scanner.next()?;
    if scanner.is_word(first, SOLUTION) || scanner.in_statement(first) {
        return paritysol::read(&mut scanner, first, game, vertices, whole);
    }
    if scanner.is_word(first, GAME) {
        let what = "a game in PGSolver's format, where a solution is wanted";
        return Err(FileError::at(scanner.line, None, what, "name the solution after the game"));
    }
    decimal(&mut scanner, first, FORMATS)
}

/// Reads words, such as the class of each vertex: as text, or as binary if one of the first bytes is of no text and nobody says what they are.
pub fn read_words(input: impl Read, form: Option<FileForm>) -> Result<Vec<u32>, FileError> {
    let mut scanner = Scanner::new(input);
    if is_binary(&scanner, form) {
        return whole_words(&bytes(&mut scanner)?);
    }
    let first = scanner.next()?;
    decimal(&mut scanner, first, "")
}

fn is_binary<R: Read>(scanner: &Scanner<R>, form: Option<FileForm>) -> bool {
    let first = &scanner.rest()[..scanner.rest().len().min(FIRST)];
    let is_control = |byte: &u8| byte.is_ascii_control() && !byte.is_ascii_whitespace();
    form.map_or(first.iter().any(is_control), |form| form == FileForm::Binary)
}

/// What a file of a game or a solution may have in place of words.
const FORMATS: &str =
    ", or PGSolver's format, whose first word is `parity` for a game and `paritysol` for a solution";

/// Decimal numbers, from a first token on; an error names other formats.
fn decimal<R: Read>(
    scanner: &mut Scanner<R>,
    first: Token,
    formats: &str,
) -> Result<Vec<u32>, FileError> {
    let (mut words, mut token) = (Vec::new(), first);
    loop {
        match token {
            Token::Number(number) => words.push(number),
            Token::Slash => (),
            Token::End => return Ok(words),
            found => {
                let words =
                    "write decimal numbers between blanks or slashes, with comments after #";
                let remedy = format!("{words}{formats}");
                return Err(scanner.unexpected(found, None, "a number", &remedy));
            }
        }
        token = scanner.next()?;
    }
}

/// Words of 32 bits, and the bytes behind the last of them.
type Words = (Vec<u32>, Vec<u8>);

/// All words of a binary file.
fn bytes<R: Read>(scanner: &mut Scanner<R>) -> Result<Words, FileError> {
    let (mut words, mut rest) = (Vec::new(), Vec::new());
    let mut piece = scanner.rest();
    while !piece.is_empty() {
        let chunks = piece.chunks_exact(4);
        rest = chunks.remainder().to_vec();
        words.extend(chunks.map(|word| u32::from_le_bytes([word[0], word[1], word[2], word[3]])));
        piece = scanner.next_piece()?;
    }
    Ok((words, rest))
}

/// The words of a binary file that has whole ones.
fn whole_words((words, rest): &Words) -> Result<Vec<u32>, FileError> {
    if rest.is_empty() {
        return Ok(words.clone());
    }
    let (count, more) = (words.len(), rest.len());
    let what = format!("cut off: {count} words of 32 bits and {more} bytes");
    Err(FileError::of_file(what, "write or copy it again"))
}

/// The words of a binary game: of 32 bits, unless its length is that of 16.
fn words_of_game((words, rest): Words) -> Result<Vec<u32>, FileError> {
    let fits = |sizes: [u32; 2], count: usize| {
        2 + 2 * u64::from(sizes[0]) + 2 * u64::from(sizes[1]) == count as u64
    };
    let (first, halves) =
        (words.first().copied().unwrap_or(NONE), 2 * words.len() + rest.len() / 2);
    if !fits([first & 0xffff, first >> 16], halves) || rest.len() % 2 == 1 {
        return whole_words(&(words, rest));
    }
    let last = rest.chunks(2).map(|half| u32::from(half[0]) | u32::from(half[1]) << 8);
    Ok(words.iter().flat_map(|word| [word & 0xffff, word >> 16]).chain(last).collect())
}
