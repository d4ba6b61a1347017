//! Games within the limits in PGSolver's format, `parity N; id priority owner successor,successor "name"; ..`, read and written as
//! [`large`](crate::large) ones are.

use super::places::Place;
use super::vertices::Vertices;
use crate::large::pgsolver::{read_lined, Lined};
use crate::large::scan::Scanner;
use crate::large::{write_game_as, FileError, FileErrorKind, Repeats, Style};
use crate::{Game, LargeGame, Refusal, MOST_EDGES, MOST_VERTICES};

/// A game as the file has it: the words of its table, each with the line and the id that it comes from,
/// and what its vertices are called.
pub(super) struct Parsed {
    pub words: Vec<u16>,
    pub places: Vec<Place>,
    pub vertices: Vertices,
    /// The successors that stand in their lines a second time.
    pub repeats: Option<Repeats>,
}

/// Reads a game. Vertices are numbered by ascending id, and edges stand as the file lists them, each once.
pub(super) fn parse(text: &[u8]) -> Result<Parsed, FileError> {
    let mut scanner = Scanner::new(text);
    let token = scanner.next()?;
    let Lined { file, lines, first } = read_lined(&mut scanner, token)?;
    let each: Vec<Place> =
        (0..).zip(lines).map(|(vertex, line)| (line, Some(file.vertices.id(vertex)))).collect();
    let words = small(&file.words, &each, first)?;
    let (n, m) = (each.len(), usize::from(words[1]));
    let sources = words[2 + 2 * n..2 + 2 * n + m].iter();
    let of_edges: Vec<Place> = sources.map(|&source| each[usize::from(source)]).collect();
    // Sizes above the limits stand at the first vertex or edge too many.
    let too_many = |all: &[Place], most: usize| all.get(most).copied().unwrap_or((first, None));
    let sizes = vec![too_many(&each, MOST_VERTICES), too_many(&of_edges, MOST_EDGES)];
    Ok(Parsed {
        words,
        places: [sizes, each.clone(), each, of_edges.clone(), of_edges].concat(),
        vertices: Vertices::named(file.vertices, file.start),
        repeats: file.repeats,
    })
}

/// The words of a table in 16 bits each, where its sizes and priorities fit.
fn small(words: &[u32], vertices: &[Place], first: u64) -> Result<Vec<u16>, FileError> {
    let above = |place: Place, what: String, remedy: String| FileError {
        kind: FileErrorKind::AboveLimits,
        ..FileError::at(place.0, place.1, what, remedy)
    };
    let most = u32::from(u16::MAX);
    let (n, m) = (words[0], words[1]);
    if n.max(m) > most {
        let limits = format!("a game has at most {MOST_VERTICES} vertices and {MOST_EDGES} edges");
        let what = format!("{n} vertices and {m} edges");
        return Err(above((first, None), what, format!("{limits}; bring a part of it")));
    }
    let high = vertices.iter().zip(&words[2..]).filter(|&(_, &priority)| priority > most);
    if let Some((&place, priority)) = high.min_by_key(|(place, _)| place.0) {
        let what = format!("priority {priority} is above {most}");
        let remedy =
            "number the priorities in use anew, in the same sequence and each with its parity";
        return Err(above(place, what, remedy.into()));
    }
    Ok(words.iter().map(|&word| word as u16).collect())
}

/// A game where the lowest priority decides in PGSolver's format, each edge once. Readers of the format let the highest decide, unless they
/// are told to let the lowest: so priorities are those that the game was read with, or go through the conversion, or stay where `lowest` says so.
///
/// ```
/// use raskjomi::formats::{to_pgsolver, Vertices};
/// let game: raskjomi::Game = "2 3 / 0 1 / 0 1 / 0 1 1 / 1 0 1".parse()?;
/// assert_eq!(to_pgsolver(&game, &Vertices::numbers(2), false)?, b"parity 1;\n0 2 0 1;\n1 1 1 0,1;\n");
/// assert_eq!(to_pgsolver(&game, &Vertices::numbers(2), true)?, b"parity 1;\n0 0 0 1;\n1 1 1 0,1;\n");
/// # Ok::<(), Box<dyn std::error::Error>>(())
/// ```
///
/// # Errors
///
/// Refusal 36 of priorities that can't be converted.
pub fn to_pgsolver(game: &Game, vertices: &Vertices, lowest: bool) -> Result<Vec<u8>, Refusal> {
    if !lowest && vertices.even().is_none() {
        // The writer of large games converts by itself, without a limit.
        game.convert()?;
    }
    let start = vertices.start().map(|vertex| vertex as u32);
    let style = Style { lowest, even: vertices.even().map(u64::from), start };
    let mut bytes = Vec::new();
    let (words, names) = (LargeGame::from(game), vertices.identifiers());
    write_game_as(&mut bytes, words.words(), names, style).expect("a list takes all");
    Ok(bytes)
}
