//! Large games in PGSolver's format, `parity N; id priority owner successor,successor "name"; ..`.
//!
//! A file is read once, from its start to its end, so it may come through a pipe. Vertices are numbered by ascending id, and edges stand by
//! source, then as the file lists them, each once.

use super::degrees::Degrees;
use super::file_error::FileError;
use super::identifiers::Identifiers;
use super::lines::Lines;
use super::repeats::{drop_repeats, Repeats};
use super::scan::{Scanner, Token};
use std::io::Read;

/// The first word of a game, where its file has one.
pub(crate) const GAME: &str = "parity";

/// The word before the id of the vertex that a game starts at.
pub(crate) const START: &str = "start";

const REMEDY: &str = "write `id priority owner successor,successor \"name\";`";

/// A game that was read from a file.
#[derive(Clone, Debug)]
#[non_exhaustive]
pub struct GameFile {
    /// The words of the game, where the lowest priority decides.
    pub words: Vec<u32>,
    /// What its vertices are called.
    pub vertices: Identifiers,
    /// The vertex that the file names as the start, if it names one.
    pub start: Option<u32>,
    /// What a priority and the file's own add up to, where the highest decides in the file.
    pub even: Option<u64>,
    /// Whether the file is in PGSolver's format.
    pub in_pgsolver: bool,
    /// The successors that stand in their lines a second time, in PGSolver's format.
    pub repeats: Option<Repeats>,
}

/// A game as its lines come in.
#[derive(Default)]
struct Draft {
    vertices: Identifiers,
    lines: Lines,
    priorities: Vec<u32>,
    degrees: Degrees,
    /// The ids of all successors.
    targets: Vec<u32>,
    /// The id after `start`, and its line.
    start: Option<(u32, u64)>,
    repeats: Option<Repeats>,
}

/// A game of a file with the lines of its vertices, as they are numbered.
pub(crate) struct Lined {
    pub file: GameFile,
    pub lines: Vec<u64>,
    /// The line of the header, or the first one.
    pub first: u64,
}

/// Reads a game with its lines from its first token on. Its priorities are as the file has them, and it may have no vertex.
pub(crate) fn read_lined<R: Read>(
    scanner: &mut Scanner<R>,
    first: Token,
) -> Result<Lined, FileError> {
    let line = scanner.line;
    let (file, lines) =
        drafted(scanner, first)?.finished(true, |lines, entries| match entries {
            Some(entries) => entries.iter().map(|&entry| lines.of(entry as usize)).collect(),
            None => (0..lines.count()).map(|entry| lines.of(entry)).collect(),
        })?;
    Ok(Lined { file, lines, first: line })
}

/// Reads a game from its first token on. Where the highest priority decides in the file, each priority q becomes M - q, with M the smallest
/// even number not below the highest, as [`convert`](crate::convert()) does for small games.
pub(super) fn read<R: Read>(
    scanner: &mut Scanner<R>,
    first: Token,
    lowest: bool,
) -> Result<GameFile, FileError> {
    let line = scanner.line;
    let draft = drafted(scanner, first)?;
    if draft.priorities.is_empty() {
        return Err(FileError::at(line, None, "no vertex after the first line", REMEDY));
    }
    draft.finished(lowest, |_, _| ()).map(|(file, ())| file)
}

/// All lines of a game.
fn drafted<R: Read>(scanner: &mut Scanner<R>, first: Token) -> Result<Draft, FileError> {
    let (mut most, mut token, mut draft) = (None, first, Draft::default());
    loop {
        match token {
            Token::Number(id) => draft.vertex(scanner, id, most.flatten())?,
            Token::End => return Ok(draft),
            found if scanner.is_word(found, GAME) && most.is_none() && draft.lines.is_empty() => {
                most = Some(header(scanner, GAME)?);
            }
            found if scanner.is_word(found, START) => {
                let remedy = "write `start ID;`, or leave it out";
                let id = scanner.wanted(None, "an id after `start`", remedy)?;
                draft.start = Some((id, scanner.line));
                end(scanner, id, remedy)?;
            }
            found => return Err(scanner.unexpected(found, None, "an id", REMEDY)),
        }
        token = scanner.next()?;
    }
}

/// `parity N;` from N on, where N, the highest id, may be missing.
pub(super) fn header<R: Read>(
    scanner: &mut Scanner<R>,
    first: &str,
) -> Result<Option<u32>, FileError> {
    let remedy = format!("write `{first} N;`, with N the highest id");
    match scanner.next()? {
        Token::Semicolon => Ok(None),
        Token::Number(most) => match scanner.next()? {
            Token::Semicolon => Ok(Some(most)),
            found => Err(scanner.unexpected(found, None, "a semicolon", &remedy)),
        },
        found => Err(scanner.unexpected(found, None, "the highest id", &remedy)),
    }
}

/// The semicolon that has to come now.
fn end<R: Read>(scanner: &mut Scanner<R>, id: u32, remedy: &str) -> Result<(), FileError> {
    match scanner.next()? {
        Token::Semicolon => Ok(()),
        found => Err(scanner.unexpected(found, Some(id), "a semicolon", remedy)),
    }
}

impl Draft {
    /// Reads a vertex, from its priority on.
    #[inline]
    fn vertex<R: Read>(
        &mut self,
        scanner: &mut Scanner<R>,
        id: u32,
        most: Option<u32>,
    ) -> Result<(), FileError> {
        let line = scanner.line;
        if most.is_some_and(|most| id > most) {
            let what = "the id is above the highest id that the first line names";
            return Err(FileError::at(
                line,
                Some(id),
                what,
                format!("write `parity {id};` there, or more"),
            ));
        }
        let priority = scanner.wanted(Some(id), "a priority", REMEDY)?;
        let owner = scanner.wanted(Some(id), "an owner", REMEDY)?;
        if owner > 1 {
            let remedy = "write 0 for Even's vertices and 1 for Odd's";
            return Err(FileError::at(line, Some(id), format!("owner {owner}"), remedy));
        }
        self.vertices.push(id);
        self.lines.push(line);
        self.priorities.push(priority);
        let before = self.targets.len();
        self.successors(scanner, id)?;
        let dropped = drop_repeats(&mut self.targets, before);
        Repeats::add(&mut self.repeats, line, id.into(), dropped);
        if self.targets.len() > u32::MAX as usize {
            let what = "more edges than 32 bits can number";
            return Err(FileError::at(line, Some(id), what, "bring a part of the game"));
        }
        self.degrees.push(owner, self.targets.len() - before);
        Ok(())
    }

    /// The successors, which may be none, the name, if there is one, and the end of a vertex.
    #[inline]
    fn successors<R: Read>(&mut self, scanner: &mut Scanner<R>, id: u32) -> Result<(), FileError> {
        let error = |error| FileError { id: Some(id), ..error };
        let mut next = scanner.next().map_err(error)?;
        while let Token::Number(successor) = next {
            self.targets.push(successor);
            next = scanner.next().map_err(error)?;
            if next != Token::Comma {
                break;
            }
            next = scanner.next().map_err(error)?;
            if !matches!(next, Token::Number(_)) {
                return Err(scanner.unexpected(
                    next,
                    Some(id),
                    "a successor after the comma",
                    REMEDY,
                ));
            }
        }
        if next == Token::Name {
            self.vertices.push_name(&scanner.text, self.targets.len());
            next = scanner.next().map_err(error)?;
        }
        match next {
            Token::Semicolon => Ok(()),
            found => Err(scanner.unexpected(found, Some(id), "a semicolon", REMEDY)),
        }
    }

    /// The game of all lines, with what is kept of the lines and of the sequence of the entries, if they are sorted.
    fn finished<T>(
        mut self,
        lowest: bool,
        keep: impl FnOnce(&Lines, Option<&[u32]>) -> T,
    ) -> Result<(GameFile, T), FileError> {
        let even = if lowest { None } else { Some(self.convert()?) };
        let entries = self.vertices.sort(&self.lines)?;
        self.check_successors(entries.as_deref())?;
        let kept = keep(&self.lines, entries.as_deref());
        if let Some(entries) = entries {
            self.permute(&entries);
        }
        let start = self.start.map(|(id, line)| {
            let missing = || {
                FileError::at(
                    line,
                    Some(id),
                    "the start is no vertex of the file",
                    "name one of its vertices",
                )
            };
            self.vertices.vertex(id).ok_or_else(missing)
        });
        let start = start.transpose()?;
        let vertices = std::mem::take(&mut self.vertices);
        let repeats = self.repeats.take();
        let words = self.words();
        Ok((GameFile { words, vertices, start, even, in_pgsolver: true, repeats }, kept))
    }

    /// Turns the ids of all successors into vertices. The entries of the file stand in another sequence than the vertices, if one is given.
    fn check_successors(&mut self, entries: Option<&[u32]>) -> Result<(), FileError> {
        let Err(place) = self.vertices.resolve(&mut self.targets) else { return Ok(()) };
        let successor = self.targets[place];
        let mut before = 0;
        let is_later = |(_, degree): (u32, usize)| {
            before += degree;
            before > place
        };
        let entry = self.degrees.iter().position(is_later).unwrap_or_default();
        let is_entry = |&other: &u32| other as usize == entry;
        let vertex = entries.and_then(|entries| entries.iter().position(is_entry)).unwrap_or(entry);
        let what = format!("successor {successor} is no vertex of the file");
        let remedy = format!("add a line for {successor}, or take it off the list");
        Err(FileError::at(
            self.lines.of(entry),
            Some(self.vertices.id(vertex as u32)),
            what,
            remedy,
        ))
    }

    /// Puts the entries of the file in the sequence of the vertices.
    fn permute(&mut self, entries: &[u32]) {
        let mut parts = Vec::with_capacity(entries.len());
        let mut start = 0;
        for (owner, degree) in self.degrees.iter() {
            parts.push((owner, start..start + degree));
            start += degree;
        }
        let (mut targets, mut degrees) = (Vec::with_capacity(start), Degrees::default());
        for &entry in entries {
            let (owner, part) = &parts[entry as usize];
            targets.extend_from_slice(&self.targets[part.clone()]);
            degrees.push(*owner, part.len());
        }
        (self.targets, self.degrees) = (targets, degrees);
        self.priorities = entries.iter().map(|&entry| self.priorities[entry as usize]).collect();
    }

    /// Lets the lowest priority decide; returns what a priority and the file's own add up to.
    fn convert(&mut self) -> Result<u64, FileError> {
        let even = even_above(&self.priorities);
        for (entry, priority) in self.priorities.iter_mut().enumerate() {
            *priority = u32::try_from(even - u64::from(*priority)).map_err(|_| {
                let (line, id) = (self.lines.of(entry), self.vertices.id(entry as u32));
                let highest = even - 1;
                let what = format!("priority {priority} beside {highest}, the highest one, needs more than 32 bits");
                let remedy = "number the priorities in use anew, in the same sequence and each with its parity";
                FileError::at(line, Some(id), what, remedy)
            })?;
        }
        Ok(even)
    }

    /// The words of the game, in the memory of the successors.
    fn words(self) -> Vec<u32> {
        let (n, m, mut words) = (self.priorities.len(), self.targets.len(), self.targets);
        words.resize(2 + 2 * n + 2 * m, 0);
        words.copy_within(..m, 2 + 2 * n + m);
        (words[0], words[1]) = (n as u32, m as u32);
        words[2..2 + n].copy_from_slice(&self.priorities);
        drop(self.priorities);
        let (owners, mut sources) = words[2 + n..].split_at_mut(n);
        for (vertex, (owner, degree)) in self.degrees.iter().enumerate() {
            owners[vertex] = owner;
            let (own, rest) = sources.split_at_mut(degree);
            own.fill(vertex as u32);
            sources = rest;
        }
        words
    }
}

/// The smallest even number that isn't below any of these.
pub(super) fn even_above(priorities: &[u32]) -> u64 {
    u64::from(priorities.iter().copied().max().unwrap_or_default()).next_multiple_of(2)
}
