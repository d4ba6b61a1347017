//! Solutions of large games in PGSolver's format, `paritysol N; id winner strategy; ..`.

use super::components::NONE;
use super::file_error::FileError;
use super::identifiers::Identifiers;
use super::lines::Lines;
use super::pgsolver::header;
use super::scan::{Scanner, Token};
use super::NO_WINNER;
use std::io::Read;

/// The first word of a solution, where its file has one.
pub(crate) const SOLUTION: &str = "paritysol";

/// What some solutions have in place of a strategy.
const NO_MOVE: &str = "-1";

pub(crate) const REMEDY: &str =
    "write `id winner strategy;`, with a strategy where the vertex is its winner's";

/// What is wrong with a vertex of its winner's that has no move.
pub(crate) const NO_STRATEGY: &str = "no strategy, though the vertex is its winner's";

/// How many successors a message names at most.
const SHOWN: usize = 8;

/// What a file says of a vertex.
#[derive(Clone, Copy, Debug)]
pub(crate) struct Entry {
    pub line: u64,
    pub id: u32,
    /// 0 for Even, 1 for Odd.
    pub winner: u32,
    /// The id of the successor where the winner goes.
    pub choice: Option<u32>,
}

/// Hands on each entry of a file, from its first token on.
pub(crate) fn each_entry<R: Read>(
    scanner: &mut Scanner<R>,
    first: Token,
    mut take: impl FnMut(Entry) -> Result<(), FileError>,
) -> Result<(), FileError> {
    let mut token = first;
    if scanner.is_word(token, SOLUTION) {
        header(scanner, SOLUTION)?;
        token = scanner.next()?;
    }
    loop {
        match token {
            Token::Number(id) => take(entry(scanner, id)?)?,
            Token::End => return Ok(()),
            found => return Err(scanner.unexpected(found, None, "an id", REMEDY)),
        }
        token = scanner.next()?;
    }
}

/// Reads an entry, from its winner on.
#[inline]
fn entry<R: Read>(scanner: &mut Scanner<R>, id: u32) -> Result<Entry, FileError> {
    let line = scanner.line;
    let winner = scanner.wanted(Some(id), "a winner", REMEDY)?;
    if winner > 1 {
        let remedy = "write 0 where Even wins and 1 where Odd does";
        return Err(FileError::at(line, Some(id), format!("winner {winner}"), remedy));
    }
    let error = |error| FileError { id: Some(id), ..error };
    let (mut choice, mut next) = (None, scanner.next().map_err(error)?);
    if let Token::Number(found) = next {
        choice = Some(found);
        next = scanner.next().map_err(error)?;
    } else if scanner.is_word(next, NO_MOVE) {
        next = scanner.next().map_err(error)?;
    }
    if next == Token::Name {
        next = scanner.next().map_err(error)?;
    }
    match next {
        Token::Semicolon => Ok(Entry { line, id, winner, choice }),
        found => Err(scanner.unexpected(found, Some(id), "a semicolon", REMEDY)),
    }
}

/// That a vertex has two entries, of which one stands before.
pub(crate) fn twice(entry: Entry, before: u64) -> FileError {
    let what = format!("line {before} has this id already");
    FileError::at(entry.line, Some(entry.id), what, "write one line for each vertex")
}

/// That a vertex has none.
pub(crate) fn no_line(label: &str) -> FileError {
    FileError::of_file(format!("no line for vertex {label}"), "solve the whole game")
}

/// A solution as its lines come in.
struct Draft<'a> {
    owners: &'a [u32],
    sources: &'a [u32],
    targets: &'a [u32],
    vertices: &'a Identifiers,
    lines: Lines,
    count: u32,
    /// The number of the file's entry for each vertex, or `NONE`.
    entries: Vec<u32>,
    winners: Vec<u32>,
    /// The successor where the winner goes, or `NONE` where the loser moves.
    choices: Vec<u32>,
}

/// Reads a solution from its first token on; a whole one has a line for each vertex.
pub(super) fn read<R: Read>(
    scanner: &mut Scanner<R>,
    first: Token,
    game: &[u32],
    vertices: &Identifiers,
    whole: bool,
) -> Result<Vec<u32>, FileError> {
    let (n, m) = (game[0] as usize, game[1] as usize);
    let (owners, ends) = game[2 + n..].split_at(n);
    let (sources, targets) = ends.split_at(m);
    let none = || vec![NONE; n];
    let (entries, winners, choices) = (none(), Vec::with_capacity(2 * n), none());
    let lines = Lines::default();
    let mut draft =
        Draft { owners, sources, targets, vertices, lines, count: 0, entries, winners, choices };
    draft.winners.resize(n, NO_WINNER);
    each_entry(scanner, first, |entry| draft.take(entry))?;
    draft.finished(whole)
}

impl Draft<'_> {
    /// Takes the next entry.
    #[inline]
    fn take(&mut self, entry: Entry) -> Result<(), FileError> {
        let vertex = self.accept(entry)?;
        self.winners[vertex as usize] = entry.winner;
        if self.owners[vertex as usize] == entry.winner {
            self.choices[vertex as usize] = self.choice(entry)?;
        }
        Ok(())
    }

    /// The vertex of an entry that may come.
    fn accept(&mut self, entry: Entry) -> Result<u32, FileError> {
        let Some(vertex) = self.vertices.vertex(entry.id) else {
            let what = "no vertex of the game has this id";
            let remedy = "take the solution of this game";
            return Err(FileError::at(entry.line, Some(entry.id), what, remedy));
        };
        let number = &mut self.entries[vertex as usize];
        if *number != NONE {
            return Err(twice(entry, self.lines.of(*number as usize)));
        }
        *number = self.count;
        self.count += 1;
        self.lines.push(entry.line);
        Ok(vertex)
    }

    /// The successor that a winner's strategy names.
    fn choice(&self, Entry { line, id, choice, .. }: Entry) -> Result<u32, FileError> {
        let Some(choice) = choice else {
            return Err(FileError::at(line, Some(id), NO_STRATEGY, REMEDY));
        };
        self.vertices.vertex(choice).ok_or_else(|| {
            let what = format!("strategy {choice} is no vertex of the game");
            FileError::at(line, Some(id), what, "name one of its successors")
        })
    }

    /// The words of the solution.
    fn finished(self, whole: bool) -> Result<Vec<u32>, FileError> {
        let left_out = self.entries.iter().position(|&entry| entry == NONE);
        if let Some(vertex) = left_out.filter(|_| whole) {
            let label = self.vertices.label(vertex as u32);
            return Err(no_line(&label));
        }
        let edges = self.edges();
        let is_stuck = |v: &usize| edges[*v] == NONE && self.entries[*v] != NONE;
        match (0..edges.len()).find(is_stuck) {
            Some(vertex) => Err(self.without_edge(vertex as u32)),
            None => {
                let mut words = self.winners;
                words.extend(edges);
                Ok(words)
            }
        }
    }

    /// The first edge of each vertex that goes where it is to go, or `NONE`.
    fn edges(&self) -> Vec<u32> {
        let mut edges = vec![NONE; self.owners.len()];
        for (edge, (&source, &target)) in (0..).zip(self.sources.iter().zip(self.targets)) {
            let (found, choice) = (&mut edges[source as usize], self.choices[source as usize]);
            if *found == NONE && (choice == NONE || choice == target) {
                *found = edge;
            }
        }
        edges
    }

    /// A vertex that has no edge where it is to go.
    fn without_edge(&self, vertex: u32) -> FileError {
        let line = self.lines.of(self.entries[vertex as usize] as usize);
        let edges = self.sources.iter().zip(self.targets).filter(|&(&source, _)| source == vertex);
        let mut successors: Vec<u32> = edges.map(|(_, &target)| self.vertices.id(target)).collect();
        successors.sort_unstable();
        successors.dedup();
        let id = Some(self.vertices.id(vertex));
        if successors.is_empty() {
            let remedy =
                "a vertex where nobody can move has no winner: give it a successor in the game";
            return FileError::at(line, id, "the game has no edge out of this vertex", remedy);
        }
        let mut shown: Vec<String> = successors.iter().take(SHOWN).map(u32::to_string).collect();
        if successors.len() > SHOWN {
            shown.push("..".into());
        }
        let choice = self.vertices.id(self.choices[vertex as usize]);
        let remedy = format!("name one of its successors: {}", shown.join(", "));
        FileError::at(line, id, format!("strategy {choice} is no successor of it"), remedy)
    }
}
