//! Numbers from a file or standard input, binary or decimal text, with the places where they stand.

use crate::check_solution::LARGER;
use crate::failure::Failure;
use crate::large::{opened, Loaded};
use crate::locate::refused;
use crate::source::Source;
use crate::tell;
use raskjomi::formats::{format, is_binary, is_packed, Format, Numbers, ReadError};
pub use raskjomi::formats::{number, Unit};
use raskjomi::large::{FileError, FileErrorKind, FileForm};
use std::io::{self, Read};
use std::ops::Deref;

/// The numbers of an input, with its name.
#[derive(Debug)]
pub struct Input {
    pub name: String,
    pub read: Numbers,
}

impl Deref for Input {
    type Target = Numbers;

    fn deref(&self) -> &Numbers {
        &self.read
    }
}

/// The most bytes of an input that isn't in PGSolver's format: 16 MiB, with much room for comments.
pub const MOST_BYTES: usize = 1 << 24;

impl Input {
    /// Reads a game, in PGSolver's format if its first word or line says so, or the part of it that is asked for.
    pub fn game(source: Source) -> Result<Input, Failure> {
        if source.reachable.is_some() {
            return Loaded::load(source)?.small();
        }
        Bytes::read(source)?.game(source.lowest)
    }

    /// Reads a game in the same way, and gives the bytes of its file, too.
    pub fn game_and_bytes(source: Source) -> Result<(Vec<u8>, Input), Failure> {
        if source.reachable.is_none() {
            let read = Bytes::read(source)?;
            return Ok((read.bytes.clone(), read.game(source.lowest)?));
        }
        let mut bytes = Vec::new();
        let read = opened(source)?.read_to_end(&mut bytes);
        read.map_err(|error| source.unreadable(&error))?;
        let part = Loaded::read(source, &*bytes)?.small()?;
        Ok((bytes, part))
    }

    /// The game of bytes that were read from a source, all of them.
    pub fn game_of(source: Source, bytes: Vec<u8>) -> Result<Input, Failure> {
        Bytes { name: source.name(), bytes, form: source.form }.game(source.lowest)
    }

    /// Reads other numbers.
    pub fn read(source: Source, unit: Unit) -> Result<Input, Failure> {
        let bytes = Bytes::read(source)?;
        if bytes.form.is_none() && is_packed(&bytes.bytes, unit) {
            return bytes.numbers(unit);
        }
        match bytes.format() {
            None => bytes.numbers(unit),
            Some(Format::Game) => Err(bytes
                .bad("a game in PGSolver's format, where no game is wanted; name the game first")),
            Some(Format::Solution) => Err(bytes.bad(
                "a solution in PGSolver's format; make it into a plan by raskjomi plan GAME SOLUTION --vertex V",
            )),
            Some(_) => Err(bytes.bad(
                "lines of a game or a solution in PGSolver's format; name the game first, and make a solution \
                 into a plan by raskjomi plan GAME SOLUTION --vertex V",
            )),
        }
    }

    /// The name and the text of a solution in PGSolver's format.
    pub fn solution(source: Source) -> Result<(String, Vec<u8>), Failure> {
        let bytes = Bytes::read(source)?;
        match bytes.format() {
            Some(Format::Solution | Format::Lines) => Ok((bytes.name, bytes.bytes)),
            _ => Err(bytes.bad(
                "no solution, whose first word is `paritysol`; write `paritysol N;`, with N the highest id, \
                 then a line `id winner strategy;` for each vertex",
            )),
        }
    }

    /// The name and the bytes of an input that has to be text, for what its words are.
    pub fn text(source: Source, words: &str) -> Result<(String, Vec<u8>), Failure> {
        let bytes = Bytes::read(source)?;
        let binary = is_binary(&bytes.bytes, Unit::Word, bytes.form);
        match binary.map_err(|error| unreadable(&bytes.name, error))? {
            false => Ok((bytes.name, bytes.bytes)),
            true => Err(bytes.bad(&format!("binary, where {words} are wanted; write it as text"))),
        }
    }

    /// Where a number stands, or where the input ends, in words and with a detail.
    pub fn at(&self, index: usize, detail: &str) -> String {
        format!("{}: {}", self.name, self.place(index, detail))
    }
}

/// What is wrong with a file, with what the command line can do besides.
pub fn unreadable(name: &str, mut error: FileError) -> Failure {
    match error.kind {
        FileErrorKind::AboveLimits => error.remedy += &format!("; {LARGER}"),
        FileErrorKind::MaybeBinary => {
            error.remedy = "save it as plain text, or say --binary if it is none".into();
        }
        _ => (),
    }
    Failure::usage(format!("{name}: {error}"))
}

/// The bytes of an input.
struct Bytes {
    name: String,
    bytes: Vec<u8>,
    form: Option<FileForm>,
}

impl Bytes {
    fn read(source: Source) -> Result<Bytes, Failure> {
        let (name, form) = (source.name(), source.form);
        let unreadable = |error: io::Error| source.unreadable(&error);
        let (mut input, mut first) = (source.open().map_err(unreadable)?, Vec::new());
        let taken = input.by_ref().take(MOST_BYTES as u64 + 1).read_to_end(&mut first);
        taken.map_err(unreadable)?;
        let mut bytes = Bytes { name, bytes: first, form };
        if bytes.bytes.len() <= MOST_BYTES {
            return Ok(bytes);
        }
        let Some(_) = bytes.format() else {
            let (n, m) = (raskjomi::MOST_VERTICES, raskjomi::MOST_EDGES);
            return Err(Failure::usage(format!(
                "{}: more than 16 MiB, the most that is read; a game has at most {n} vertices and {m} \
                 edges: name a file that can be read; {LARGER}",
                bytes.name
            )));
        };
        input.read_to_end(&mut bytes.bytes).map_err(unreadable)?;
        Ok(bytes)
    }

    /// A game.
    fn game(self, lowest: bool) -> Result<Input, Failure> {
        let why = match self.format() {
            None => "",
            Some(Format::Solution) => {
                return Err(self.bad(
                    "a solution in PGSolver's format, where a game is wanted; name the game, or see raskjomi plan",
                ))
            }
            Some(Format::Game) => " (it is read in PGSolver's format, as its first word is `parity` or `start`)",
            Some(_) => " (it is read in PGSolver's format, as a semicolon ends its first line)",
        };
        let read = Numbers::game(&self.bytes, self.form, lowest).map_err(|error| match error {
            ReadError::Refused(told) => refused(&self.name, told),
            ReadError::File(error) => unreadable(&self.name, error).because(why),
            error => Failure::usage(format!("{}: {error}", self.name)),
        })?;
        if let Some(repeats) = &read.repeats {
            tell(&format!("{}: {repeats}", self.name));
        }
        Ok(Input { name: self.name, read })
    }

    fn bad(&self, what: &str) -> Failure {
        Failure::usage(format!("{}: {what}", self.name))
    }

    /// What it is of PGSolver's, if it is anything.
    fn format(&self) -> Option<Format> {
        format(&self.bytes).filter(|_| self.form != Some(FileForm::Binary))
    }

    /// The numbers of binary or of text.
    fn numbers(self, unit: Unit) -> Result<Input, Failure> {
        let read = Numbers::read(&self.bytes, unit, self.form);
        let read = read.map_err(|error| unreadable(&self.name, error))?;
        Ok(Input { name: self.name, read })
    }
}
