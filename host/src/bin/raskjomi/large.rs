//! Games of any size and solutions, as their files give them, and what is wrong with them.

use crate::failure::Failure;
use crate::progress::watch;
use crate::source::Source;
use crate::tell;
use crate::values::{Called, Fields};
use raskjomi::formats::json::{self, Value};
use raskjomi::large::{read_game, read_partial_solution, read_solution};
use raskjomi::large::{FileError, FileForm, GameFile, Identifiers};
use raskjomi::{Flaw, LargeGame, LargeSolution, Refusal};
use std::io::Read;

/// A game that the reader accepts, as its file gives it.
pub struct Loaded {
    pub name: String,
    pub game: LargeGame,
    pub vertices: Identifiers,
    /// The vertex that the file names as the start.
    pub start: Option<u32>,
    /// What a priority and the file's own add up to, where the highest decides in the file.
    pub even: Option<u64>,
    pub in_pgsolver: bool,
}

/// A game with the words of a solution.
pub struct Solved {
    pub of: Loaded,
    pub name: String,
    pub solution: LargeSolution,
}

pub fn opened(source: Source) -> Result<Box<dyn Read>, Failure> {
    source.open().map_err(|error| source.unreadable(&error))
}

/// Reads the file of a game, whose words nobody has judged.
pub fn file(source: Source, input: impl Read) -> Result<GameFile, Failure> {
    let _watch = watch("the game's file");
    read_game(input, source.form, source.lowest)
        .map_err(|error| Failure::usage(format!("{}: {error}", source.name())))
}

impl Loaded {
    /// Reads a game.
    pub fn load(source: Source) -> Result<Loaded, Failure> {
        Loaded::read(source, opened(source)?)
    }

    /// Reads a game from what comes of a source, or takes the part of it that is asked for.
    pub fn read(source: Source, input: impl Read) -> Result<Loaded, Failure> {
        Loaded::taken(source, file(source, input)?)
    }

    /// Reads a game once more, of which nothing is told again.
    pub fn read_again(source: Source, input: impl Read) -> Result<Loaded, Failure> {
        let mut read = file(source, input)?;
        read.repeats = None;
        Loaded::taken(source, read)
    }

    fn taken(source: Source, read: GameFile) -> Result<Loaded, Failure> {
        let whole = Loaded::of(source.name(), read)?;
        match source.reachable {
            Some(word) => whole.part(word),
            None => Ok(whole),
        }
    }

    /// The game of a file that was read.
    pub fn of(name: String, read: GameFile) -> Result<Loaded, Failure> {
        if read.vertices.left_out() {
            tell(&format!(
                "{name}: its names take too much memory, so vertices are called by their ids"
            ));
        }
        if let Some(repeats) = &read.repeats {
            tell(&format!("{name}: {repeats}"));
        }
        let game = LargeGame::new(read.words).map_err(|refusal| game_refused(refusal, &name))?;
        let GameFile { vertices, start, even, in_pgsolver, .. } = read;
        Ok(Loaded { name, game, vertices, start, even, in_pgsolver })
    }

    /// The vertex that a word means: an id, or a name that one vertex alone has.
    pub fn vertex(&self, word: &str, option: &str) -> Result<u32, Failure> {
        self.vertices.find(word).ok_or_else(|| {
            if let Some(several) = self.vertices.ambiguous(word) {
                return Failure::usage(format!("{several}; write {option} with one of these ids"));
            }
            let last = self.game.size().vertices as u32 - 1;
            let [first, last] = [0, last].map(|vertex| self.vertices.id(vertex));
            Failure::usage(format!(
                "no vertex `{word}`; write {option} with a name that one vertex alone has, or one of the ids, which are from {first} to {last}"
            ))
        })
    }

    /// What a vertex is called, for a value.
    pub fn vertex_fields(&self, vertex: u32) -> Fields {
        self.fields_of(vertex as usize)
    }

    /// A priority as the file has it.
    pub fn priority(&self, priority: u32) -> u64 {
        self.even.map_or(priority.into(), |even| even - u64::from(priority))
    }

    pub fn edge(&self, edge: usize) -> String {
        let ends = [self.game.source(edge as u32), self.game.target(edge as u32)];
        let [source, target] = ends.map(|end| self.vertices.label(end));
        format!("edge {edge}, from vertex {source} to {target}")
    }
}

/// A call that reads the words of a solution of a game.
type ReadSolution =
    fn(Box<dyn Read>, Option<FileForm>, &[u32], &Identifiers) -> Result<Vec<u32>, FileError>;

impl Solved {
    /// Reads a solution of a game.
    pub fn load(of: Loaded, source: Source) -> Result<Solved, Failure> {
        Solved::read(of, source, read_solution)
    }

    /// Reads a solution of a game that may name no winner at some vertices.
    pub fn load_partial(of: Loaded, source: Source) -> Result<Solved, Failure> {
        Solved::read(of, source, read_partial_solution)
    }

    fn read(of: Loaded, source: Source, read: ReadSolution) -> Result<Solved, Failure> {
        let name = source.name();
        let _watch = watch("the solution's file");
        let words = read(opened(source)?, source.form, of.game.words(), &of.vertices)
            .map_err(|error| Failure::usage(format!("{name}: {error}")))?;
        Ok(Solved { of, name, solution: LargeSolution::from_words(words) })
    }

    /// The winner at each vertex, 0 for Even and 1 for Odd. Words that nobody has judged may be too few.
    pub fn winners(&self) -> &[u32] {
        let words = self.solution.words();
        &words[..self.of.game.size().vertices.min(words.len())]
    }
}

/// A refusal of a game's words.
pub fn game_refused(refusal: Refusal, name: &str) -> Failure {
    let remedy = refusal.explanation().remedy;
    let place = refusal.place;
    Failure::refused(refusal, format!("{name}: word {place} from 0: {refusal}; {remedy}"))
        .with_verdict()
}

/// A refusal of a solution, of a certificate from a file, or of one that was made.
pub fn refused(refusal: Refusal, solved: &Solved, certificate: Option<&str>) -> Failure {
    let (file, place) = match refusal.number {
        0..=84 => (solved.name.clone(), place_in_solution(refusal, solved)),
        _ => match certificate {
            Some(path) => (path.into(), place_in_certificate(refusal, solved)),
            None => ("the certificate that was made".into(), place_in_certificate(refusal, solved)),
        },
    };
    let remedy = match (refusal.number, certificate) {
        (89, Some(_)) => {
            "the certificate isn't one of this solution, which may be right: leave --certificate out, so that one is made or the reason told"
        }
        (85.., None) => "the fault is this program's, and the solution may be right: tell its makers of both files",
        _ => refusal.explanation().remedy,
    };
    Failure::refused(refusal, format!("{file}: {place}: {refusal}; {remedy}")).with_verdict()
}

fn place_in_solution(refusal: Refusal, solved: &Solved) -> String {
    let vertex = || solved.of.vertices.label(refusal.place as u32);
    match refusal.number {
        81 => format!(
            "{} words, and the game has {} vertices",
            refusal.place,
            solved.of.game.size().vertices
        ),
        82 => format!("vertex {}", vertex()),
        83 => {
            let edge = solved.solution.edge(refusal.place as u32).unwrap_or_default();
            format!("vertex {}, edge {edge}", vertex())
        }
        84 => leaving(refusal.place, solved),
        _ => format!("place {}", refusal.place),
    }
}

/// A kept edge between vertices of different winners.
fn leaving(edge: usize, solved: &Solved) -> String {
    let (source, target) = (solved.of.game.source(edge as u32), solved.of.game.target(edge as u32));
    let name = |vertex: u32| {
        solved.solution.winner(vertex).map_or("nobody".into(), |winner| winner.to_string())
    };
    let (from, to, owner) = (name(source), name(target), solved.of.game.owner(source).to_string());
    let whose = match owner == from {
        true => format!("the move of {owner}'s strategy"),
        false => format!("a move that {owner} has"),
    };
    let [source, target] = [source, target].map(|end| solved.of.vertices.label(end));
    format!("{from} is said to win at vertex {source} and {to} at {target}, but {whose} leads from {source} to {target}")
}

fn place_in_certificate(refusal: Refusal, solved: &Solved) -> String {
    match refusal.number {
        86 => format!("word {} from 0 behind the header", refusal.place),
        87 => format!("vertex {}", solved.of.vertices.label(refusal.place as u32)),
        89 => solved.of.edge(refusal.place),
        _ => format!("place {}", refusal.place),
    }
}

/// A solution that has no certificate.
pub fn flawed(flaw: &Flaw, solved: &Solved, json: bool) -> Failure {
    let label = |vertex: u32| solved.of.vertices.label(vertex);
    let told = flaw.told(label, solved.of.even);
    let message = format!("{}: wrong: {told}; solve the game again", solved.name);
    if !json {
        return Failure::told(format!("wrong at vertex {}\n", label(flaw.vertices[0])), message, 1);
    }
    let walk = flaw.vertices.iter().map(|&vertex| json::object(solved.of.vertex_fields(vertex)));
    let value = json::object([
        ("accepted", Value::Bool(false)),
        ("refusal", Value::Null),
        ("message", Value::from(&*message)),
        ("walk", Value::List(walk.collect())),
        ("edges", json::list(flaw.edges.iter().map(|&edge| edge as usize))),
    ]);
    Failure::told(format!("{value}\n"), message, 1)
}
