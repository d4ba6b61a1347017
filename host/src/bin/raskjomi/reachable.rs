//! The part of a game that a vertex reaches, in place of the whole game.

use crate::check_solution::LARGER;
use crate::failure::Failure;
use crate::input::Input;
use crate::large::{self, Loaded};
use crate::source::Source;
use crate::text::plural;
use raskjomi::formats::json::{self, Value};
use raskjomi::formats::{Numbers, Vertices};
use raskjomi::large::Part;
use raskjomi::{LargeGame, LargeSize, Refusal, MOST_EDGES, MOST_VERTICES};

/// The option.
const OPTION: &str = "--reachable";

/// The word for the vertex that a file names as the start.
const START: &str = "start";

/// What holds for the option, of every command that takes a game.
pub const REACHABLE: &str =
    "With --reachable V, every command takes the part of the game that V reaches in place of the game, V itself included: a number, an id or a name, \
     or `start` for the vertex that a file in PGSolver's format names so. No edge leaves the part, so each of its vertices keeps all its edges and its \
     winner. A game above the limits whose part is within them is then treated as a small one. The part's vertices have the numbers or ids of the whole \
     game for ids, in messages and after --vertex, and are written by them in PGSolver's format; a class is called by the name of its lowest member, or \
     else by that number. The words of tables, plans, relations and classes number the part's vertices from 0, ascending; as text, a table has comments \
     that say which is which.";

/// Whether a game is within the limits of the calls for small ones.
pub fn within(size: LargeSize) -> bool {
    size.vertices <= MOST_VERTICES && size.edges <= MOST_EDGES
}

impl Loaded {
    /// The part of the game that a vertex reaches.
    pub fn part(self, word: &str) -> Result<Loaded, Failure> {
        let vertex = self.start.filter(|_| word == START).map_or_else(|| self.origin(word), Ok)?;
        let Part { game, vertices, .. } = self.game.reachable(vertex);
        let name = format!("{}, the part from vertex {}", self.name, self.vertices.label(vertex));
        let (game, even) = lowered(game, self.even).map_err(|refusal| {
            Failure::refused(refusal, format!("{name}: {refusal}; this program has a fault"))
        })?;
        let place = |start: u32| vertices.binary_search(&start).ok();
        let start = self.start.and_then(place).map(|place| place as u32);
        let vertices = self.vertices.among(&vertices);
        Ok(Loaded { name, game, vertices, start, even, in_pgsolver: self.in_pgsolver })
    }

    /// The vertex that a word means, which isn't the file's start.
    fn origin(&self, word: &str) -> Result<u32, Failure> {
        self.vertex(word, OPTION).map_err(|mut failure| {
            let start = if word == START { "the file names no start; " } else { "" };
            failure.message = format!("{}: {start}{}", self.name, failure.message);
            failure
        })
    }

    /// The game as the commands for small ones read it.
    pub fn small(self) -> Result<Input, Failure> {
        let words = self.game.words();
        let numbers: Option<Vec<u16>> = words.iter().map(|&word| word.try_into().ok()).collect();
        let even = self.even.map(u32::try_from).transpose().ok();
        let Some((numbers, even)) = numbers.zip(even) else { return Err(self.too_big()) };
        let vertices = Vertices::of_part(self.vertices, self.in_pgsolver, self.start, even);
        Ok(Input { name: self.name, read: Numbers::of_part(numbers, vertices) })
    }

    /// Words that are too big for small games: a size, or a priority.
    fn too_big(&self) -> Failure {
        let (name, size) = (&self.name, self.game.size());
        if within(size) {
            let remedy =
                "number the priorities in use anew, in the same sequence and each with its parity";
            return Failure::usage(format!(
                "{name}: a priority is above 65535; {remedy}; {LARGER}"
            ));
        }
        let limits = format!("a game has at most {MOST_VERTICES} vertices and {MOST_EDGES} edges");
        Failure::usage(format!("{name}: {}; {limits}; {LARGER}", sizes(size)))
    }
}

/// The game with its priorities as a file of its own would have them read: where the highest decides in the file, 0 or 1 is the least.
fn lowered(game: LargeGame, even: Option<u64>) -> Result<(LargeGame, Option<u64>), Refusal> {
    let count = game.size().vertices;
    let least = game.words()[2..2 + count].iter().min().map_or(0, |least| least - least % 2);
    let Some(even) = even.filter(|_| least > 0) else { return Ok((game, even)) };
    let mut words = game.words().to_vec();
    words[2..2 + count].iter_mut().for_each(|priority| *priority -= least);
    Ok((LargeGame::new(words)?, Some(even - u64::from(least))))
}

/// The numbers of vertices and of edges, in words.
fn sizes(LargeSize { vertices: n, edges: m, .. }: LargeSize) -> String {
    let (vertices, edges) = (plural(n, "vertex", "vertices"), plural(m, "edge", "edges"));
    format!("{n} {vertices} and {m} {edges}")
}

/// What the start of a game above the limits reaches.
pub struct FromStart {
    file: String,
    id: u32,
    size: LargeSize,
}

impl FromStart {
    /// Reads the file again, if the game is one above the limits whose file names a start. Standard input can't be read again.
    pub fn of(source: Source) -> Option<FromStart> {
        if source.is_standard() || source.reachable.is_some() {
            return None;
        }
        let read = large::file(source, large::opened(source).ok()?).ok()?;
        let (start, game) = (read.start?, LargeGame::new(read.words).ok()?);
        let (file, id) = (source.name(), read.vertices.id(start));
        (!within(game.size())).then(|| FromStart {
            file,
            id,
            size: game.reachable(start).game.size(),
        })
    }

    /// In words, with what to do.
    pub fn told(&self) -> String {
        let FromStart { file, id, size } = self;
        let remedy = match within(*size) {
            true => format!(": raskjomi check {file} {OPTION} {id}"),
            false => ", which are above the limits as well".into(),
        };
        format!("; its start {id} reaches {}{remedy}", sizes(*size))
    }

    /// As a value.
    pub fn value(&self) -> Value {
        json::object([
            ("id", Value::Number(self.id.into())),
            ("reaches_vertices", Value::from(self.size.vertices)),
            ("reaches_edges", Value::from(self.size.edges)),
            ("within_limits", Value::Bool(within(self.size))),
        ])
    }
}
