//! The commands that answer questions about a game.

use crate::arguments::Arguments;
use crate::commands::Written;
use crate::failure::Failure;
use crate::game_input::GameInput;
use crate::help::{Command, Opt};
use crate::merged::merged;
use crate::reachable::FromStart;
use crate::source::Source;
use crate::why_command::why;
use crate::{tell, text};
use raskjomi::formats::json::{self, Value};

/// They come after the others in the help.
pub const COMMANDS: [Command; 3] = [
    Command {
        name: "check",
        usage: "check [GAME ..] [--json]",
        summary: "whether games are accepted, and their sizes: a line for each",
        details: "A line says `accepted` with the numbers of vertices and of different edges, or `refused` \
                  with number and place, or `unreadable`; what is wrong stands on standard error. The exit \
                  status is the highest of all files'. Of a game above the limits whose file, in PGSolver's format, \
                  names a start, the line says how many vertices and edges that reaches, and how to check \
                  this part; standard input isn't read again for it.",
        example: "./raskjomi check games/b.txt games/c.txt",
        files: 0..=usize::MAX,
        options: &[Opt { name: "--json", value: None }],
        run: check,
    },
    Command {
        name: "merged",
        usage: "merged [GAME] [--large] [--json]",
        summary: "the vertices that another one represents in the reduced game",
        details: "A line for each vertex that isn't the lowest member of its class: the vertex, its class, \
                  and that lowest member, its representative.",
        example: "./raskjomi merged games/lift-doors.txt",
        files: 0..=1,
        options: &[Opt { name: "--large", value: None }, Opt { name: "--json", value: None }],
        run: merged,
    },
    Command {
        name: "why",
        usage: "why GAME V W [--both | --large] [--json]",
        summary: "whether vertex V is below vertex W, and why, as sentences",
        details: "Where V isn't below W, the first sentences say in which pass the pair falls, and by which \
                  move; then the same of each pair of successors that this rests on, down to unequal \
                  priorities. Where it is, they say how the moves are matched. V and W share a class if each \
                  is below the other: with --both, the same of W and V follows, and what both mean for the classes \
                  and the winners. The sentences are worked out by this program, and held to the \
                  proved order before they are written. For a game above the limits, or with --large, they say \
                  whether V and W share a class by their moves, with the classes of their successors side by side.",
        example: "./raskjomi why games/c.txt 2 1",
        files: 3..=3,
        options: &[
            Opt { name: "--both", value: None },
            Opt { name: "--large", value: None },
            Opt { name: "--json", value: None },
        ],
        run: why,
    },
];

/// `check`.
fn check(arguments: &Arguments) -> Written {
    let (mut lines, mut values) = (String::new(), Vec::new());
    let mut failures: Vec<Failure> = Vec::new();
    for index in 0..arguments.count().max(1) {
        let name = arguments.file(index).name();
        let (line, value) = match GameInput::load(arguments.file(index)) {
            Ok(game) => accepted(&name, &game),
            Err(failure) => {
                let told = refused(&failure, arguments.file(index));
                failures.push(failure);
                told
            }
        };
        lines += &format!("{name}: {line}\n");
        values.push(value);
    }
    let output = match arguments.has("--json") {
        true => Value::List(values).to_string() + "\n",
        false => lines,
    };
    let Some(status) = failures.iter().map(|failure| failure.status).max() else {
        return Ok(output.into());
    };
    let last = failures.pop().map_or(String::new(), |failure| failure.message);
    failures.iter().for_each(|failure| tell(&failure.message));
    Err(Failure::told(output, last, status))
}

/// What `check` says of a game that isn't accepted, in words and as a value.
fn refused(failure: &Failure, source: Source) -> (String, Value) {
    let mut line = failure.verdict().unwrap_or("unreadable".into());
    let mut value = failure.value(&source.name());
    if let Some(start) = FromStart::of(source) {
        line += &start.told();
        value.add("start", start.value());
    }
    (line, value)
}

/// What `check` says of an accepted game, in words and as a value.
fn accepted(name: &str, game: &GameInput) -> (String, Value) {
    let size = game.game.size();
    let (n, d) = (size.vertices, size.different);
    let (vertices, edges) =
        (text::plural(n, "vertex", "vertices"), text::plural(d, "edge", "edges"));
    let value = json::object([
        ("file", Value::from(name)),
        ("accepted", Value::Bool(true)),
        ("vertices", Value::from(n)),
        ("different_edges", Value::from(d)),
        ("edges", Value::from(size.edges)),
    ]);
    (format!("accepted, {n} {vertices} and {d} different {edges}"), value)
}
