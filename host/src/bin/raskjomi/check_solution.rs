//! The command that checks a solution of a game of any size.

use crate::arguments::Arguments;
use crate::commands::Written;
use crate::failure::Failure;
use crate::help::{Command, Opt};
use crate::large::{self, Loaded, Solved};
use crate::progress::watch;
use crate::source::{plain_error, Source};
use raskjomi::formats::json::{self, Value};
use raskjomi::{Certificate, Player, Uncertified};
use std::fs::File;
use std::io::{self, BufWriter};

/// How games of any size are given.
pub const GAMES: &str =
    "A game may have any number of vertices and edges that 32 bits can count. It comes from a file, or from standard input, whose name is -, \
     in PGSolver's format, where the highest priority decides, or as words in the layout of the other commands: \
     decimal text, or binary, 32-bit or 16-bit words, low byte first. A file is read once, from its start to its end, and names are kept as \
     long as they take less than 8 bytes for each edge and a MiB.";

/// Where a game above the limits can go.
pub const LARGER: &str =
    "raskjomi check-solution takes games of any size with a solver's solution, and raskjomi reduce reduces them";

/// It comes after the others that take files of other tools.
pub const COMMANDS: [Command; 1] = [Command {
    name: "check-solution",
    usage: "check-solution GAME SOLUTION [--certificate FILE | --save-certificate FILE] [--vertex V] [--start] [--json]",
    summary: "whether a solver's solution of a game of any size is right",
    details:
        "SOLUTION is a file as PGSolver and Oink write it: `paritysol N;`, then `id winner strategy;` for each vertex, 0 for Even and 1 for \
         Odd, with a strategy where the vertex is its winner's. From both files a certificate is made, an order of the vertices, by which a \
         proved check judges the solution in one pass. Where it is right, the output begins with `right`: then the player whom the solution \
         names wins at each vertex. Where it is wrong, the message says where and why: a move that leaves what its winner wins, or a closed \
         walk that the loser wins. --save-certificate keeps the certificate of a right solution, and --certificate takes a kept one, which \
         need not come from this program: docs/LARGE.md has its form. The solution may be words, too: the winner of each vertex, then the \
         number of an edge out of each.",
    example: "./raskjomi check-solution games/c.txt games/c.sol",
    files: 2..=2,
    options: &[
        Opt { name: "--certificate", value: Some("a file") },
        Opt { name: "--save-certificate", value: Some("a file") },
        Opt { name: "--vertex", value: Some("a vertex") },
        Opt { name: "--start", value: None },
        Opt { name: "--json", value: None },
    ],
    run: check_solution,
}];

/// `check-solution`.
fn check_solution(arguments: &Arguments) -> Written {
    let (from, to) = certificate_files(arguments);
    let sources = [arguments.file(0), arguments.file(1)];
    let solved = Solved::load(Loaded::load(sources[0])?, sources[1])?;
    let asked = asked(arguments, &solved)?;
    let certificate = match from {
        Some(path) => read(path, &solved)?,
        None => made(&solved, arguments.has("--json"))?,
    };
    judge(&solved, &certificate, from)?;
    if let Some(path) = to {
        save(path, &solved, &certificate)?;
    }
    Ok(match arguments.has("--json") {
        true => format!("{}\n", value(&solved, &asked)).into(),
        false => text(&solved, &asked).into(),
    })
}

/// The files that a certificate is to come from or to go to.
pub fn certificate_files(arguments: &Arguments) -> (Option<&str>, Option<&str>) {
    (arguments.value("--certificate"), arguments.value("--save-certificate"))
}

/// The vertices that the options ask for, each with what it is called.
fn asked(arguments: &Arguments, solved: &Solved) -> Result<Vec<(u32, String)>, Failure> {
    let mut asked = Vec::new();
    if let Some(word) = arguments.value("--vertex") {
        let vertex = solved.of.vertex(word, "--vertex")?;
        asked.push((vertex, format!("vertex {}", solved.of.vertices.label(vertex))));
    }
    if arguments.has("--start") {
        let start = solved.of.start.ok_or_else(|| {
            Failure::usage(format!(
                "{}: no start; write `start ID;` behind the first line of a game in PGSolver's format, or name a vertex by --vertex",
                solved.of.name
            ))
        })?;
        asked.push((start, format!("the start, vertex {}", solved.of.vertices.label(start))));
    }
    Ok(asked)
}

/// Judges a solution by a certificate, which comes from a file or was made.
pub fn judge(
    solved: &Solved,
    certificate: &Certificate,
    from: Option<&str>,
) -> Result<(), Failure> {
    let _watch = watch("the check");
    let verdict = solved.of.game.check(&solved.solution, certificate);
    verdict.map_err(|refusal| large::refused(refusal, solved, from))
}

/// The certificate that this program makes.
pub fn made(solved: &Solved, json: bool) -> Result<Certificate, Failure> {
    let _watch = watch("the certificate");
    solved.of.game.certify(&solved.solution).map_err(|why| match why {
        Uncertified::Flawed(flaw) => large::flawed(&flaw, solved, json),
        Uncertified::Refused(refusal) => large::refused(refusal, solved, None),
        other => Failure::usage(format!("{}: {other}", solved.name)),
    })
}

/// A certificate that was saved.
fn read(path: &str, solved: &Solved) -> Result<Certificate, Failure> {
    let source = Source { path: path.as_ref(), lowest: false, form: None, reachable: None };
    let input = source.open().map_err(|error| source.unreadable(&error))?;
    let _watch = watch("the certificate's file");
    Certificate::load(input, &solved.of.game, &solved.solution)
        .map_err(|error| Failure::usage(format!("{}: {error}", source.name())))
}

/// Saves a certificate that was accepted.
fn save(path: &str, solved: &Solved, certificate: &Certificate) -> Result<(), Failure> {
    let saved = File::create(path)
        .and_then(|file| certificate.save(BufWriter::new(file), &solved.of.game, &solved.solution));
    saved.map_err(|error| unsaved(path, &error))
}

/// What is told where a certificate can't be saved.
pub fn unsaved(path: &str, error: &io::Error) -> Failure {
    let error = plain_error(error);
    Failure::usage(format!(
        "{path}: {error}; name a file that can be written after --save-certificate"
    ))
}

/// How many vertices a player wins at.
pub fn won(winners: &[u32], player: Player) -> usize {
    winners.iter().filter(|&&winner| winner == u32::from(player)).count()
}

pub fn winner(winners: &[u32], vertex: u32) -> &'static str {
    match winners[vertex as usize] {
        raskjomi::ODD => "Odd",
        _ => "Even",
    }
}

/// How many vertices each player wins at, as a line.
pub fn summary(winners: &[u32]) -> String {
    let [even, odd] = [Player::Even, Player::Odd].map(|player| won(winners, player));
    let vertices = if even == 1 { "vertex" } else { "vertices" };
    format!("right: Even wins at {} {vertices}, Odd at {}\n", grouped(even), grouped(odd))
}

/// What is known of an accepted solution, as lines.
fn text(solved: &Solved, asked: &[(u32, String)]) -> String {
    let mut text = summary(solved.winners());
    for (vertex, label) in asked {
        text += &format!("{} wins at {label}\n", winner(solved.winners(), *vertex));
    }
    text
}

/// The same as a value.
fn value(solved: &Solved, asked: &[(u32, String)]) -> Value {
    let at = |&(vertex, _): &(u32, String)| {
        let fields = [("winner", Value::from(winner(solved.winners(), vertex)))];
        json::object(solved.of.vertex_fields(vertex).into_iter().chain(fields))
    };
    let size = solved.of.game.size();
    json::object([
        ("accepted", Value::Bool(true)),
        ("vertices", Value::from(size.vertices)),
        ("edges", Value::from(size.edges)),
        ("even_wins", Value::from(won(solved.winners(), Player::Even))),
        ("odd_wins", Value::from(won(solved.winners(), Player::Odd))),
        ("at", Value::List(asked.iter().map(at).collect())),
    ])
}

/// A number with commas between groups of three digits.
pub fn grouped(number: usize) -> String {
    let digits = number.to_string();
    let first = digits.len() % 3;
    let (first, rest) = digits.split_at(first);
    let groups = rest.as_bytes().chunks(3).map(|group| String::from_utf8_lossy(group).into_owned());
    let all: Vec<String> = Some(first.to_string())
        .filter(|first| !first.is_empty())
        .into_iter()
        .chain(groups)
        .collect();
    all.join(",")
}

#[cfg(test)]
mod tests {
    use super::grouped;

    #[test]
    fn groups_of_three() {
        let numbers = [0, 12, 999, 1000, 61_203, 123_456, 4_294_967_295];
        let told = ["0", "12", "999", "1,000", "61,203", "123,456", "4,294,967,295"];
        assert_eq!(numbers.map(grouped), told);
    }
}
