//! What each command takes, and its help.

use crate::arguments::Arguments;
use crate::failure::{Failure, STATUSES};
use crate::{
    batch, check_reduction, check_solution, commands, completions, dropped, files, reachable,
};
use crate::{edits, manual, options, page, questions, reduced, winners};
use std::ops::RangeInclusive;

/// An option, and what its value is called if it has one.
pub struct Opt {
    pub name: &'static str,
    pub value: Option<&'static str>,
}

/// A command of the program.
pub struct Command {
    pub name: &'static str,
    pub usage: &'static str,
    pub summary: &'static str,
    pub details: &'static str,
    pub example: &'static str,
    pub files: RangeInclusive<usize>,
    pub options: &'static [Opt],
    pub run: fn(&Arguments) -> Result<Vec<u8>, Failure>,
}

impl Opt {
    /// A word for its value, if it has one.
    pub fn word(&self) -> Option<&'static str> {
        self.value.map(|_| match self.name {
            "--as" => "FORM",
            "--player" => "even|odd",
            "--add" | "--remove" => "V:W",
            "--pair" => "V,W",
            "--vertex" | "--reachable" => "V",
            _ => "FILE",
        })
    }

    /// The option with a word for its value.
    pub fn written(&self) -> String {
        self.word().map_or(self.name.to_string(), |word| format!("{} {word}", self.name))
    }
}

impl Command {
    /// Whether it reads a game.
    pub fn takes_game(&self) -> bool {
        self.usage.contains("GAME")
    }

    /// Whether it writes over no file unless that is asked for.
    pub fn keeps_files(&self) -> bool {
        self.options.iter().any(|option| option.name == FORCE)
    }

    /// Whether it writes an output for each of its games, where these are several.
    pub fn writes_each(&self) -> bool {
        self.usage.contains("-o DIR")
    }

    /// What holds for the games that it reads.
    fn of_games(&self) -> &'static [&'static str] {
        match self.name {
            "check-solution" | "check-reduction" | "winners" => &[check_solution::GAMES],
            "reduce" => &[batch::SEVERAL, reduced::LARGE, LIMITS, GIVEN],
            "merged" | "dropped" | "why" => &[reduced::LARGE, LIMITS, GIVEN],
            _ if self.takes_game() => &[LIMITS, GIVEN],
            _ => &[],
        }
    }
}

/// The option by which a file that is there is written over.
pub const FORCE: &str = "--force";

/// The refusal numbers that `explain` knows.
pub const NUMBERS: &str = "1 to 16, 21 to 24, 31 to 41, 81 to 89, 91, 92 and 94 to 106";

/// What `seed` takes, in the sequence of its usage.
pub const SEED_NUMBERS: [&str; 4] = ["SEED", "VERTICES", "DEGREE", "PRIORITIES"];

/// The options that may be given several times; their sequence counts.
pub const REPEATED: [&str; 3] = ["--add", "--remove", "--pair"];

const AS: &[Opt] = &[Opt { name: "--as", value: Some("text, words or dot") }];
const AS_OR_JSON: &[Opt] =
    &[Opt { name: "--as", value: Some("text, words or dot") }, Opt { name: "--json", value: None }];
const OF_REDUCE: &[Opt] = &[
    Opt { name: "--as", value: Some("text, words, dot or pgsolver") },
    Opt { name: "--with-classes", value: None },
    Opt { name: "--classes", value: Some("a file") },
    Opt { name: "--large", value: None },
    Opt { name: "--then-order", value: None },
    Opt { name: "--stats", value: None },
    Opt { name: "--json", value: None },
];
const AS_GAME: &[Opt] = &[Opt { name: "--as", value: Some("text, words, dot or pgsolver") }];

/// What a newcomer has to know of every game.
const LIMITS: &str =
    "A game has at most 512 vertices and 4,096 edges, but for `check-solution`, `check-reduction`, `winners`, `reduce`, `merged`, `dropped` \
     and `why`, which take any size. The lowest priority seen for ever decides, and even favours Even; a game of a tool that says the highest goes through \
     `convert` first.";

/// Where the help of a command that takes a game says how it is given.
const GIVEN: &str =
    "`raskjomi --help` says how a game is given, what its words are, and what --reachable does.";

/// How games are given, for every command that takes one.
const GAMES: &str = "A game comes from a file, or from standard input, whose name is -; where the \
                     usage has [GAME], naming none means standard input, too. It is decimal text, \
                     with numbers between blanks or slashes and comments after #, or binary, 16-bit \
                     words, low byte first: an input in which many bytes are control characters is \
                     binary. The words are: number of vertices, number of edges, priorities, owners \
                     (0 Even, 1 Odd), sources of the edges, targets of the edges. An edge may stand \
                     several times: it counts as one edge of the game, but each time among the words. A \
                     game whose first word is `parity` or `start`, or whose first line ends with a \
                     semicolon, is in PGSolver's format, in which the highest priority decides: it is \
                     read through `convert`, and written back with the priorities that it had. A \
                     successor that stands twice there is one edge.";

/// How options are written.
const OPTIONS: &str =
    "Options and files may stand in any sequence, a value after a blank or after =; after \
                       -- all words are files. Options between bars in a usage exclude each other. `raskjomi --version` tells the version, and the \
                       fingerprint of the proved archives.";

/// Where to read on, and why a run can take long.
const MORE: &str =
    "docs/CONTRACT.md has the definitions, the formats and every refusal; docs/WORKFLOW.md shows the way \
     from a model through a solver to a plan; docs/JSON.md has each answer as JSON. ./raskjomi proves and builds what has changed; all of it \
     can take an hour or more on two idle cores.";

/// The output of the commands that write a game.
const TABLES: &str = "Text and words are game tables, which every command reads. The edges are \
                      listed by source, then by target, ascending, each once. Dot: a picture of \
                      the game, with the members of each class. Pgsolver: PGSolver's format, which is \
                      written where no form is named and the game came in it; a class is a vertex \
                      with the name of its lowest member.";

/// The commands, in the sequence of the help.
pub const COMMANDS: [Command; 16] = [
    Command {
        name: "report",
        usage: "report [GAME] [--vertex V | --json]",
        summary: "sizes, passes, the class of each vertex, the classes and the totals",
        details:
            "The first line has the number of vertices and the number of different edges. A line \
                  for each class has its members and its edges in the reduced game, and `total` \
                  their sums. With --vertex, one sentence on the vertex instead: its class, who \
                  else is in it, and what that means for a win.",
        example: "./raskjomi report games/b.txt --vertex 2",
        files: 0..=1,
        options: &[
            Opt { name: "--vertex", value: Some("a vertex") },
            Opt { name: "--json", value: None },
        ],
        run: commands::report,
    },
    Command {
        name: "order",
        usage: "order [GAME] [--as text|words|dot]",
        summary: "the direct simulation order",
        details:
            "Text: a row of marks for each vertex, 0 or 1. Words: the same marks eight in a byte, n × n / 8 \
                  bytes, rounded up; mark i = v × n + w is bit i mod 8 of byte i div 8, where bit 0 \
                  is the lowest, and unused bits are 0. Dot: an arrow from each vertex to those that \
                  it is below.",
        example: "./raskjomi order games/c.txt",
        files: 0..=1,
        options: AS,
        run: commands::order,
    },
    Command {
        name: "classes",
        usage: "classes [GAME] [--as text|words|dot | --json]",
        summary: "the class of each vertex",
        details:
            "Text: the members of each class as comments, then the class of each vertex. Words: \
                  a word for each vertex, its class. Dot: the game with its classes.",
        example: "./raskjomi classes games/lift-doors.txt",
        files: 0..=1,
        options: AS_OR_JSON,
        run: commands::classes,
    },
    Command {
        name: "quotient",
        usage: "quotient [GAME] [--as text|words|dot|pgsolver]",
        summary: "the quotient game, a vertex for each class",
        details: TABLES,
        example: "./raskjomi quotient games/d.txt",
        files: 0..=1,
        options: AS_GAME,
        run: commands::quotient,
    },
    Command {
        name: "reduce",
        usage: "reduce [GAME ..] [-o DIR] [--as text|words|dot|pgsolver | --json] [--with-classes | --json] [--classes FILE] [--large] [--then-order] [--stats]",
        summary: "the reduced game: the quotient without edges that its players have no use for",
        details: TABLES,
        example: "./raskjomi reduce games/lift-doors.txt",
        files: 0..=usize::MAX,
        options: OF_REDUCE,
        run: batch::reduce,
    },
    Command {
        name: "check-relation",
        usage: "check-relation GAME RELATION [--json]",
        summary: "whether a relation is a direct simulation",
        details:
            "The relation is given as n × n marks in rows, 1 for a pair that is in it, else 0: as text, \
                  0 and 1 between blanks; or in binary, eight marks in a byte, as `order --as words` \
                  writes them. An input of exactly the n × n / 8 bytes, rounded up, that binary needs \
                  is binary. The output of `order` is a relation. Marks beyond are ignored.",
        example: "./raskjomi order games/c.txt | ./raskjomi check-relation games/c.txt -",
        files: 2..=2,
        options: &[Opt { name: "--json", value: None }],
        run: commands::check_relation,
    },
    Command {
        name: "check-plan",
        usage: "check-plan GAME PLAN --player even|odd [--json]",
        summary: "whether a plan wins for a player from the vertex of its position 0",
        details:
            "The plan is given as words or decimal text: number of positions, number of links, \
                  the vertex of each position, sources of the links, targets of the links.",
        example:
            "./raskjomi check-plan games/lift-doors.txt games/lift-doors.plan.txt --player even",
        files: 2..=2,
        options: &[
            Opt { name: "--player", value: Some("even or odd") },
            Opt { name: "--json", value: None },
        ],
        run: commands::check_plan,
    },
    Command {
        name: "carry",
        usage: "carry GAME PLAN --player even|odd [--vertex V] [--class] [--as text|words]",
        summary: "a winning plan, carried to another vertex",
        details:
            "PLAN is given as for `check-plan`, wins for the player, and starts at the vertex of its \
                  position 0. Its words are numbers of vertices, from 0 by ascending id, and no ids or \
                  names of a file in PGSolver's format; V is a number, or such an id or name. For Even \
                  that must be below V, for Odd V below it; `order` writes \
                  who is below whom, and members of one class are below each other. With --class, \
                  PLAN is on the reduced game, as `reduce` writes it, and its start is a class, \
                  which compares as its members do. The output is a plan on GAME, of at most \
                  4,096 positions and 16,384 links, which `check-plan` accepts; as text, it begins \
                  with a comment that says what it proves.",
        example: "./raskjomi carry games/d.txt games/c.plan.txt --player even --vertex 5 \
                  | ./raskjomi check-plan games/d.txt - --player even",
        files: 2..=2,
        options: &[
            Opt { name: "--player", value: Some("even or odd") },
            Opt { name: "--vertex", value: Some("a vertex") },
            Opt { name: "--class", value: None },
            Opt { name: "--as", value: Some("text or words") },
        ],
        run: commands::carry,
    },
    Command {
        name: "verdict",
        usage: "verdict GAME PLAN [--vertex V] --player even|odd [--json]",
        summary: "whether a plan on the reduced game shows that a player wins at a vertex",
        details:
            "PLAN is given as for `check-plan`, and is on the reduced game, as `reduce` writes it. Where it wins \
                  for the player and starts at the class of V, the player wins at V in GAME itself, \
                  and the output begins with `wins`. Where it starts at another class, the output \
                  begins with `not shown`, even if one of the classes is below the other: who wins at V \
                  is then left open, and the exit status is 4. A plan that doesn't win is refused, as `check-plan` does.",
        example: "./raskjomi verdict games/lift-doors.txt games/lift-doors.reduced-plan.txt --vertex 7 --player even",
        files: 2..=2,
        options: &[
            Opt { name: "--vertex", value: Some("a vertex") },
            Opt { name: "--player", value: Some("even or odd") },
            Opt { name: "--json", value: None },
        ],
        run: commands::verdict,
    },
    Command {
        name: "edit",
        usage: "edit GAME --add V:W --remove V:W .. [--preview | --classes | --as text|words|pgsolver]",
        summary: "the game after edges are added and removed, or what that does to its classes",
        details:
            "--add V:W adds the edge from V to W behind the others, --remove V:W removes every copy of \
                  it. Both may be given several times, and are done in sequence. A vertex keeps an \
                  edge out, and a table has at most 4,096 edges; where an edit is refused, nothing \
                  is written. GAME may have zeros behind its table, as the library's edits leave them in \
                  their buffer. The output is a game table, which every command reads; with --classes, \
                  it is the number of classes before and after, and each vertex that then shares its \
                  class with others than before. With --preview no game is written: the output is the \
                  number of classes before and after, and a line for each class that would fall apart \
                  or come from several, with the groups of vertices between bars.",
        example: "./raskjomi edit games/d.txt --add 5:3 --remove 5:2 --classes",
        files: 1..=1,
        options: &[
            Opt { name: "--add", value: Some("an edge, as 0:2") },
            Opt { name: "--remove", value: Some("an edge, as 0:2") },
            Opt { name: "--preview", value: None },
            Opt { name: "--classes", value: None },
            Opt { name: "--as", value: Some("text, words or pgsolver") },
        ],
        run: edits::edit,
    },
    Command {
        name: "replay",
        usage: "replay GAME TRACE [--names] [--classes | --as text|words|pgsolver]",
        summary: "the game after a recorded list of edits, or what that does to its classes",
        details: "A trace has its count, at most 4,096, then as many sources, then as many targets. Its \
                  entries are done in sequence: an edge that the game doesn't have is added behind \
                  the others, and one that it has is removed with every copy. Where an entry is \
                  refused, nothing is written, and the message tells how many were done before it. \
                  The words of a trace are numbers of vertices, from 0 by ascending id. With --names, those behind \
                  the count are ids or names of a file in PGSolver's format, as `why` and `edit` take them: such a \
                  trace is text, and a name with blanks, slashes or # stands in quotation marks. GAME may have zeros behind its table, \
                  as for `edit`. The output is a game table, which every command reads; with --classes, it is the \
                  number of classes before and after, and each vertex that then shares its class with \
                  others than before.",
        example: "./raskjomi replay games/d.txt games/d.trace.txt --classes",
        files: 2..=2,
        options: &[
            Opt { name: "--names", value: None },
            Opt { name: "--classes", value: None },
            Opt { name: "--as", value: Some("text, words or pgsolver") },
        ],
        run: edits::replay,
    },
    Command {
        name: "governed",
        usage: "governed order|classes|check GAME [RELATION] [--as text|words|dot | --json]",
        summary: "the same of governed bisimulations, which tell more vertices apart",
        details:
            "A governed bisimulation is a direct simulation that has the reverse of each of its pairs. \
                  `governed order` writes the largest one, as `order` writes the order; `governed \
                  classes` writes its classes, each of which lies inside one class of the order; \
                  `governed check` judges a relation, as `check-relation` does, and refuses a mark \
                  without its reverse, too.",
        example: "./raskjomi governed order games/d.txt | ./raskjomi governed check games/d.txt -",
        files: 2..=3,
        options: AS_OR_JSON,
        run: commands::governed,
    },
    Command {
        name: "explain",
        usage: "explain NUMBER",
        summary: "what a refusal number means, what its place counts, and what to do",
        details:
            "A refused input gets one of the numbers 1 to 16, 21 to 24, 31 to 41, 81 to 89, 91, 92 and 94 to 106; 7 and 9 no longer occur.",
        example: "./raskjomi explain 8",
        files: 1..=1,
        options: &[],
        run: commands::explain,
    },
    Command {
        name: "seed",
        usage: "seed SEED VERTICES DEGREE PRIORITIES [--as text|words|pgsolver] [--lowest]",
        summary: "a game drawn by a seed, the same on every machine",
        details:
            "SEED is any number below 4,294,967,296. There are VERTICES vertices, 1 to 512, with \
                  DEGREE edges out of each, 1 to 16, at most 4,096 in all, and priorities below \
                  PRIORITIES, 1 to 65,535. \
                  Owners and targets are drawn, too; equal edges count as one. Text and words are \
                  game tables, which every command reads.",
        example: "./raskjomi seed 1 8 2 4 --as words | ./raskjomi reduce",
        files: 4..=4,
        options: &[
            Opt { name: "--as", value: Some("text, words or pgsolver") },
            Opt { name: "--lowest", value: None },
        ],
        run: commands::seed,
    },
    Command {
        name: "convert",
        usage: "convert [GAME] [--as text|words|pgsolver]",
        summary: "a game where the highest priority decides, as one where the lowest does",
        details:
            "With M the smallest even number not below the highest priority, each priority q becomes \
                  M - q; owners and edges stay as they stand. Plans and winners are then those of the \
                  tool, and so are order, classes and edges between classes; a priority p of the \
                  reduced game means M - p to the tool. Converted again, the reduced game is one for \
                  the tool, where the highest decides. Text and words are game tables, which every \
                  command reads; as text, the table begins with a comment that gives M. A game in PGSolver's format \
                  is converted as it is read, and is written as it then is.",
        example: "./raskjomi convert games/c.txt | ./raskjomi reduce | ./raskjomi convert",
        files: 0..=1,
        options: &[Opt { name: "--as", value: Some("text, words or pgsolver") }],
        run: commands::convert,
    },
    Command {
        name: "dot",
        usage: "dot [GAME] [--reduced] [--svg]",
        summary: "Graphviz text of the game with its classes, or of the reduced game",
        details:
            "Even's vertices are diamonds, Odd's are boxes. A class of several members has a light colour, \
                  the same in both pictures. An edge that the reduced game drops is dashed. An edge that \
                  the table has several times is one arrow. With --svg, a picture of more than 200 edges is laid out by \
                  forces between its vertices (Graphviz's sfdp), which takes seconds where ranks take minutes; the \
                  members of a class then have its colour and number, and no frame.",
        example: "./raskjomi dot games/d.txt | dot -Tsvg > d.svg",
        files: 0..=1,
        options: &[Opt { name: "--reduced", value: None }, Opt { name: "--svg", value: None }],
        run: commands::dot,
    },
];

/// All commands, in the sequence of the help.
pub fn commands() -> impl Iterator<Item = &'static Command> {
    let of_files = files::COMMANDS.iter().chain(&check_solution::COMMANDS);
    let of_files = of_files.chain(&check_reduction::COMMANDS).chain(&winners::COMMANDS);
    let of_files = of_files.chain(&page::COMMANDS);
    let of_games = COMMANDS.iter().chain(&questions::COMMANDS).chain(&dropped::COMMANDS);
    let of_shells = manual::COMMANDS.iter().chain(&completions::COMMANDS);
    of_games.chain(of_files).chain(of_shells)
}

/// The program's version, and which archives it has: the SHA-256 of their bytes, and where they come from.
pub fn version() -> String {
    let origin = match env!("RASKJOMI_ORIGIN") {
        "given" => "given to the build, which proved nothing",
        _ => "proved from their sources by the build",
    };
    let (version, fingerprint) = (env!("CARGO_PKG_VERSION"), env!("RASKJOMI_FINGERPRINT"));
    format!("raskjomi {version}\narchives {fingerprint}, {origin}\n")
}

/// The help of the whole program.
pub fn overview() -> String {
    let mut text = String::from("raskjomi reduces parity games and judges plans on them\n\n");
    text += &wrapped(LIMITS);
    text += "\nusage: raskjomi COMMAND ..., with COMMAND one of\n";
    for command in commands() {
        text += &format!("  {:15} {}\n", command.name, command.summary);
    }
    text += "\n`raskjomi COMMAND --help` tells more, with an example.\n";
    text += "\nExit status, of all commands:\n";
    for (status, meaning) in STATUSES {
        text += &format!("{status}  {meaning}\n");
    }
    [GAMES, reachable::REACHABLE, OPTIONS, MORE]
        .iter()
        .fold(text, |text, part| text + "\n" + &wrapped(part))
}

/// What holds for all commands, for the man page.
pub fn paragraphs() -> [&'static str; 6] {
    [LIMITS, GAMES, reachable::REACHABLE, reduced::LARGE, OPTIONS, MORE]
}

/// The help of one command.
pub fn of(command: &Command) -> String {
    let mut text = format!("usage: raskjomi {}\n\n{}\n", command.usage, command.summary);
    for part in [&[command.details], command.of_games()].concat() {
        text += &format!("\n{}", wrapped(part));
    }
    let options: Vec<&Opt> = options::of(command).collect();
    if !options.is_empty() {
        text += "\noptions:\n";
    }
    for option in options {
        text +=
            &format!("  {:24} {}\n", option.written(), options::about(command.name, option.name));
    }
    text + &format!("\nexample: {}\n", command.example)
}

/// The words in lines of at most 90 characters.
fn wrapped(text: &str) -> String {
    let (mut lines, mut line) = (String::new(), String::new());
    for word in text.split(' ') {
        if line.chars().count() + word.chars().count() > 90 {
            lines += &(std::mem::take(&mut line).trim_end().to_string() + "\n");
        }
        line += &format!("{word} ");
    }
    lines + line.trim_end() + "\n"
}
