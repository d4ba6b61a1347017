//! What each option is for, and the options that several commands take.

use crate::help::{Command, Opt};

/// The options of every command that reads a game.
const OF_GAMES: [Opt; 4] = [
    Opt { name: "--lowest", value: None },
    Opt { name: "--text", value: None },
    Opt { name: "--binary", value: None },
    Opt { name: "--reachable", value: Some("a vertex") },
];

/// Those that exclude each other, as a usage has it.
const OF_GAMES_APART: &str = "[--text | --binary]";

/// The options of every command.
const OF_ALL: [Opt; 1] = [Opt { name: "-o", value: Some("a file") }];

/// The options of a command: its own, then those that it shares.
pub fn of(command: &Command) -> impl Iterator<Item = &Opt> {
    let shared: &[Opt] = if command.takes_game() { &OF_GAMES } else { &[] };
    command.options.iter().chain(shared).chain(&OF_ALL)
}

/// The options of a command that exclude each other, in groups: its usage has bars between them, in one pair of brackets.
pub fn apart(command: &Command) -> impl Iterator<Item = Vec<&'static str>> {
    let parts =
        [command.usage, OF_GAMES_APART].into_iter().flat_map(|usage| usage.split(['[', ']']));
    parts.map(|part| {
        let names = part.split(" | ").filter_map(|option| option.split(' ').next());
        names.filter(|name| name.starts_with("--")).collect()
    })
}

/// The options that one of a command excludes.
pub fn excluded(command: &Command, option: &str) -> Vec<&'static str> {
    let groups = apart(command).filter(|group| group.contains(&option));
    groups.flatten().filter(|name| *name != option).collect()
}

/// The words that may stand behind a word of the usage, the command or an option, where it lists them with bars.
pub fn listed(command: &Command, word: &str) -> Vec<&'static str> {
    let mut words = command.usage.split([' ', '[', ']']).filter(|word| !word.is_empty());
    words.find(|other| *other == word);
    let behind = words.next().filter(|behind| behind.contains('|')).unwrap_or_default();
    behind.split('|').filter(|word| !word.is_empty()).collect()
}

/// What an option of a command is for.
pub fn about(command: &str, option: &str) -> &'static str {
    match (command, option) {
        ("report", "--vertex") => "one sentence on this vertex alone",
        ("plan", "--vertex") => "where the plan is to start, if not at the file's `start`",
        ("carry", "--vertex") => "where the carried plan is to start, if not at the file's `start`",
        ("verdict", "--vertex") => "where the player is to win, if not at the file's `start`",
        ("check-solution", "--vertex") => "say who wins at this vertex, too",
        (_, "--start") => "say who wins at the vertex that the file names by `start ID;`, too",
        (_, "--certificate") => "check by the certificate in FILE, and make none",
        (_, "--save-certificate") => "write the certificate to FILE where all is right",
        ("reduce", "--classes") => "write the class of each vertex to FILE",
        (_, "--both") => "whether W is below V as well, and what both mean",
        (_, "--large") => "merge by moves alone, as for games above the limits",
        (_, "--then-order") => "then merge by the order, where the result is within the limits",
        ("edit" | "replay", "--classes") => "what becomes of the classes, in place of the game",
        (_, "--vertex") => "the vertex: its number, or its id or name in PGSolver's format",
        (_, "--as") => "the form of the output, one of those in the usage",
        ("verdict", "--player") => "who is to win, by a plan of the player's own",
        (_, "--player") => "whose plan it is",
        (_, "--plan") => "a plan on the reduced game, to tell winners by",
        (_, "--solution") => "a solution of the reduced game, to tell all winners by",
        (_, "--pair") => "compare V and W, merged or not; may be given several times",
        (_, "--force") => "write over the FILE of -o",
        (_, "--class") => "the plan is on the reduced game",
        (_, "--names") => "the words of TRACE behind its count are ids or names of GAME's vertices",
        (_, "--add") => "add the edge from V to W; may be given several times",
        (_, "--remove") => "remove the edge from V to W; may be given several times",
        (_, "--preview") => "which vertices would part or merge, in place of the game",
        (_, "--reduced") => "the reduced game, in place of the game with its classes",
        (_, "--json") => "the output, and a refusal, as JSON in one line",
        (_, "--reachable") => {
            "take the part of the game that V reaches; its vertices keep their ids"
        }
        (_, "--stats") => "tell sizes, passes, times and memory on standard error",
        ("reduce", "-o") => {
            "write to FILE, which stays as it was where the command fails, or into the folder DIR; - is standard output"
        }
        (_, "-o") => {
            "write to FILE, which stays as it was where the command fails; - is standard output"
        }
        (_, "--text") => "the inputs are text, whatever characters they have",
        (_, "--binary") => "the inputs are binary, whatever bytes they have",
        (_, "--svg") => "the picture itself, drawn by Graphviz, which has to be installed",
        (_, "--with-classes") => "add the class of each vertex as a comment",
        (_, "--lowest") => "in PGSolver's format, too, the lowest priority decides",
        _ => "",
    }
}
