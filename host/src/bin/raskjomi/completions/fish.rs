//! Completions for fish.

use super::{described, first_words, HELP};
use crate::help::{self, Command, Opt};
use crate::options;

/// When a completion is offered: at the first word, at any word of a command, at the word behind it, at those beyond.
const CONDITIONS: &str = "\
function __raskjomi_first
    test (count (commandline -opc)) -eq 1
end
function __raskjomi_in
    set -l words (commandline -opc)
    test (count $words) -gt 1; and test \"$words[2]\" = $argv[1]
end
function __raskjomi_behind
    __raskjomi_in $argv[1]; and test (count (commandline -opc)) -eq 2
end
function __raskjomi_beyond
    __raskjomi_in $argv[1]; and not __raskjomi_behind $argv[1]
end
";

/// The script.
pub fn script() -> String {
    let mut lines = vec!["complete -c raskjomi -f".to_string()];
    for (word, about) in first_words() {
        lines.push(line("first", &format!("-a {word}"), about));
    }
    for command in help::commands() {
        lines.push(line("behind help", &format!("-a {}", command.name), command.summary));
        lines.extend(of_command(command));
    }
    format!("# Completions of raskjomi for fish.\n{CONDITIONS}{}\n", lines.join("\n"))
}

/// The options of a command, the words behind it, and files.
fn of_command(command: &Command) -> Vec<String> {
    let here = format!("in {}", command.name);
    let option = |(option, about): (&Opt, &str)| line(&here, &option_words(command, option), about);
    let mut lines: Vec<String> = described(command).map(option).collect();
    lines.push(line(&here, "-l help", HELP));
    let words = options::listed(command, command.name);
    if !words.is_empty() {
        let behind = format!("behind {}", command.name);
        lines.push(line(&behind, &format!("-a '{}'", words.join(" ")), ""));
    }
    if command.takes_game() {
        let files = if words.is_empty() { here } else { format!("beyond {}", command.name) };
        lines.push(line(&files, "-F", ""));
    }
    lines
}

/// An option, and what its value is.
fn option_words(command: &Command, option: &Opt) -> String {
    let name = match option.name.strip_prefix("--") {
        Some(long) => format!("-l {long}"),
        None => format!("-s {}", option.name.trim_start_matches('-')),
    };
    let values = options::listed(command, option.name);
    match option.word() {
        None => name,
        Some("FILE") => format!("{name} -r -F"),
        Some(_) if values.is_empty() => format!("{name} -x"),
        Some(_) => format!("{name} -x -a '{}'", values.join(" ")),
    }
}

/// What is offered under a condition, and what it is for.
fn line(condition: &str, words: &str, about: &str) -> String {
    let about = match about {
        "" => String::new(),
        _ => format!(" -d '{}'", about.replace('\\', "\\\\").replace('\'', "\\'")),
    };
    format!("complete -c raskjomi -n '__raskjomi_{condition}' {words}{about}")
}
