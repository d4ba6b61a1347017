//! Completions for shells, made from the tables of the help.

mod bash;
mod fish;
mod zsh;

use crate::arguments::Arguments;
use crate::commands::Written;
use crate::failure::Failure;
use crate::help::{self, Command};
use crate::options;

/// It comes last in the help.
pub const COMMANDS: [Command; 1] = [Command {
    name: "completions",
    usage: "completions [bash|zsh|fish]",
    summary: "completions for bash, or for zsh or fish",
    details: "They complete commands, options, the words that an option takes, and files; zsh and fish say what each is for. \
              In bash, `source <(./raskjomi completions)` has them in this shell; kept as raskjomi in the folder of bash's \
              completions, in every one. In zsh, after compinit, `source <(./raskjomi completions zsh)`; kept as _raskjomi in a \
              folder of $fpath. In fish, `./raskjomi completions fish | source`; kept as raskjomi.fish in \
              ~/.config/fish/completions.",
    example: "./raskjomi completions fish",
    files: 0..=1,
    options: &[],
    run: completions,
}];

/// `completions`.
fn completions(arguments: &Arguments) -> Written {
    let shell = if arguments.has_file(0) { arguments.word(0) } else { "bash".into() };
    match &*shell {
        "bash" => Ok(bash::script().into()),
        "zsh" => Ok(zsh::script().into()),
        "fish" => Ok(fish::script().into()),
        _ => Err(Failure::usage(format!(
            "completions: no shell `{shell}`; write completions bash, completions zsh or completions fish"
        ))),
    }
}

/// What may stand first, each with what it is: a command, or what is asked of the program.
fn first_words() -> Vec<(&'static str, &'static str)> {
    let of_program = [
        ("help", "the help of a command"),
        ("--help", "the help of the program"),
        ("--version", "the version"),
    ];
    help::commands().map(|command| (command.name, command.summary)).chain(of_program).collect()
}

/// The options of a command, each with what it is for.
fn described(command: &Command) -> impl Iterator<Item = (&help::Opt, &'static str)> {
    options::of(command).map(|option| (option, options::about(command.name, option.name)))
}

/// What `--help` is for, which every command takes.
const HELP: &str = "what the command takes, with an example";
