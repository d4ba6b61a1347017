//! Completions for zsh.

use super::{described, first_words, HELP};
use crate::help::{self, Command, Opt, REPEATED};
use crate::options;

/// The script, to be sourced or to be loaded as a function.
pub fn script() -> String {
    let first =
        |(word, about): (&str, &str)| format!("        {}\n", quoted(&[word, about].join(":")));
    let first: String = first_words().into_iter().map(first).collect();
    let cases: String = help::commands().map(case).collect();
    format!(
        "#compdef raskjomi\n\
         # Completions of raskjomi for zsh.\n\
         compdef _raskjomi raskjomi\n\
         _raskjomi() {{\n\
         \x20   local command=$words[2]\n\
         \x20   local -a first=(\n{first}    )\n\
         \x20   if (( CURRENT == 2 )) || [[ $CURRENT$command == 3help ]]; then\n\
         \x20       _describe -t commands command first\n\
         \x20       return\n\
         \x20   fi\n\
         \x20   shift words\n\
         \x20   (( CURRENT-- ))\n\
         \x20   case $command in\n{cases}    esac\n\
         }}\n\
         # Loaded as a function, its first call is this file.\n\
         if [[ $funcstack[1] == _raskjomi ]]; then _raskjomi; fi\n"
    )
}

/// The case of a command: its options and arguments, as `_arguments` takes them.
fn case(command: &Command) -> String {
    let mut specs: Vec<String> =
        described(command).map(|(option, about)| option_spec(command, option, about)).collect();
    specs.push(format!("(- *)--help[{HELP}]"));
    let words = options::listed(command, command.name);
    if !words.is_empty() {
        specs.push(format!("1:word:({})", words.join(" ")));
    }
    if command.takes_game() {
        specs.push("*:file:_files".into());
    }
    let specs: Vec<String> = specs.iter().map(|spec| quoted(spec)).collect();
    format!("    {})\n        _arguments -S {} ;;\n", command.name, specs.join(" \\\n            "))
}

/// An option, with those that it excludes and what its value is.
fn option_spec(command: &Command, option: &Opt, about: &str) -> String {
    let name = option.name;
    let excluded = match options::excluded(command, name) {
        _ if REPEATED.contains(&name) => "*".into(),
        others if others.is_empty() => String::new(),
        others => format!("({})", others.join(" ")),
    };
    let about = about.replace('[', "\\[").replace(']', "\\]");
    let Some(word) = option.word() else {
        return format!("{excluded}{name}[{about}]");
    };
    let values = options::listed(command, name);
    let action = match word {
        "FILE" => "_files".into(),
        _ if values.is_empty() => " ".into(),
        _ => format!("({})", values.join(" ")),
    };
    let joined = if name.starts_with("--") { "=" } else { "" };
    format!("{excluded}{name}{joined}[{about}]:{}:{action}", word.replace(':', "\\:"))
}

/// A text as one word of the shell.
fn quoted(text: &str) -> String {
    format!("'{}'", text.replace('\'', "'\\''"))
}
