//! Completions for bash.

use super::first_words;
use crate::help::{self, Command};
use crate::options;

/// The script.
pub fn script() -> String {
    let names: Vec<&str> = first_words().into_iter().map(|(word, _)| word).collect();
    let names = names.join(" ");
    let options: String = help::commands().map(options_of).collect();
    let values: String = help::commands().map(values_of).collect();
    format!(
        "# Completions of raskjomi for bash.\n\
         _raskjomi() {{\n\
         \x20   local word=${{COMP_WORDS[COMP_CWORD]}} before=${{COMP_WORDS[COMP_CWORD - 1]}} options= values=\n\
         \x20   COMPREPLY=()\n\
         \x20   if [ \"$COMP_CWORD\" -eq 1 ] || {{ [ \"$COMP_CWORD\" -eq 2 ] && [ \"$before\" = help ]; }}; then\n\
         \x20       COMPREPLY=($(compgen -W '{names}' -- \"$word\"))\n\
         \x20       return\n\
         \x20   fi\n\
         \x20   case \"${{COMP_WORDS[1]}} $before\" in\n{values}    esac\n\
         \x20   case ${{COMP_WORDS[1]}} in\n{options}    esac\n\
         \x20   case $values$word in\n\
         \x20   -*) COMPREPLY=($(compgen -W \"$options\" -- \"$word\")) ;;\n\
         \x20   \"$word\") COMPREPLY=($(compgen -f -- \"$word\")) ;;\n\
         \x20   *) COMPREPLY=($(compgen -W \"$values\" -- \"$word\")) ;;\n\
         \x20   esac\n\
         }}\n\
         complete -o filenames -F _raskjomi raskjomi ./raskjomi\n"
    )
}

/// The case with the options of a command.
fn options_of(command: &Command) -> String {
    let names: Vec<&str> =
        options::of(command).map(|option| option.name).chain(["--help"]).collect();
    format!("        {}) options='{}' ;;\n", command.name, names.join(" "))
}

/// The cases with the words that may follow the command or one of its options, where they are listed.
fn values_of(command: &Command) -> String {
    let words = [command.name].into_iter().chain(options::of(command).map(|option| option.name));
    let case = |word: &str| {
        let values = options::listed(command, word);
        let case = format!("        '{} {word}') values='{}' ;;\n", command.name, values.join(" "));
        (!values.is_empty()).then_some(case)
    };
    words.filter_map(case).collect()
}
