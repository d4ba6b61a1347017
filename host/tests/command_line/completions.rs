//! The completions of each shell: what they hold, and what the shells make of them.

use crate::common::root;
use crate::run::{file, not_tried, run};
use std::fs;
use std::path::PathBuf;
use std::process::Command;

/// What is typed, and what it becomes in every shell.
const TYPED: [(&str, &str); 11] = [
    ("raskjomi red", "reduce"),
    ("raskjomi help mer", "merged"),
    ("raskjomi reduce --wi", "--with-classes"),
    ("raskjomi reduce --as p", "pgsolver"),
    ("raskjomi carry --as w", "words"),
    ("raskjomi governed ch", "check"),
    ("raskjomi verdict --j", "--json"),
    ("raskjomi check-plan --player o", "odd"),
    ("raskjomi completions f", "fish"),
    ("raskjomi reduce games/lift-doors.t", "games/lift-doors.txt"),
    ("raskjomi reduce -o games/lift-doors.t", "games/lift-doors.txt"),
];

/// What is typed and stays as it is: a form that the command doesn't write, a file where there is none.
const NOTHING: [&str; 3] =
    ["raskjomi carry --as dot", "raskjomi explain games/lift-doors.t", "raskjomi convert --svg"];

/// The script for a shell, as a file.
fn script(shell: &str, name: &str) -> String {
    file(name, &run(&["completions", shell]).bytes())
}

/// What a shell writes, run with words; or a line on standard error that it wasn't tried.
fn output(shell: &str, words: &[&str]) -> Option<String> {
    let Ok(ran) = Command::new(shell).args(words).current_dir(root()).output() else {
        not_tried(&format!("completions in {shell}, which isn't installed"));
        return None;
    };
    assert!(ran.stderr.is_empty(), "{ran:?}");
    Some(String::from_utf8(ran.stdout).expect("text"))
}

/// A command of the help: its usage, and its options with what they are for.
struct Table {
    command: String,
    usage: String,
    options: Vec<(String, String)>,
}

/// The commands of the help.
fn tables() -> Vec<Table> {
    let overview = run(&["--help"]).text();
    let commands = overview.lines().filter_map(|line| line.strip_prefix("  ")?.split(' ').next());
    let table = |command: &str| {
        let help = run(&[command, "--help"]).text();
        let (usage, options) = help.split_once("\noptions:\n").expect("options");
        let options = options.lines().map_while(|line| line.strip_prefix("  ")?.split_once(' '));
        let about = |rest: &str| rest.trim_start_matches(|c| c != ' ').trim().to_string();
        let options = options.map(|(name, rest)| (name.to_string(), about(rest))).collect();
        let usage = usage.lines().next().expect("a usage").to_string();
        Table { command: command.to_string(), usage, options }
    };
    commands.map(table).collect()
}

/// What the scripts have of a command: bash's options, zsh's case, and fish's lines.
struct Part {
    bash: String,
    zsh: String,
    fish: Vec<String>,
}

/// The scripts for bash, zsh and fish.
fn scripts() -> [String; 3] {
    ["bash", "zsh", "fish"].map(|shell| run(&["completions", shell]).text())
}

/// The part of a command, without the escapes of quotation marks.
fn part([bash, zsh, fish]: &[String; 3], command: &str) -> Part {
    let between = |text: &str, start: &str, end: &str| {
        let (_, rest) = text.split_once(start).expect("its case");
        rest.split(end).next().expect("its case").replace("'\\''", "'")
    };
    let of_fish = |line: &&str| line.contains(&format!("'__raskjomi_in {command}'"));
    Part {
        bash: between(bash, &format!("        {command}) options='"), "'"),
        zsh: between(zsh, &format!("\n    {command})\n"), ";;"),
        fish: fish.lines().filter(of_fish).map(|line| line.replace("\\'", "'")).collect(),
    }
}

#[test]
fn every_command_and_option_is_in_each_script() {
    let (scripts, mut count) = (scripts(), 0);
    assert_eq!(run(&["completions"]).text(), scripts[0]);
    for Table { command, options, .. } in tables() {
        let Part { bash, zsh, fish } = part(&scripts, &command);
        assert!(scripts[1].contains(&format!("\n        '{command}:")), "{command}");
        assert!(scripts[2].contains(&format!("'__raskjomi_first' -a {command} -d '")), "{command}");
        for (name, about) in options {
            assert!(bash.split(' ').any(|word| word == name), "{command} {name}");
            let mut described = ["", "="].iter().map(|sign| format!("{name}{sign}[{about}]"));
            assert!(described.any(|spec| zsh.contains(&spec)), "{command} {name}: {zsh}");
            let option = name.strip_prefix("--").map_or("-s o".into(), |name| format!("-l {name}"));
            let ends = [format!("' {option} "), format!(" -d '{about}'")];
            let is_it = |line: &String| line.contains(&ends[0]) && line.ends_with(&ends[1]);
            assert!(fish.iter().any(is_it), "{command} {name}: {fish:?}");
            count += 1;
        }
    }
    assert!(count > 100, "{count}");
}

#[test]
fn the_forms_of_each_command_are_those_of_its_usage() {
    let (scripts, mut count) = (scripts(), 0);
    for Table { command, usage, .. } in tables() {
        let Some((_, rest)) = usage.split_once("--as ") else { continue };
        let forms = rest.split([' ', ']']).next().expect("forms").replace('|', " ");
        let Part { zsh, fish, .. } = part(&scripts, &command);
        assert!(scripts[0].contains(&format!("'{command} --as') values='{forms}'")), "{command}");
        assert!(zsh.contains(&format!(":FORM:({forms})")), "{command}: {zsh}");
        let listed = format!(" -l as -x -a '{forms}' ");
        assert!(fish.iter().any(|line| line.contains(&listed)), "{command}: {fish:?}");
        count += 1;
    }
    assert!(count > 8, "{count}");
}

#[test]
fn a_shell_that_is_not_known() {
    let parts = [
        "completions: no shell `tcsh`; write completions bash, completions zsh or completions fish",
    ];
    assert_eq!(run(&["completions", "tcsh"]).fails(2, &parts), "");
}

#[test]
fn bash_completes() {
    let path = script("bash", "shells.bash");
    let complete = |typed: &str| {
        let last = typed.split(' ').count() - 1;
        let line = format!(
            "source '{path}'; COMP_WORDS=({typed}); COMP_CWORD={last}; _raskjomi; echo \"${{COMPREPLY[*]}}\""
        );
        output("bash", &["--norc", "-c", &line])
    };
    for (typed, completed) in TYPED {
        assert_eq!(complete(typed).expect("bash").trim_end(), completed, "{typed}");
    }
    assert_eq!(complete(NOTHING[0]).expect("bash").trim_end(), "");
    assert_eq!(complete(NOTHING[2]).expect("bash").trim_end(), "");
}

#[test]
fn fish_completes() {
    let path = script("fish", "shells.fish");
    let complete = |typed: &str| {
        output("fish", &["--no-config", "-c", &format!("source '{path}'; complete -C '{typed}'")])
    };
    for (typed, completed) in TYPED {
        let Some(offered) = complete(typed) else { return };
        let words: Vec<&str> = offered.lines().filter_map(|line| line.split('\t').next()).collect();
        assert_eq!(words, [completed], "{typed}");
    }
    for typed in NOTHING {
        assert_eq!(complete(typed).expect("fish"), "", "{typed}");
    }
    let offered = complete("raskjomi reduce --then").expect("fish");
    assert_eq!(
        offered,
        "--then-order\tthen merge by the order, where the result is within the limits\n"
    );
}

/// What lines become in an interactive zsh on a terminal of its own, after a setup.
fn in_zsh(setup: &str, lines: &[&str], name: &str) -> Option<Vec<String>> {
    let typed = file(&format!("{name}.typed"), lines.join("\n").as_bytes());
    let completed = file(&format!("{name}.completed"), b"");
    let setup = format!(
        "autoload -Uz compinit\n{setup}\n\
         zle-line-init() {{\n\
         \x20   local line\n\
         \x20   for line in ${{(f)\"$(<'{typed}')\"}}; do\n\
         \x20       BUFFER=$line CURSOR=$#line\n\
         \x20       zle complete-word\n\
         \x20       print -r -- $BUFFER >> '{completed}'\n\
         \x20   done\n\
         \x20   exit\n\
         }}\n\
         zle -N zle-line-init\n"
    );
    let setup = file(&format!("{name}.zsh"), setup.as_bytes());
    let terminal = format!(
        "zmodload zsh/zpty; zpty shell zsh -f -i; zpty -w shell \"source '{setup}'\"; while zpty -r shell; do :; done"
    );
    output("zsh", &["-f", "-c", &terminal])?;
    let completed = fs::read_to_string(completed).expect("what was completed");
    Some(completed.lines().map(|line| line.trim_end().to_string()).collect())
}

#[test]
fn zsh_completes() {
    let folder = PathBuf::from(env!("CARGO_TARGET_TMPDIR")).join("zsh-functions");
    fs::create_dir_all(&folder).expect("a folder");
    let path = script("zsh", "zsh-functions/_raskjomi");
    let apart = ["raskjomi report --vertex 1 --js", "raskjomi edit games/d.txt --add 1:2 --ad"];
    let typed: Vec<&str> =
        TYPED.iter().map(|(typed, _)| *typed).chain(NOTHING).chain(apart).collect();
    let becomes = |(typed, completed): &(&str, &str)| {
        let (before, _) = typed.rsplit_once(' ').expect("words");
        format!("{before} {completed}")
    };
    // --vertex excludes --json, and --add may be given again.
    let rest = NOTHING.into_iter().chain([apart[0], "raskjomi edit games/d.txt --add 1:2 --add="]);
    let expected: Vec<String> = TYPED.iter().map(becomes).chain(rest.map(String::from)).collect();
    let sourced = format!("compinit -D -u; source '{path}'");
    let loaded = format!("fpath=('{}' $fpath); compinit -D -u", folder.display());
    for (setup, name) in [(sourced, "sourced"), (loaded, "loaded")] {
        let Some(completed) = in_zsh(&setup, &typed, name) else { return };
        assert_eq!(completed, expected, "{name}");
    }
}
