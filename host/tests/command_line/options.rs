//! No option is dropped: any two options of a command are both used, or refused.

use crate::run::{file, run};
use std::fs;

/// A command line with what it needs, and the options that are tried with it, two at a time.
type Line = (&'static [&'static str], &'static [&'static str]);

/// FILE is a file of the test, whose content counts as output.
const LINES: [Line; 19] = [
    (&["report", "games/d.txt"], &["--vertex=2", "--json"]),
    (&["order", "games/d.txt"], &["--as=words"]),
    (&["classes", "games/d.txt"], &["--as=dot", "--json"]),
    (&["quotient", "games/d.txt"], &["--as=words"]),
    (
        &["reduce", "games/lift-doors.txt"],
        &["--as=words", "--with-classes", "--classes=FILE", "--stats", "--json"],
    ),
    (&["reduce", "games/d.txt"], &["--as=dot", "--classes=FILE"]),
    (
        &["reduce", "games/lift-doors.txt", "--large"],
        &["--as=words", "--then-order", "--classes=FILE", "--json"],
    ),
    (&["check-plan", "games/c.txt", "games/c.plan.txt", "--player=even"], &["--json"]),
    (&["check-relation", "games/b.txt", "games/c.txt"], &["--json"]),
    (
        &[
            "carry",
            "games/lift-doors.txt",
            "games/lift-doors.reduced-plan.txt",
            "--player=even",
            "--vertex=7",
        ],
        &["--class", "--as=words"],
    ),
    (&["verdict", "games/d.txt", "games/c.plan.txt", "--player=even", "--vertex=5"], &["--json"]),
    (
        &["edit", "games/d.txt", "--add=5:3", "--remove=5:2"],
        &["--preview", "--classes", "--as=words"],
    ),
    (&["replay", "games/d.txt", "games/d.trace.txt"], &["--classes", "--as=words"]),
    (&["governed", "order", "games/d.txt"], &["--as=words", "--json"]),
    (&["governed", "classes", "games/d.txt"], &["--as=words", "--json"]),
    (&["governed", "check", "games/b.txt", "games/c.txt"], &["--as=words", "--json"]),
    (&["seed", "1", "4", "2", "4"], &["--as=words", "--lowest"]),
    (&["dot", "games/d.txt"], &["--reduced", "--svg"]),
    (&["convert", "games/d.txt"], &["--as=words"]),
];

/// Those of the commands about questions and about solvers' files.
const MORE: [Line; 10] = [
    (&["check", "games/d.txt"], &["--json"]),
    (&["merged", "games/lift-doors.txt"], &["--large", "--json"]),
    (&["why", "games/lift-doors.txt", "0", "7"], &["--large", "--both", "--json"]),
    (&["dropped", "games/lift-doors.txt"], &["--json"]),
    (&["plan", "games/c.txt", "games/c.sol", "--vertex=0"], &["--as=words", "--json"]),
    (
        &["check-solution", "games/c.txt", "games/c.sol"],
        &["--vertex=0", "--start", "--save-certificate=FILE", "--json"],
    ),
    (
        &[
            "check-reduction",
            "games/lift-doors.txt",
            "games/lift-doors.merged.txt",
            "games/lift-doors.classes.txt",
        ],
        &["--save-certificate=FILE", "--json"],
    ),
    (&["winners", "games/d.txt", "games/c.sol"], &["--large", "--as=solution", "--json"]),
    (
        &["page", "games/lift-doors.txt"],
        &["--solution=games/lift-doors.sol", "--pair=0,7", "--plan=games/c.txt", "--force"],
    ),
    (
        &["page", "games/d.txt", "--plan=games/c.plan.txt", "--player=even"],
        &["--pair=0,5", "--lowest", "--force"],
    ),
];

/// The options that say how inputs are read or where the output goes; two outputs of a right input are equal.
const OF_INPUTS: [&str; 8] =
    ["--lowest", "--text", "--binary", "--names", "--reachable", "--certificate", "-o", "--help"];

/// What is left of a run: status, both outputs, and the file.
type Effect = (i32, Vec<u8>, String, Option<Vec<u8>>);

fn effect(line: &[&str], options: &[&str], path: &str) -> Effect {
    let _ = fs::remove_file(path);
    let words: Vec<String> =
        [line, options].concat().iter().map(|word| word.replace("FILE", path)).collect();
    let ran = run(&words.iter().map(String::as_str).collect::<Vec<&str>>());
    (ran.status, ran.out, ran.err, fs::read(path).ok())
}

#[test]
fn two_options_are_both_used_or_refused() {
    let path = file("option.out", b"");
    for (line, options) in LINES.iter().chain(&MORE) {
        for (i, &one) in options.iter().enumerate() {
            for &other in &options[i + 1..] {
                let [alone, second] = [one, other].map(|option| effect(line, &[option], &path));
                let both = effect(line, &[one, other], &path);
                let used = both != alone && both != second;
                assert!(used || both.0 == 2, "{line:?} {one} {other}: {both:?}");
                assert!(
                    !(both.0 == 2 && both.3.is_some()),
                    "nothing is written: {line:?} {one} {other}"
                );
            }
        }
    }
}

/// The completions are made from the program's tables, so an option that isn't tried here is found.
#[test]
fn every_option_of_the_tables_is_tried() {
    let script = run(&["completions"]).text();
    let rows = script.lines().filter_map(|line| {
        let (command, options) = line.trim_start().split_once(") options='")?;
        Some((command, options.split("' ").next()?))
    });
    let mut count = 0;
    for (command, options) in rows {
        let lines = LINES.iter().chain(&MORE).filter(|(line, _)| line[0] == command);
        let tried: Vec<&str> =
            lines.flat_map(|(line, options)| line.iter().chain(*options)).copied().collect();
        for option in options.split(' ').filter(|option| !OF_INPUTS.contains(option)) {
            let is_tried = tried.iter().any(|word| word.split('=').next() == Some(option));
            assert!(is_tried, "{command} {option}");
            count += 1;
        }
    }
    assert!(count > 40, "{count}");
}

/// What stands between bars in a usage is refused together.
#[test]
fn bars_of_a_usage() {
    let overview = run(&["--help"]).text();
    let commands = overview.lines().filter_map(|line| line.strip_prefix("  ")?.split(' ').next());
    let mut count = 0;
    for command in commands {
        let help = run(&[command, "--help"]).text();
        let usage = help.lines().next().expect("a usage");
        for part in usage.split(['[', ']']).filter(|part| part.contains(" | ")) {
            let options: Vec<(&str, bool)> = part
                .split(" | ")
                .map(|option| (option.split(' ').next().expect("a word"), option.contains(' ')))
                .collect();
            for pair in options.windows(2) {
                let words: Vec<&str> = pair
                    .iter()
                    .flat_map(|&(name, value)| [Some(name), value.then_some("x")])
                    .flatten()
                    .collect();
                let told = format!(
                    "{command}: {} and {} exclude each other; usage: ",
                    pair[0].0, pair[1].0
                );
                run(&[&[command], &words[..]].concat()).fails(2, &[&told]);
                count += 1;
            }
        }
    }
    assert_eq!(count, 14, "pairs of neighbours");
    let no = |words: &[&str], pair: &str| {
        run(words).fails(2, &[&format!("{pair} exclude each other; usage: ")]);
    };
    no(&["report", "games/d.txt", "--vertex=5", "--json"], "--vertex and --json");
    no(&["classes", "games/d.txt", "--as=dot", "--json"], "--as and --json");
    no(&["governed", "classes", "games/d.txt", "--as=words", "--json"], "--as and --json");
    no(&["edit", "games/d.txt", "--add=5:3", "--classes", "--as=text"], "--classes and --as");
    no(&["edit", "games/d.txt", "--add=5:3", "--preview", "--classes"], "--preview and --classes");
    no(&["edit", "games/d.txt", "--add=5:3", "--as=text", "--preview"], "--preview and --as");
    no(
        &["replay", "games/d.txt", "games/d.trace.txt", "--classes", "--as=text"],
        "--classes and --as",
    );
    no(&["reduce", "games/d.txt", "--as=text", "--json"], "--as and --json");
    no(&["reduce", "games/d.txt", "--with-classes", "--json"], "--with-classes and --json");
    no(&["why", "games/d.txt", "0", "5", "--both", "--large"], "--both and --large");
    let seed = ["seed", "1", "4", "2", "4", "--lowest"];
    run(&seed).fails(2, &["seed: --lowest is for PGSolver's format alone; write --as pgsolver"]);
}
