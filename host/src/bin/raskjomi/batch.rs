//! `reduce`: one game, or several into a folder.

use crate::any_size::AnySize;
use crate::arguments::{Arguments, Form};
use crate::commands::{order_of, reduced_of, table as written, Written};
use crate::failure::Failure;
use crate::source::{plain_error, Source};
use crate::stats::{tell_run, Outcome, Sizes, Steps};
use crate::{reduced, tell};
use std::ffi::OsStr;
use std::fs;
use std::os::unix::fs::MetadataExt;
use std::path::{Path, PathBuf};
use std::time::Instant;

/// What holds for several games.
pub const SEVERAL: &str =
    "Several games go into a folder, -o DIR, which is made where it isn't there: each reduced game under the name of its file, in the place of any file \
     that has this name there. One game goes there as well, where DIR is a folder already. Nothing is written where two games would go to one file, or where a \
     game would be written over; a game that can't be read or is refused is told, and the others are written. Then the output is a table of vertices and \
     different edges before and after, and the exit status is the highest of all games'. --stats tells sizes, passes, the time of each step and the \
     memory on standard error; times and memory are measured in that run, and the passes are counted apart from the reduction.";

/// `reduce`.
pub fn reduce(arguments: &Arguments) -> Written {
    let (start, form) = (Instant::now(), arguments.form()?);
    let written = match arguments.folder() {
        Some(folder) => into_folder(arguments, form, Path::new(folder))?,
        None if arguments.count() > 1 => {
            let problem = "several games, and no folder for them; write -o DIR with a folder";
            return Err(Failure::usage(format!("reduce: {problem}")));
        }
        None => {
            let outcome = one(arguments, form, arguments.file(0))?;
            tell_stats(arguments, &outcome, arguments.file(0));
            Ok(outcome.output)
        }
    };
    if arguments.has("--stats") {
        tell_run(start);
    }
    written
}

/// Tells of a game what is asked for.
fn tell_stats(arguments: &Arguments, outcome: &Outcome, source: Source) {
    if arguments.has("--stats") {
        outcome.tell(&source.name());
    }
}

/// Reduces a game.
fn one(arguments: &Arguments, form: Form, source: Source) -> Result<Outcome, Failure> {
    let mut steps = Steps::default();
    let game = match steps.time("read", || AnySize::load(source, arguments.has("--large")))? {
        AnySize::Small(game) => game,
        AnySize::Large(game) => {
            let are_told = arguments.has("--stats") || arguments.folder().is_some();
            let before = if are_told { Sizes::from(&game.game) } else { Sizes::default() };
            return reduced::reduce(arguments, game, before, steps);
        }
    };
    let merged = steps.time("reduce", || reduced_of(&game.game));
    let format = || written(arguments, form, "reduced", &game, &merged);
    let output = steps.time("format", format)?;
    let passes = match arguments.has("--stats") {
        true => Some(steps.time("passes", || order_of(&game.game)).passes),
        false => None,
    };
    let [before, after] = [&game.game, &merged.game].map(|game| game.size().into());
    Ok(Outcome { output, before, after, passes, steps })
}

/// Reduces each game into a folder; the output is a table of sizes. What fails before anything is written stands apart from games that fail.
fn into_folder(arguments: &Arguments, form: Form, folder: &Path) -> Result<Written, Failure> {
    let targets = targets(arguments, folder)?;
    fs::create_dir_all(folder).map_err(|error| unwritable(folder, &plain_error(&error)))?;
    let (mut rows, mut status) = (Vec::new(), 0);
    for (index, target) in targets.iter().enumerate() {
        let source = arguments.file(index);
        tell(&format!("{} of {}: {}", index + 1, targets.len(), source.name()));
        let saved = one(arguments, form, source).and_then(|outcome| saved(outcome, target));
        let row = match saved {
            Ok(outcome) => {
                tell_stats(arguments, &outcome, source);
                Ok([outcome.before, outcome.after])
            }
            Err(failure) => {
                tell(&failure.message);
                status = status.max(failure.status);
                Err(failure.verdict().unwrap_or("not reduced".into()))
            }
        };
        rows.push((source.name(), row));
    }
    let table = table(&rows);
    Ok(match status {
        0 => Ok(table.into()),
        _ => Err(Failure::told(table, String::new(), status)),
    })
}

/// The file that each game is to be written to. None of them is a game that is read, and no two are one.
fn targets(arguments: &Arguments, folder: &Path) -> Result<Vec<PathBuf>, Failure> {
    if arguments.has("--classes") && arguments.count() > 1 {
        return Err(Failure::usage("reduce: --classes FILE is for one game; see --with-classes"));
    }
    if folder.exists() && !folder.is_dir() {
        return Err(unwritable(folder, "is a file, and several games need a folder"));
    }
    let sources = || (0..arguments.count().max(1)).map(|index| arguments.file(index));
    let names = sources().map(own_name).collect::<Result<Vec<&OsStr>, Failure>>()?;
    let targets: Vec<PathBuf> = names.iter().map(|name| folder.join(name)).collect();
    let files: Vec<Option<(u64, u64)>> = targets.iter().map(|path| identity(path)).collect();
    for index in 0..names.len() {
        let is_same = |&first: &usize| {
            names[first] == names[index] || (files[first].is_some() && files[first] == files[index])
        };
        if let Some(first) = (0..index).find(is_same) {
            return Err(one_file([first, index].map(|index| arguments.file(index))));
        }
    }
    let inputs: Vec<_> = sources().map(|source| identity(Path::new(source.path))).collect();
    let is_input = |&index: &usize| files[index].is_some() && inputs.contains(&files[index]);
    match (0..targets.len()).find(is_input) {
        Some(index) => {
            Err(unwritable(&targets[index], "is one of the games, and would be written over"))
        }
        None => Ok(targets),
    }
}

/// Two games that would be written to one file.
fn one_file(games: [Source; 2]) -> Failure {
    let [first, second] = games.map(|source| source.name());
    let remedy = "rename one of them, or reduce them into two folders";
    Failure::usage(format!(
        "reduce: {first} and {second}: both would be written to one file; {remedy}"
    ))
}

/// The name of a file without its folders.
fn own_name(source: Source<'_>) -> Result<&OsStr, Failure> {
    let name = Path::new(source.path).file_name().filter(|_| !source.is_standard());
    name.ok_or_else(|| {
        let remedy = "name a file, or write a single game by -o FILE";
        Failure::usage(format!("{}: no name for a file in a folder; {remedy}", source.name()))
    })
}

/// The device and the number of a file, the same for each of its names.
fn identity(path: &Path) -> Option<(u64, u64)> {
    fs::metadata(path).ok().map(|file| (file.dev(), file.ino()))
}

/// Writes a reduced game.
fn saved(mut outcome: Outcome, target: &Path) -> Result<Outcome, Failure> {
    let output = std::mem::take(&mut outcome.output);
    let written = outcome.steps.time("write", || fs::write(target, output));
    written.map_err(|error| unwritable(target, &plain_error(&error)))?;
    Ok(outcome)
}

fn unwritable(path: &Path, problem: &str) -> Failure {
    let path = path.to_string_lossy().replace(char::is_control, "?");
    Failure::usage(format!("{path}: {problem}; name another folder after -o"))
}

/// A game's name with its sizes before and after, or what became of it.
type Row = (String, Result<[Sizes; 2], String>);

/// A line for each game, and one for all that were reduced.
fn table(rows: &[Row]) -> String {
    let width = rows.iter().map(|(name, _)| name.chars().count()).max().unwrap_or(0).max(5);
    let line = |name: &str, [n, k, m, q]: [String; 4]| {
        format!("{name:width$} {n:>10} {k:>10} {m:>10} {q:>10}\n")
    };
    let sizes = |[before, after]: [Sizes; 2]| {
        [before.vertices, after.vertices, before.edges, after.edges].map(|count| count.to_string())
    };
    let mut text = line("game", ["vertices", "after", "edges", "after"].map(String::from));
    for (name, row) in rows {
        text += &match row {
            Ok(both) => line(name, sizes(*both)),
            Err(problem) => format!("{name:width$} {problem}\n"),
        };
    }
    let all = |side: usize| rows.iter().flat_map(|(_, row)| row).map(|both| both[side]).sum();
    text + &line("total", sizes([all(0), all(1)]))
}
