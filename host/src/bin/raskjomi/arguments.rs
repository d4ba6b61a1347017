//! The words after a command, told apart into files and options.

use crate::failure::Failure;
use crate::help::{Command, REPEATED};
use crate::source::Source;
use crate::{options, suggest};
use raskjomi::large::FileForm;
use raskjomi::Player;
use std::collections::BTreeMap;
use std::ffi::{OsStr, OsString};
use std::os::unix::ffi::OsStrExt;
use std::path::Path;
use std::slice::Iter;

/// The files and options of one command line.
#[derive(Debug, Default)]
pub struct Arguments {
    files: Vec<OsString>,
    options: BTreeMap<String, String>,
    repeated: Vec<(String, String)>,
    output: Option<OsString>,
    /// Whether the output is a folder.
    into_folder: bool,
}

/// The form of an output.
#[derive(Clone, Copy, Debug, PartialEq, Eq)]
pub enum Form {
    Text,
    Words,
    Dot,
    Pgsolver,
}

impl Arguments {
    /// Sorts the words by what the command takes; after `--` all are files.
    pub fn parse(command: &Command, words: &[OsString]) -> Result<Arguments, Failure> {
        let mut arguments = Arguments::default();
        let mut words = words.iter();
        while let Some(word) = words.next() {
            if self::output(command, word, &mut words, &mut arguments.output)? {
                continue;
            }
            match &*word.to_string_lossy() {
                "--" => arguments.files.extend(words.by_ref().cloned()),
                option if option.starts_with('-') && option != "-" && !is_negative(option) => {
                    arguments.add_option(command, option, &mut words)?
                }
                _ => arguments.files.push(word.clone()),
            }
        }
        arguments.fit(command)?;
        arguments.into_folder = command.writes_each() && arguments.are_for_a_folder();
        Ok(arguments)
    }

    /// Whether several files are named, or a folder for the output.
    fn are_for_a_folder(&self) -> bool {
        self.files.len() > 1 || self.output.as_ref().is_some_and(|path| Path::new(path).is_dir())
    }

    /// Whether the command uses all of them: no option excludes another one, and the arguments are as many as it takes.
    fn fit(&self, command: &Command) -> Result<(), Failure> {
        for mut options in options::apart(command) {
            options.retain(|option| self.has(option));
            if let [one, other, ..] = options[..] {
                return Err(bad(command, format!("{one} and {other} exclude each other")));
            }
        }
        let count = self.files.len();
        if !command.files.contains(&count) {
            let wanted = match (command.files.start(), command.files.end()) {
                (least, most) if least == most => format!("{least}"),
                (least, most) => format!("{least} to {most}"),
            };
            return Err(bad(command, format!("number of arguments: {count} instead of {wanted}")));
        }
        if self.inputs(command).filter(|path| *path == "-").count() > 1 {
            return Err(bad(
                command,
                "two inputs are standard input; name a file for one of them".into(),
            ));
        }
        Ok(())
    }

    /// The inputs, if it reads a game. Behind the game, `why` takes vertices, which may be called -.
    fn inputs(&self, command: &Command) -> impl Iterator<Item = &OsStr> {
        let most = match command.name {
            _ if !command.takes_game() => 0,
            "why" => 1,
            _ => self.files.len(),
        };
        let options = ["--certificate", "--plan", "--solution"];
        let others = options.into_iter().filter_map(|option| self.value(option).map(OsStr::new));
        self.files.iter().take(most).map(OsString::as_os_str).chain(others)
    }

    /// Adds `--name value` or `--name=value`; the value may be the next of the words.
    fn add_option(
        &mut self,
        command: &Command,
        word: &str,
        words: &mut Iter<OsString>,
    ) -> Result<(), Failure> {
        let (name, given) =
            word.split_once('=').map_or((word, None), |(name, value)| (name, Some(value)));
        let option = options::of(command).find(|option| option.name == name);
        let option = option.ok_or_else(|| {
            let known = options::of(command).map(|option| option.name).chain(["--help"]);
            let near = suggest::near(name, known);
            bad(command, format!("no option {name}{near}"))
        })?;
        let value = match option.value {
            Some(what) => given
                .map(String::from)
                .or_else(|| words.next().map(|word| word.to_string_lossy().into()))
                .ok_or_else(|| bad(command, format!("{name} needs {what}")))?,
            None if given.is_some() => return Err(bad(command, format!("{name} takes no value"))),
            None => String::new(),
        };
        if REPEATED.contains(&name) {
            self.repeated.push((name.into(), value));
            return Ok(());
        }
        match self.options.insert(name.into(), value) {
            Some(_) => Err(bad(command, format!("{name} is given twice; write it once"))),
            None => Ok(()),
        }
    }

    /// The file at an index, or standard input, and how to read it.
    pub fn file(&self, index: usize) -> Source<'_> {
        let path = self.files.get(index).map_or(OsStr::new("-"), |file| file);
        let form = match (self.has("--text"), self.has("--binary")) {
            (true, _) => Some(FileForm::Text),
            (_, true) => Some(FileForm::Binary),
            _ => None,
        };
        let reachable = self.value("--reachable");
        Source { path, lowest: self.has("--lowest"), form, reachable }
    }

    /// The argument at an index that is no file.
    pub fn word(&self, index: usize) -> String {
        self.file(index).path.to_string_lossy().into()
    }

    /// The number of arguments.
    pub fn count(&self) -> usize {
        self.files.len()
    }

    /// The file that the output is to go to, if one is named; - is standard output.
    pub fn output(&self) -> Option<&OsStr> {
        self.output.as_deref().filter(|path| *path != "-" && !self.into_folder)
    }

    /// The folder that an output for each file is to go to, if one is named.
    pub fn folder(&self) -> Option<&OsStr> {
        self.output.as_deref().filter(|path| *path != "-" && self.into_folder)
    }

    /// Whether there is an argument at the index.
    pub fn has_file(&self, index: usize) -> bool {
        index < self.files.len()
    }

    /// Whether the option is there.
    pub fn has(&self, option: &str) -> bool {
        self.options.contains_key(option)
    }

    /// The option's value, if it is there.
    pub fn value(&self, option: &str) -> Option<&str> {
        self.options.get(option).map(String::as_str)
    }

    /// The options that may be given several times, each with its value, in sequence.
    pub fn repeated(&self) -> &[(String, String)] {
        &self.repeated
    }

    /// The form that `--as` names, or text.
    pub fn form(&self) -> Result<Form, Failure> {
        self.form_or(Form::Text)
    }

    /// The form that `--as` names, or another.
    pub fn form_or(&self, form: Form) -> Result<Form, Failure> {
        match self.value("--as") {
            None => Ok(form),
            Some("text") => Ok(Form::Text),
            Some("words") => Ok(Form::Words),
            Some("dot") => Ok(Form::Dot),
            Some("pgsolver") => Ok(Form::Pgsolver),
            Some(other) => Err(Failure::usage(format!(
                "no form `{other}`; write --as text, --as words, --as dot or --as pgsolver"
            ))),
        }
    }

    /// The player that `--player` names.
    pub fn player(&self) -> Result<Player, Failure> {
        let Some(name) = self.value("--player") else {
            return Err(Failure::usage("no player; write --player even or --player odd"));
        };
        let no_player = format!("no player `{name}`; write --player even or --player odd");
        name.parse().map_err(|_| Failure::usage(no_player))
    }
}

/// Whether the word is `-o FILE`, `--output FILE` or `--output=FILE`: FILE may be the next of the words, and
/// need not be text.
fn output(
    command: &Command,
    word: &OsStr,
    words: &mut Iter<OsString>,
    output: &mut Option<OsString>,
) -> Result<bool, Failure> {
    let given = word.as_bytes().strip_prefix(b"--output=");
    if given.is_none() && word != "-o" && word != "--output" {
        return Ok(false);
    }
    let file =
        given.map(|bytes| OsStr::from_bytes(bytes).to_owned()).or_else(|| words.next().cloned());
    let file = file.ok_or_else(|| bad(command, "-o needs a file".into()))?;
    match output.replace(file) {
        Some(_) => Err(bad(command, "-o is given twice; write it once".into())),
        None => Ok(true),
    }
}

/// Whether the word is a number below 0, which no option is called: what takes a number tells what is wrong with it.
fn is_negative(word: &str) -> bool {
    let digits = word.strip_prefix('-').unwrap_or_default();
    !digits.is_empty() && digits.bytes().all(|byte| byte.is_ascii_digit())
}

fn bad(command: &Command, what: String) -> Failure {
    let Command { name, usage, .. } = command;
    Failure::usage(format!("{name}: {what}; usage: raskjomi {usage}, see raskjomi {name} --help"))
}
