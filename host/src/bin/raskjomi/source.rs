//! Where inputs come from.

use crate::failure::Failure;
use crate::tell;
use raskjomi::large::FileForm;
use std::ffi::OsStr;
use std::fs::File;
use std::io::{self, IsTerminal, Read};

/// Where an input comes from, and how it is read.
#[derive(Clone, Copy, Debug)]
pub struct Source<'a> {
    /// A file, or `-` for standard input.
    pub path: &'a OsStr,
    /// Whether the lowest priority decides in PGSolver's format, too.
    pub lowest: bool,
    /// What its bytes are, where somebody says it.
    pub form: Option<FileForm>,
    /// The vertex that reaches the part of a game to take in its place.
    pub reachable: Option<&'a str>,
}

impl Source<'_> {
    /// Whether it is standard input.
    pub fn is_standard(&self) -> bool {
        self.path == "-"
    }

    /// The name that messages use.
    pub fn name(&self) -> String {
        let name =
            if self.is_standard() { "standard input".into() } else { self.path.to_string_lossy() };
        name.replace(char::is_control, "?")
    }

    /// The words of a command line that name it, for a shell.
    pub fn words(&self) -> String {
        let form = match self.form {
            Some(FileForm::Text) => " --text",
            Some(FileForm::Binary) => " --binary",
            None => "",
        };
        let lowest = if self.lowest { " --lowest" } else { "" };
        let part = self.reachable.map(|vertex| format!(" --reachable {}", quoted(vertex)));
        format!("{}{lowest}{form}{}", self.path_quoted(), part.unwrap_or_default())
    }

    /// Its path, for a shell.
    pub fn path_quoted(&self) -> String {
        quoted(&self.path.to_string_lossy())
    }

    /// Its bytes.
    pub fn open(&self) -> io::Result<Box<dyn Read>> {
        if self.is_standard() && io::stdin().is_terminal() {
            tell("waiting for input from this terminal; end it by Ctrl-D on a line of its own, or name a file");
        }
        Ok(match self.is_standard() {
            true => Box::new(io::stdin().lock()),
            false => Box::new(File::open(self.path)?),
        })
    }

    /// What it is told if it can't be read.
    pub fn unreadable(&self, error: &io::Error) -> Failure {
        let (name, error) = (self.name(), plain_error(error));
        let remedy = "name a file that can be read, or - for standard input";
        Failure::usage(format!("{name}: {error}; {remedy}"))
    }
}

/// A word as a shell takes it.
fn quoted(word: &str) -> String {
    let plain = |c: char| c.is_alphanumeric() || "-_./,:+@%=".contains(c);
    match !word.is_empty() && word.chars().all(plain) {
        true => word.into(),
        false => format!("'{}'", word.replace('\'', "'\\''")),
    }
}

/// An error in words, without its number in the system.
pub fn plain_error(error: &io::Error) -> String {
    let told = error.to_string();
    let told = told.split(" (os error ").next().unwrap_or_default();
    let mut letters = told.chars();
    let first = letters.next().map(|first| first.to_lowercase().to_string());
    first.unwrap_or_default() + letters.as_str()
}
