//! Runs the program in the repository's root.

use crate::common::root;
use std::fs;
use std::io::{self, Write};
use std::path::PathBuf;
use std::process::{Command, Stdio};

/// What a run leaves.
#[derive(Debug)]
pub struct Run {
    pub status: i32,
    pub out: Vec<u8>,
    pub err: String,
}

impl Run {
    /// Standard output as text, of a run that succeeds quietly.
    pub fn text(self) -> String {
        String::from_utf8(self.bytes()).expect("text")
    }

    /// Standard output of a run that succeeds quietly.
    pub fn bytes(self) -> Vec<u8> {
        assert_eq!((self.status, self.err.as_str()), (0, ""));
        self.out
    }

    /// Standard output as text, of a verdict that leaves open who wins.
    pub fn not_shown(self) -> String {
        assert_eq!((self.status, self.err.as_str()), (4, ""));
        String::from_utf8(self.out).expect("text")
    }

    /// Checks the status, and that the message has each part; gives standard output.
    pub fn fails(self, status: i32, parts: &[&str]) -> String {
        assert_eq!(self.status, status, "{self:?}");
        for part in parts {
            assert!(self.err.contains(part), "no `{part}` in: {}", self.err);
        }
        assert_eq!(self.err.lines().count(), 1, "one line: {}", self.err);
        String::from_utf8(self.out).expect("text")
    }
}

/// Runs the program with words and an input.
pub fn run_on(words: &[&str], input: &[u8]) -> Run {
    let mut child = Command::new(env!("CARGO_BIN_EXE_raskjomi"))
        .args(words)
        .current_dir(root())
        .stdin(Stdio::piped())
        .stdout(Stdio::piped())
        .stderr(Stdio::piped())
        .spawn()
        .expect("the program starts");
    let mut stdin = child.stdin.take().expect("piped");
    // A run that needs no input may end before it is written.
    let _ = stdin.write_all(input);
    drop(stdin);
    let output = child.wait_with_output().expect("the program ends");
    Run {
        status: output.status.code().expect("a status"),
        out: output.stdout,
        err: String::from_utf8(output.stderr).expect("text"),
    }
}

/// Runs the program with words and no input.
pub fn run(words: &[&str]) -> Run {
    run_on(words, &[])
}

/// What a line of the shell shows in a terminal, by `script` of util-linux.
pub fn in_terminal(line: &str) -> String {
    let mut script = Command::new("script");
    script.args(["-qec", line, "/dev/null"]).current_dir(root());
    let ran = script.stdin(Stdio::null()).output().expect("script of util-linux");
    String::from_utf8_lossy(&ran.stdout).into_owned()
}

/// Says that a test isn't done, past its own output, which is shown of failures alone.
pub fn not_tried(what: &str) {
    let _ = writeln!(io::stderr(), "NOT TRIED: {what}");
}

/// A file with the content, for one test.
pub fn file(name: &str, content: &[u8]) -> String {
    let path = PathBuf::from(env!("CARGO_TARGET_TMPDIR")).join(name);
    fs::write(&path, content).expect("a file is written");
    path.to_str().expect("a plain path").to_string()
}

/// The numbers of decimal text.
pub fn numbers(text: &str) -> Vec<u16> {
    let code = text.lines().map(|line| line.split('#').next().unwrap_or_default());
    let words = code.flat_map(|line| line.split(|c: char| c.is_whitespace() || c == '/'));
    words.filter(|word| !word.is_empty()).map(|word| word.parse().expect("a number")).collect()
}

/// The words of a shipped game.
pub fn shipped(name: &str) -> Vec<u16> {
    numbers(&fs::read_to_string(root().join("games").join(name)).expect("a shipped game"))
}

pub fn bytes(words: &[u16]) -> Vec<u8> {
    words.iter().flat_map(|word| word.to_le_bytes()).collect()
}

pub fn words(bytes: &[u8]) -> Vec<u16> {
    bytes.chunks(2).map(|pair| u16::from_le_bytes([pair[0], pair[1]])).collect()
}
