//! The command line over the library.
#![forbid(unsafe_code)]

mod answers;
mod any_size;
mod arguments;
mod batch;
mod causes;
mod check_reduction;
mod check_solution;
mod commands;
mod completions;
mod dropped;
mod edits;
mod failure;
mod files;
mod game_input;
mod graph;
mod help;
mod input;
mod large;
mod locate;
mod manual;
mod merged;
mod options;
mod output;
mod page;
mod progress;
mod questions;
mod reachable;
mod reason;
mod reduced;
mod reduced_value;
mod source;
mod stats;
mod suggest;
mod svg;
mod text;
mod trace;
mod values;
mod whole;
mod why;
mod why_command;
mod why_large;
mod winners;

use std::env;
use std::ffi::OsString;
use std::fs::File;
use std::io::{self, ErrorKind, Write};
use std::os::fd::AsFd;
use std::process::ExitCode;

fn main() -> ExitCode {
    let words: Vec<OsString> = env::args_os().skip(1).collect();
    let (output, message, status) = match commands::run(&words) {
        Ok(output) => (output, String::new(), 0),
        Err(failure) => (failure.output.into(), failure.message, failure.status),
    };
    if let Err(error) = print(&output) {
        let error = source::plain_error(&error);
        tell(&format!("standard output: {error}; write it where it can be written"));
        return ExitCode::from(2);
    }
    if !message.is_empty() {
        tell(&message);
    }
    ExitCode::from(status)
}

/// Writes to standard output; a reader that has gone away is no error of ours. Written as a file, since Rust's own standard
/// output takes one that can't be written for one that nobody wants.
fn print(output: &[u8]) -> io::Result<()> {
    let mut out = File::from(io::stdout().as_fd().try_clone_to_owned()?);
    match out.write_all(output) {
        Err(error) if error.kind() == ErrorKind::BrokenPipe => Ok(()),
        result => result,
    }
}

/// Writes a line to standard error; where that fails too, the exit status has to do.
fn tell(message: &str) {
    let _ = writeln!(io::stderr(), "raskjomi: {message}");
}
