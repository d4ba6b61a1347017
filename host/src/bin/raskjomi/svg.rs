//! Pictures that Graphviz draws.

use crate::failure::Failure;
use crate::progress::watch;
use crate::source::plain_error;
use raskjomi::Game;
use std::io::{ErrorKind, Write};
use std::process::{Child, Command, Stdio};
use std::thread;

/// The most edges of a picture in ranks: its time grows much faster than they do.
const MOST_RANKED: usize = 200;

/// How Graphviz lays a picture out.
#[derive(Clone, Copy, Debug, PartialEq, Eq)]
pub enum Layout {
    /// In ranks, with a frame for each class of several members.
    Ranked,
    /// By forces between vertices, which knows no frames and takes seconds at most for any game within the limits.
    Forces,
}

impl Layout {
    /// The one for a game.
    pub fn of(game: &Game) -> Layout {
        match game.size().different {
            0..=MOST_RANKED => Layout::Ranked,
            _ => Layout::Forces,
        }
    }

    /// The words that ask Graphviz for it.
    fn words(self) -> &'static [&'static str] {
        match self {
            Layout::Ranked => &["-Tsvg"],
            Layout::Forces => &["-Tsvg", "-Ksfdp", "-Goverlap=prism"],
        }
    }
}

/// The picture of a text: all of it, or none.
pub fn drawn(text: String, layout: Layout) -> Result<Vec<u8>, Failure> {
    let mut child = started(layout)?;
    let mut input = child.stdin.take().expect("piped");
    // If Graphviz ends early, its status tells.
    let writer = thread::spawn(move || input.write_all(text.as_bytes()));
    let watching = watch("the picture");
    let drawn = child.wait_with_output();
    drop(watching);
    let _ = writer.join();
    match drawn {
        Ok(drawn) if drawn.status.success() => Ok(drawn.stdout),
        Ok(drawn) => {
            let told = String::from_utf8_lossy(&drawn.stderr);
            let first = told.lines().next().unwrap_or("it says nothing").to_string();
            Err(Failure::usage(format!(
                "dot: Graphviz's program `dot` fails: {first}; leave --svg out to see the text"
            )))
        }
        Err(error) => Err(Failure::usage(format!("dot: {}; leave --svg out", plain_error(&error)))),
    }
}

/// Graphviz, which waits for a text.
fn started(layout: Layout) -> Result<Child, Failure> {
    let mut dot = Command::new("dot");
    dot.args(layout.words());
    dot.stdin(Stdio::piped()).stdout(Stdio::piped()).stderr(Stdio::piped());
    dot.spawn().map_err(|error| match error.kind() {
        ErrorKind::NotFound => Failure::usage(
            "dot: --svg needs Graphviz, whose program `dot` isn't on the PATH; install it (apt install \
             graphviz, dnf install graphviz), or leave --svg out and draw the text elsewhere",
        ),
        _ => Failure::usage(format!(
            "dot: Graphviz's program `dot` can't be started: {}; leave --svg out, or mend it",
            plain_error(&error)
        )),
    })
}
