//! Games in the form that is asked for.

use crate::arguments::{Arguments, Form};
use crate::failure::Failure;
use raskjomi::formats::{to_bytes, to_pgsolver, to_text, Vertices};
use raskjomi::Game;

/// A game to write.
pub struct Output<'a> {
    /// What it is, for a comment.
    pub title: String,
    pub game: &'a Game,
    pub vertices: &'a Vertices,
}

/// The form that `--as` names, if it names one, for commands that draw no picture.
pub fn form_given(arguments: &Arguments, command: &str) -> Result<Option<Form>, Failure> {
    match arguments.form()? {
        Form::Dot => Err(Failure::usage(format!(
            "{command}: no form `dot`; write --as text, --as words or --as pgsolver, or hand the game \
             on to raskjomi dot"
        ))),
        form => Ok(arguments.has("--as").then_some(form)),
    }
}

impl Output<'_> {
    /// The game in a form; where none is named, in the format that the game came in.
    pub fn written(&self, form: Option<Form>, arguments: &Arguments) -> Result<Vec<u8>, Failure> {
        let came_in = if self.vertices.of_pgsolver() { Form::Pgsolver } else { Form::Text };
        match form.unwrap_or(came_in) {
            Form::Words => Ok(to_bytes(self.game.words())),
            Form::Pgsolver => self.pgsolver(arguments.has("--lowest")),
            _ => Ok(to_text(self.game, self.vertices, &self.title).into()),
        }
    }

    fn pgsolver(&self, lowest: bool) -> Result<Vec<u8>, Failure> {
        let written = to_pgsolver(self.game, self.vertices, lowest);
        written.map_err(|refusal| {
            let vertex = self.vertices.label(refusal.place - 2);
            let remedy = refusal.explanation().remedy;
            let place = format!("{}: vertex {vertex}, for PGSolver's format", self.title);
            Failure::refused(refusal, format!("{place}: {refusal}; {remedy}; or write --lowest"))
        })
    }
}
