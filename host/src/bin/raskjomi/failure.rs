//! How a command ends without success.

use raskjomi::formats::json::{self, Value};
use raskjomi::Refusal;

/// What goes to standard output and standard error, and the exit status.
#[derive(Debug)]
pub struct Failure {
    pub output: String,
    pub message: String,
    pub status: u8,
    refusal: Option<Refusal>,
}

/// What each exit status says, of all commands.
pub const STATUSES: [(u8, &str); 5] = [
    (0, "done; accepted or right; of `verdict`: the player wins"),
    (1, "refused or wrong: the inputs are read, and one isn't what is asked of it"),
    (2, "bad usage, a file that can't be read or written, a bad word, a vertex that isn't there"),
    (3, "of the script ./raskjomi alone: the program can't be built"),
    (4, "not shown: `verdict` leaves open who wins, or `winners` at some vertex"),
];

impl Failure {
    /// The command line or a file can't be used.
    pub fn usage(message: impl Into<String>) -> Failure {
        Failure { output: String::new(), message: message.into(), status: 2, refusal: None }
    }

    /// The library refuses the input.
    pub fn refused(refusal: Refusal, message: String) -> Failure {
        Failure { output: String::new(), message, status: 1, refusal: Some(refusal) }
    }

    /// Something is told, and something is wrong.
    pub fn told(output: String, message: String, status: u8) -> Failure {
        Failure { output, message, status, refusal: None }
    }

    /// An answer that leaves open what is asked.
    pub fn not_shown(output: String) -> Failure {
        Failure::told(output, String::new(), 4)
    }

    /// The failure with a word on how its input is read.
    pub fn because(mut self, why: &str) -> Failure {
        self.message += why;
        self
    }

    /// Whether the output is an answer, with nothing wrong.
    pub fn is_answer(&self) -> bool {
        self.message.is_empty()
    }

    /// The refusal's number and place in words, if it is a refusal.
    pub fn verdict(&self) -> Option<String> {
        self.refusal.map(|Refusal { number, place }| format!("refused {number} at {place}"))
    }

    /// The failure with the refusal's number and place on standard output, for commands whose output
    /// is a verdict.
    pub fn with_verdict(mut self) -> Failure {
        if let Some(verdict) = self.verdict() {
            self.output = verdict + "\n";
        }
        self
    }

    /// The failure with nothing on standard output, for commands whose output is a whole file.
    pub fn without_output(mut self) -> Failure {
        self.output.clear();
        self
    }

    /// The failure with itself as a value on standard output, unless its output is told already.
    pub fn with_json(mut self) -> Failure {
        if self.refusal.is_some() || self.output.is_empty() {
            self.output = format!("{}\n", json::object(self.fields()));
        }
        self
    }

    /// The failure of a file as a value.
    pub fn value(&self, file: &str) -> Value {
        json::object([("file", Value::from(file))].into_iter().chain(self.fields()))
    }

    fn fields(&self) -> Vec<(&'static str, Value)> {
        let refusal = self.refusal.map_or(Value::Null, |refusal| {
            let told = refusal.explanation();
            json::object([
                ("number", Value::Number(refusal.number.into())),
                ("place", Value::from(refusal.place)),
                ("meaning", Value::from(told.meaning)),
                ("place_is", Value::from(told.place)),
                ("remedy", Value::from(told.remedy)),
            ])
        });
        vec![
            ("accepted", Value::Bool(false)),
            ("refusal", refusal),
            ("message", Value::from(&*self.message)),
        ]
    }
}
