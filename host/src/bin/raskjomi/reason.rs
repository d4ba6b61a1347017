//! Why a pair of vertices is in the order or isn't: as data, and as a sentence.

use crate::graph::Cause;
use crate::values::{pair, pairs};
use crate::why::Question;
use raskjomi::formats::json::{self, Value};

/// Why v is below w, or isn't.
pub struct Reason {
    pub v: usize,
    pub w: usize,
    pub ground: Ground,
    /// The pairs of their successors that it rests on: they are in the order where the pair is, else they aren't.
    pub rests_on: Vec<(usize, usize)>,
}

/// What a reason says of its pair.
pub enum Ground {
    /// It is one vertex, which is below itself.
    Same,
    /// It is in the order: the moves are matched.
    Matched,
    /// A pass unmarks it; 0 stands for unequal priorities.
    Parted { pass: u32, cause: Cause },
}

impl Reason {
    /// The pass in which the pair falls, if it does.
    pub fn pass(&self) -> Option<u32> {
        match self.ground {
            Ground::Parted { pass, .. } => Some(pass),
            Ground::Same | Ground::Matched => None,
        }
    }

    /// What it is called in a value.
    fn kind(&self) -> &'static str {
        let Ground::Parted { cause, .. } = self.ground else {
            return if self.v == self.w { "itself" } else { "matched" };
        };
        match cause {
            Cause::Priorities => "priorities",
            Cause::Source(_) => "even_move",
            Cause::Target(_) => "odd_move",
            Cause::Both(..) => "both_moves",
            Cause::Each => "every_move",
        }
    }

    /// The moves that nothing answers, where the cause is about one or two.
    fn moves(&self) -> Vec<(usize, usize)> {
        match self.ground {
            Ground::Parted { cause: Cause::Source(x), .. } => vec![(self.v, x)],
            Ground::Parted { cause: Cause::Target(y), .. } => vec![(self.w, y)],
            Ground::Parted { cause: Cause::Both(x, y), .. } => vec![(self.v, x), (self.w, y)],
            _ => Vec::new(),
        }
    }

    /// The vertices that it names.
    pub fn vertices(&self) -> impl Iterator<Item = usize> + '_ {
        [self.v, self.w].into_iter().chain(self.rests_on.iter().flat_map(|&(x, y)| [x, y]))
    }

    /// The reason as a value.
    pub fn value(&self, of: &Question) -> Value {
        json::object([
            ("pair", pair((self.v, self.w))),
            ("pass", self.pass().map_or(Value::Null, |pass| Value::Number(pass.into()))),
            ("cause", Value::from(self.kind())),
            ("moves", pairs(self.moves())),
            ("rests_on", pairs(self.rests_on.iter().copied())),
            ("sentence", Value::Text(self.sentence(of))),
        ])
    }

    /// The reason in words.
    pub fn sentence(&self, of: &Question) -> String {
        let said: Vec<String> = self.rests_on.iter().map(|&(x, y)| of.said(x, y)).collect();
        match said.is_empty() {
            true => self.opening(of),
            false => format!("{} {}.", self.opening(of), said.join(", ")),
        }
    }

    /// What it says before the pairs that it rests on, or all where it rests on none.
    pub fn opening(&self, of: &Question) -> String {
        match self.ground {
            Ground::Same => "Every vertex is below itself.".into(),
            Ground::Matched => self.matched(of),
            Ground::Parted { pass, cause } => self.parted(of, pass, cause),
        }
    }

    /// How the moves of a pair in the order are matched.
    fn matched(&self, of: &Question) -> String {
        let rule = match (of.graph.evens[self.v], of.graph.evens[self.w]) {
            (true, true) => "Even has as good a move there for each one here",
            (false, false) => "Odd has as good a move here for each one there",
            (true, false) => "each move of Even's here and of Odd's there fit",
            (false, true) => "a move of Odd's here and one of Even's there fit",
        };
        format!("They have the same priority, and {rule}:")
    }

    /// Why a pair falls in its pass.
    fn parted(&self, of: &Question, pass: u32, cause: Cause) -> String {
        let label = |vertex: usize| of.vertices.label(vertex);
        let [v, w] = [self.v, self.w].map(label);
        let reason = match cause {
            Cause::Priorities => {
                let [p, q] = [self.v, self.w].map(|vertex| of.priority(vertex));
                return format!("{v} has priority {p}, and {w} has priority {q}.");
            }
            Cause::Source(x) => {
                let x = label(x);
                format!("Even may go from {v} to {x}, and from {w} nowhere as good")
            }
            Cause::Target(y) => {
                let y = label(y);
                format!("Odd may go from {w} to {y}, and from {v} nowhere as good for Odd")
            }
            Cause::Both(x, y) => {
                let [x, y] = [x, y].map(label);
                format!("Even may go from {v} to {x}, and Odd from {w} to {y}")
            }
            Cause::Each => format!("wherever Odd goes from {v} and Even from {w}"),
        };
        format!("Pass {pass} parts {v} from {w}: {reason}:")
    }
}
