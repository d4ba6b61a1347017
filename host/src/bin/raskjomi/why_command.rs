//! The command that compares two vertices and says why.

use crate::any_size::AnySize;
use crate::arguments::Arguments;
use crate::commands::Written;
use crate::failure::Failure;
use crate::reason::Reason;
use crate::values::{self, pair, BY_ORDER};
use crate::why::{Explained, Question};
use crate::why_large;
use raskjomi::formats::json::{self, Value};
use std::collections::BTreeSet;

/// `why`.
pub fn why(arguments: &Arguments) -> Written {
    let both = arguments.has("--both");
    let game = match AnySize::load(arguments.file(0), arguments.has("--large"))? {
        AnySize::Small(game) => game,
        AnySize::Large(game) if both => {
            return Err(Failure::usage(format!(
                "{}: --both is for games within the limits; above them the answer is on both directions: leave it out",
                game.name
            )));
        }
        AnySize::Large(game) => return why_large::why(arguments, game),
    };
    let v = game.vertex(&arguments.word(1), "V")?;
    let w = game.vertex(&arguments.word(2), "W")?;
    let explained = Explained::new(&game.game)?;
    let question = explained.question(game.vertices());
    if arguments.has("--json") {
        return Ok(values::line(value(&question, v, w, both)));
    }
    let mut text = question.answer(v, w);
    if both {
        text += &format!("{}{}\n", question.answer(w, v), follows(&question, v, w));
    }
    Ok(text.into())
}

/// What it means for their classes and winners which of two vertices is below the other.
fn follows(question: &Question, v: usize, w: usize) -> String {
    let only = |v: usize, w: usize| {
        let [v, w] = [v, w].map(|vertex| question.vertices.label(vertex));
        format!(
            "Only {v} is below {w}, so they are in different classes: if Even wins at {v}, Even wins at {w}, and if Odd wins at {w}, Odd \
             wins at {v}."
        )
    };
    match (question.is_below(v, w), question.is_below(w, v)) {
        (true, true) => "Each is below the other, so they share a class and have the same winner.".into(),
        (true, false) => only(v, w),
        (false, true) => only(w, v),
        (false, false) => {
            "Neither is below the other, so they are in different classes, and the order doesn't compare their winners.".into()
        }
    }
}

/// The answer for a pair, and for its reverse where both are asked for.
fn value(question: &Question, v: usize, w: usize, both: bool) -> Value {
    let asked = [(v, w), (w, v)].into_iter().take(if both { 2 } else { 1 });
    let answers: Vec<Vec<Reason>> = asked.map(|(v, w)| question.reasons(v, w)).collect();
    let named: BTreeSet<usize> = answers.iter().flatten().flat_map(Reason::vertices).collect();
    let follows = both.then(|| follows(question, v, w));
    json::object([
        ("by", Value::from(BY_ORDER)),
        ("share_class", Value::Bool(question.is_below(v, w) && question.is_below(w, v))),
        ("sentence", follows.map_or(Value::Null, Value::Text)),
        ("answers", Value::List(answers.iter().map(|all| answer(question, all)).collect())),
        ("vertices", values::vertices(question.vertices, named)),
    ])
}

/// Whether the pair of the first of the reasons is in the order, and all of them.
fn answer(question: &Question, reasons: &[Reason]) -> Value {
    let (v, w) = (reasons[0].v, reasons[0].w);
    json::object([
        ("pair", pair((v, w))),
        ("below", Value::Bool(question.is_below(v, w))),
        ("priorities", json::list([v, w].map(|vertex| question.priority(vertex) as usize))),
        ("reasons", Value::List(reasons.iter().map(|reason| reason.value(question)).collect())),
    ])
}
