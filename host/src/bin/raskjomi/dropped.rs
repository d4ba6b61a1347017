//! The command that tells which edges of the quotient the reduced game drops, and why.

use crate::any_size::AnySize;
use crate::arguments::Arguments;
use crate::commands::{reduced_of, Written};
use crate::failure::Failure;
use crate::graph::Graph;
use crate::help::{Command, Opt};
use crate::reason::Reason;
use crate::values::{self, pair, BY_MOVES, BY_ORDER};
use crate::why::{Explained, Question};
use raskjomi::formats::json::{self, Value};
use raskjomi::formats::Vertices;
use raskjomi::{Game, Player};
use std::collections::BTreeSet;

/// It comes after the other questions.
pub const COMMANDS: [Command; 1] = [Command {
    name: "dropped",
    usage: "dropped [GAME] [--json]",
    summary: "the edges between classes that the reduced game drops, and why",
    details:
        "A line for each edge that `quotient` writes and `reduce` doesn't: the edge, another one out of the same class that `reduce` keeps, \
         and why the owner of the class is served by that one at least as well. Edges are between classes; the reason is the one that `why` \
         gives for the lowest members of the two classes that the edges lead to. Above the limits vertices are merged by their moves alone, \
         and no edge is dropped; of those that `reduce --then-order` drops, ask about the game that `reduce` writes without it.",
    example: "./raskjomi dropped games/c.txt",
    files: 0..=1,
    options: &[Opt { name: "--json", value: None }],
    run: dropped,
}];

/// What is said where no edge is dropped.
const NONE_DROPPED: &str = "no edge is dropped\n";
const NONE_BY_MOVES: &str =
    "no edge is dropped: above the limits vertices are merged by their moves alone, which keeps every edge between classes\n";

/// An edge between classes that is dropped, and the edge out of its source that stays for it.
pub struct Dropped {
    pub source: usize,
    pub target: usize,
    pub better: usize,
    player: Player,
    /// Why one of the two targets is below the other, by their lowest members.
    pub reason: Reason,
}

/// `dropped`.
fn dropped(arguments: &Arguments) -> Written {
    let json = arguments.has("--json");
    let game = match AnySize::load(arguments.file(0), false)? {
        AnySize::Small(game) => game,
        AnySize::Large(_) if json => {
            return Ok(values::line(listed(BY_MOVES, Vec::new(), Value::List(Vec::new()))))
        }
        AnySize::Large(_) => return Ok(NONE_BY_MOVES.into()),
    };
    let explained = Explained::new(&game.game)?;
    let question = explained.question(game.vertices());
    let (edges, classes) = edges(&game.game, &question)?;
    if json {
        return Ok(values::line(value(&edges, &question, &classes)));
    }
    let lines: String = edges.iter().map(|edge| edge.line(&question, &classes)).collect();
    Ok(if lines.is_empty() { NONE_DROPPED.into() } else { lines.into() })
}

/// The dropped edges, by source and target, and what the classes are called.
pub fn edges(game: &Game, question: &Question) -> Result<(Vec<Dropped>, Vertices), Failure> {
    let (quotient, reduced) = (game.quotient(), reduced_of(game));
    let [all, kept] = [&quotient, &reduced].map(|merged| Graph::new(&merged.game));
    let lowest: Vec<usize> = reduced.members().iter().map(|members| members[0]).collect();
    let mut dropped = Vec::new();
    for (source, targets) in all.successors.iter().enumerate() {
        let player = quotient.game.owner(source);
        let others = &kept.successors[source];
        for &target in targets.iter().filter(|target| !others.contains(target)) {
            let mut pairs = others.iter().map(|&better| {
                let (low, high) = below(player, target, better);
                (better, lowest[low], lowest[high])
            });
            let found = pairs.find(|&(_, v, w)| question.is_below(v, w));
            let (better, v, w) = found.ok_or_else(|| fault(source, target))?;
            let reason = question.reason(v, w);
            dropped.push(Dropped { source, target, better, player, reason });
        }
    }
    Ok((dropped, question.vertices.of_classes(&reduced.classes)))
}

pub fn fault(source: usize, target: usize) -> Failure {
    Failure::usage(format!(
        "edge {source} -> {target} is dropped, and no other one is found that serves as well, so nothing is explained; the reduced game \
         stands, and this program has a fault: please report it with the game"
    ))
}

/// Of two classes that a player may go to, the lower one in the order and the higher one, where one serves the player better.
pub fn below(player: Player, worse: usize, better: usize) -> (usize, usize) {
    match player {
        Player::Even => (worse, better),
        Player::Odd => (better, worse),
    }
}

impl Dropped {
    /// Which edge serves whom at least as well.
    pub fn sentence(&self, classes: &Vertices) -> String {
        let [c, d, e] = [self.source, self.target, self.better].map(|class| classes.label(class));
        let (low, high) = below(self.player, self.target, self.better);
        let ([low, high], player) = ([low, high].map(|class| classes.label(class)), self.player);
        format!(
            "edge {c} -> {d} dropped: {c} -> {e} serves {player} at least as well, since class {low} is below class {high}."
        )
    }

    fn line(&self, question: &Question, classes: &Vertices) -> String {
        format!("{} {}", self.sentence(classes), question.answer(self.reason.v, self.reason.w))
    }

    fn value(&self, question: &Question, classes: &Vertices) -> Value {
        let (low, high) = below(self.player, self.target, self.better);
        json::object([
            ("edge", pair((self.source, self.target))),
            ("better", pair((self.source, self.better))),
            ("player", Value::Text(self.player.to_string())),
            ("lower", Value::from(low)),
            ("higher", Value::from(high)),
            ("sentence", Value::Text(self.sentence(classes))),
            ("reason", self.reason.value(question)),
        ])
    }
}

/// The dropped edges with their reasons, and the vertices that these name.
fn value(edges: &[Dropped], question: &Question, classes: &Vertices) -> Value {
    let named: BTreeSet<usize> = edges.iter().flat_map(|edge| edge.reason.vertices()).collect();
    let edges = edges.iter().map(|edge| edge.value(question, classes)).collect();
    listed(BY_ORDER, edges, values::vertices(question.vertices, named))
}

fn listed(by: &str, dropped: Vec<Value>, vertices: Value) -> Value {
    json::object([
        ("by", Value::from(by)),
        ("dropped", Value::List(dropped)),
        ("vertices", vertices),
    ])
}
