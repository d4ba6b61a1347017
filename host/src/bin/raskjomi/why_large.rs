//! Why two vertices of a game of any size share a class or not: the classes of their successors, side by side.

use crate::arguments::Arguments;
use crate::commands::Written;
use crate::large::Loaded;
use crate::reduced::Reduced;
use crate::values::{self, BY_MOVES};
use raskjomi::formats::json::{self, Value};
use raskjomi::Player;
use std::collections::{BTreeMap, BTreeSet};
use std::fmt::Write;

/// How many vertices a line names on each side.
const SHOWN: usize = 12;

/// The successors of two vertices by their classes.
type Sides = BTreeMap<u32, [Vec<u32>; 2]>;

/// Two vertices side by side.
struct Compared {
    of: Loaded,
    vertices: [u32; 2],
    classes: [u32; 2],
    sides: Sides,
}

/// What two vertices differ in, or why they don't.
enum Ground {
    Priorities([u64; 2]),
    /// One of them alone has a move to a class.
    Alone {
        vertex: u32,
        class: u32,
    },
    /// Their owner is one, and their moves lead to the same classes.
    SameClasses,
    /// All their moves lead to one class.
    OneClass,
    /// They have these owners, and several classes to choose from.
    Owners([Player; 2]),
}

/// `why` for a game that is handled as large ones are.
pub fn why(arguments: &Arguments, of: Loaded) -> Written {
    let v = of.vertex(&arguments.word(1), "V")?;
    let w = of.vertex(&arguments.word(2), "W")?;
    let reduced = Reduced::make(of)?;
    let sides = sides(&reduced, [v, w]);
    let classes = [v, w].map(|vertex| reduced.reduction.classes()[vertex as usize]);
    let compared = Compared { of: reduced.of, vertices: [v, w], classes, sides };
    Ok(match arguments.has("--json") {
        true => values::line(compared.value()),
        false => compared.text().into(),
    })
}

/// The successors of both, each once.
fn sides(reduced: &Reduced, vertices: [u32; 2]) -> Sides {
    let mut sides = Sides::new();
    for (source, target) in reduced.of.game.edges() {
        for (side, &vertex) in vertices.iter().enumerate() {
            if vertex == source {
                let class = reduced.reduction.classes()[target as usize];
                sides.entry(class).or_default()[side].push(target);
            }
        }
    }
    for list in sides.values_mut().flatten() {
        list.sort_unstable();
        list.dedup();
    }
    sides
}

impl Compared {
    fn share_class(&self) -> bool {
        self.classes[0] == self.classes[1]
    }

    fn priorities(&self) -> [u64; 2] {
        self.vertices.map(|vertex| self.of.priority(self.of.game.priority(vertex)))
    }

    fn ground(&self) -> Ground {
        let [p, q] = self.priorities();
        if p != q {
            return Ground::Priorities([p, q]);
        }
        let alone = |side: usize| {
            let only = self.sides.iter().find(|(_, sides)| sides[1 - side].is_empty());
            only.map(|(&class, _)| Ground::Alone { vertex: self.vertices[side], class })
        };
        let owners = self.vertices.map(|vertex| self.of.game.owner(vertex));
        alone(0).or_else(|| alone(1)).unwrap_or(match (owners[0] == owners[1], self.sides.len()) {
            (true, _) => Ground::SameClasses,
            (false, 1) => Ground::OneClass,
            (false, _) => Ground::Owners(owners),
        })
    }

    /// What they have in common, and why, in words.
    fn sentence(&self) -> String {
        let [v, w] = self.vertices.map(|vertex| self.of.vertices.label(vertex));
        let ([c, d], [p, _]) = (self.classes, self.priorities());
        let reason = match self.ground() {
            Ground::Priorities([p, q]) => format!("they have the priorities {p} and {q}"),
            Ground::Alone { vertex, class } => {
                format!("{} alone has a move to class {class}", self.of.vertices.label(vertex))
            }
            Ground::SameClasses => format!(
                "they have priority {p} and one owner, and their moves lead to the same classes"
            ),
            Ground::OneClass => format!(
                "they have priority {p}, and all their moves lead to one class, whoever moves"
            ),
            Ground::Owners([owner, other]) => {
                let count = self.sides.len();
                format!("{owner} moves at the first and {other} at the second, with {count} classes to choose from")
            }
        };
        match self.share_class() {
            true => format!(
                "Vertices {v} and {w} share class {c}, so they have the same winner: {reason}."
            ),
            false => format!("Vertices {v} and {w} are in the classes {c} and {d}: {reason}."),
        }
    }

    fn text(&self) -> String {
        let mut text = self.sentence() + "\n";
        let [v, w] = self.vertices.map(|vertex| self.of.vertices.label(vertex));
        for (class, sides) in &self.sides {
            let [left, right] = sides.each_ref().map(|list| listed(&self.of, list));
            writeln!(text, "class {class}: {v} {left} | {w} {right}").expect("a string takes all");
        }
        text
    }

    fn value(&self) -> Value {
        let numbers = |list: &[u32]| json::list(list.iter().map(|&vertex| vertex as usize));
        let side = |(&class, sides): (&u32, &[Vec<u32>; 2])| {
            let [left, right] = sides.each_ref().map(|list| numbers(list));
            let class = Value::from(class as usize);
            json::object([("class", class), ("from_v", left), ("from_w", right)])
        };
        let cause = match self.ground() {
            Ground::Priorities(_) => "priorities",
            Ground::Alone { .. } => "alone",
            Ground::SameClasses => "same_classes",
            Ground::OneClass => "one_class",
            Ground::Owners(_) => "owners",
        };
        let successors = self.sides.values().flatten().flatten();
        let named: BTreeSet<usize> =
            self.vertices.iter().chain(successors).map(|&vertex| vertex as usize).collect();
        json::object([
            ("by", Value::from(BY_MOVES)),
            ("share_class", Value::Bool(self.share_class())),
            ("sentence", Value::Text(self.sentence())),
            ("pair", numbers(&self.vertices)),
            ("priorities", Value::List(self.priorities().map(Value::Number).into())),
            ("classes", numbers(&self.classes)),
            ("cause", Value::from(cause)),
            ("successors", Value::List(self.sides.iter().map(side).collect())),
            ("vertices", values::vertices(&self.of, named)),
        ])
    }
}

/// The moves to these vertices.
fn listed(of: &Loaded, vertices: &[u32]) -> String {
    let shown: Vec<String> =
        vertices.iter().take(SHOWN).map(|&vertex| of.vertices.label(vertex)).collect();
    match vertices.len() {
        0 => "has no move there".into(),
        count if count > SHOWN => format!("to {} and {} more", shown.join(", "), count - SHOWN),
        _ => format!("to {}", shown.join(", ")),
    }
}
