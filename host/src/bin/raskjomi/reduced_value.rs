//! A reduced game with the class of each vertex, as a value.

use crate::game_input::GameInput;
use crate::large::Loaded;
use crate::values::{self, pairs, sizes, Called, BY_BOTH, BY_MOVES, BY_ORDER};
use raskjomi::formats::json::{self, Value};
use raskjomi::{LargeGame, Reduced};

/// A reduction of a game of any size.
struct Answer<'a> {
    /// How its vertices are merged.
    by: &'a str,
    /// The numbers of its vertices and of its different edges.
    size: (usize, usize),
    vertices: &'a dyn Called,
    /// The class of each vertex.
    classes: &'a [u32],
    reduced: &'a LargeGame,
    of_classes: &'a dyn Called,
}

/// That of a game within the limits, with the class of each vertex.
pub fn by_order(game: &GameInput, merged: &Reduced, classes: &[u32]) -> Vec<u8> {
    let (reduced, size) = (LargeGame::from(&merged.game), game.game.size());
    let answer = Answer {
        by: BY_ORDER,
        size: (size.vertices, size.different),
        vertices: game.vertices(),
        classes,
        reduced: &reduced,
        of_classes: &game.vertices().of_classes(&merged.classes),
    };
    values::line(answer.value())
}

/// That of a game of any size, by moves and perhaps by the order of the result, with the class of each vertex.
pub fn by_moves(of: &Loaded, reduced: &Loaded, classes: &[u32], then_order: bool) -> Vec<u8> {
    let mut different: Vec<(u32, u32)> = of.game.edges().collect();
    different.sort_unstable();
    different.dedup();
    let answer = Answer {
        by: if then_order { BY_BOTH } else { BY_MOVES },
        size: (of.game.size().vertices, different.len()),
        vertices: of,
        classes,
        reduced: &reduced.game,
        of_classes: reduced,
    };
    values::line(answer.value())
}

impl Answer<'_> {
    fn value(&self) -> Value {
        let vertex = |(vertex, &class): (usize, &u32)| {
            let class = ("class", Value::from(class as usize));
            json::object(self.vertices.fields_of(vertex).into_iter().chain([class]))
        };
        let size = self.reduced.size();
        json::object([
            ("by", Value::from(self.by)),
            ("game", sizes(self.size.0, self.size.1)),
            ("reduced", sizes(size.vertices, size.edges)),
            ("vertices", Value::List(self.classes.iter().enumerate().map(vertex).collect())),
            ("table", self.table()),
        ])
    }

    /// The reduced game itself. Its priorities are those of the file.
    fn table(&self) -> Value {
        let (game, even) = (self.reduced, self.of_classes.even());
        let all = 0..game.size().vertices as u32;
        let priority = |class: u32| {
            let priority = u64::from(game.priority(class));
            Value::Number(even.map_or(priority, |even| even - priority))
        };
        let owner = |class: u32| Value::Number(u32::from(game.owner(class)).into());
        let edges = game.edges().map(|(source, target)| (source as usize, target as usize));
        let name = |class: u32| self.of_classes.name_value(class as usize);
        json::object([
            ("decides", Value::from(if even.is_some() { "highest" } else { "lowest" })),
            ("priorities", Value::List(all.clone().map(priority).collect())),
            ("owners", Value::List(all.clone().map(owner).collect())),
            ("edges", pairs(edges)),
            ("start", self.of_classes.start().map_or(Value::Null, Value::from)),
            ("names", Value::List(all.map(name).collect())),
        ])
    }
}
