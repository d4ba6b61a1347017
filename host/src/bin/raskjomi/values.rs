//! What the values of several commands have in common.

use crate::large::Loaded;
use raskjomi::formats::json::{self, Value};
use raskjomi::formats::Vertices;

/// The fields of an object, in sequence.
pub type Fields = Vec<(&'static str, Value)>;

/// How a reduction merges: by the order of all pairs, by moves alone, or by moves and then by the order.
pub const BY_ORDER: &str = "order";
pub const BY_MOVES: &str = "moves";
pub const BY_BOTH: &str = "moves, then order";

/// What the vertices and priorities of a game are called in its file.
pub trait Called {
    /// The vertex as a line names it.
    fn label_of(&self, vertex: usize) -> String;
    fn id_of(&self, vertex: usize) -> u64;
    fn name_of(&self, vertex: usize) -> Option<String>;
    /// What a priority and the file's own add up to, where the highest decides in the file.
    fn even(&self) -> Option<u64>;
    /// The vertex that the file names as the start.
    fn start(&self) -> Option<usize>;

    /// The name, or null.
    fn name_value(&self, vertex: usize) -> Value {
        self.name_of(vertex).map_or(Value::Null, Value::Text)
    }

    /// The vertex as a value names it.
    fn fields_of(&self, vertex: usize) -> Fields {
        vec![
            ("vertex", Value::from(vertex)),
            ("id", Value::Number(self.id_of(vertex))),
            ("name", self.name_value(vertex)),
        ]
    }
}

impl Called for Vertices {
    fn label_of(&self, vertex: usize) -> String {
        self.label(vertex)
    }

    fn id_of(&self, vertex: usize) -> u64 {
        self.id(vertex).into()
    }

    fn name_of(&self, vertex: usize) -> Option<String> {
        self.name(vertex)
    }

    fn even(&self) -> Option<u64> {
        Vertices::even(self).map(u64::from)
    }

    fn start(&self) -> Option<usize> {
        Vertices::start(self)
    }
}

impl Called for Loaded {
    fn label_of(&self, vertex: usize) -> String {
        self.vertices.label(vertex as u32)
    }

    fn id_of(&self, vertex: usize) -> u64 {
        self.vertices.id(vertex as u32).into()
    }

    fn name_of(&self, vertex: usize) -> Option<String> {
        self.vertices.name(vertex as u32)
    }

    fn even(&self) -> Option<u64> {
        self.even
    }

    fn start(&self) -> Option<usize> {
        self.start.map(|vertex| vertex as usize)
    }
}

/// A pair of numbers.
pub fn pair((one, other): (usize, usize)) -> Value {
    json::list([one, other])
}

/// A list of pairs of numbers.
pub fn pairs(pairs: impl IntoIterator<Item = (usize, usize)>) -> Value {
    Value::List(pairs.into_iter().map(pair).collect())
}

/// The vertices, each as a value names it.
pub fn vertices(called: &dyn Called, vertices: impl IntoIterator<Item = usize>) -> Value {
    Value::List(vertices.into_iter().map(|v| json::object(called.fields_of(v))).collect())
}

/// Numbers of vertices and of edges.
pub fn sizes(vertices: usize, edges: usize) -> Value {
    json::object([("vertices", Value::from(vertices)), ("edges", Value::from(edges))])
}

/// A value as the only line of an output.
pub fn line(value: Value) -> Vec<u8> {
    format!("{value}\n").into()
}
