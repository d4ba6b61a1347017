//! Why a class for each vertex and a game of these classes are no reduction.

use crate::Player;
use std::fmt;

/// What keeps a class for each vertex and a game of the classes from being a reduction: a vertex and its class don't fit.
#[derive(Clone, Copy, Debug, PartialEq, Eq)]
#[non_exhaustive]
pub enum Misfit {
    /// A vertex has another priority than its class.
    Priority {
        /// The vertex.
        vertex: u32,
        /// Its class.
        class: u32,
        /// The vertex's priority, and the class's.
        priorities: (u32, u32),
    },
    /// A class has no member.
    NoMember {
        /// The class.
        class: u32,
    },
    /// A vertex has no edge out, and so no winner.
    NoMove {
        /// The vertex.
        vertex: u32,
    },
    /// An edge of the reduced game is there already.
    Repeated {
        /// The edge's number in the reduced game.
        edge: u32,
        /// The class that it leaves.
        class: u32,
        /// The class that it leads to.
        target: u32,
    },
    /// An edge of the game has no image: the reduced game has no edge between the classes of its ends.
    NoImage {
        /// The edge's number in the game.
        edge: u32,
        /// The edge's source and target.
        ends: (u32, u32),
        /// The classes of both.
        classes: (u32, u32),
    },
    /// A vertex has no edge to any member of a class that its own class has an edge to.
    NoAnswer {
        /// The vertex.
        vertex: u32,
        /// Its class.
        class: u32,
        /// The class that it has no edge to.
        target: u32,
    },
    /// A vertex has another owner than its class, which has two edges or more.
    Owner {
        /// The vertex.
        vertex: u32,
        /// Its class.
        class: u32,
        /// The vertex's owner.
        owner: Player,
    },
}

impl Misfit {
    /// The misfit in words, with what vertices and classes are called, and with what their priorities are in the files.
    pub fn told(
        &self,
        vertex_name: impl Fn(u32) -> String,
        class_name: impl Fn(u32) -> String,
        in_files: impl Fn((u32, u32)) -> (u64, u64),
    ) -> String {
        match *self {
            Misfit::Priority { vertex, class, priorities } => {
                let ((p, q), class) = (in_files(priorities), class_name(class));
                format!(
                    "vertex {} has priority {p}, and its class {class} has {q}",
                    vertex_name(vertex)
                )
            }
            Misfit::NoMember { class } => format!("class {} has no member", class_name(class)),
            Misfit::NoMove { vertex } => format!("vertex {} has no edge out", vertex_name(vertex)),
            Misfit::Repeated { edge, class, target } => {
                let [class, target] = [class, target].map(class_name);
                format!("edge {edge} of the reduced game, from class {class} to {target}, is there already")
            }
            Misfit::NoImage { edge, ends: (v, w), classes: (c, d) } => {
                let ([v, w], [c, d]) = ([v, w].map(vertex_name), [c, d].map(class_name));
                format!("edge {edge} leads from vertex {v} to {w}, but the reduced game has no edge from class {c} to {d}")
            }
            Misfit::NoAnswer { vertex, class, target } => {
                let ([c, d], vertex) = ([class, target].map(class_name), vertex_name(vertex));
                format!("class {c} has an edge to {d}, but its member {vertex} has none to a vertex of class {d}")
            }
            Misfit::Owner { vertex, class, owner } => {
                let (vertex, class) = (vertex_name(vertex), class_name(class));
                let other = owner.opponent();
                format!("vertex {vertex} is {owner}'s, but its class {class} is {other}'s and has more than one edge")
            }
        }
    }

    /// What it is about: a `vertex`, a `class`, an `edge` of the game or a `reduced_edge`, and its number.
    pub fn at(&self) -> (&'static str, u32) {
        match *self {
            Misfit::Priority { vertex, .. }
            | Misfit::NoMove { vertex }
            | Misfit::NoAnswer { vertex, .. }
            | Misfit::Owner { vertex, .. } => ("vertex", vertex),
            Misfit::NoMember { class } => ("class", class),
            Misfit::Repeated { edge, .. } => ("reduced_edge", edge),
            Misfit::NoImage { edge, .. } => ("edge", edge),
        }
    }

    /// What to do about it.
    pub fn remedy(&self) -> &'static str {
        match self {
            Misfit::Priority { .. } | Misfit::NoImage { .. } | Misfit::NoAnswer { .. } => {
                "put the vertex into another class, or one of its own, and make the reduced game again"
            }
            Misfit::Owner { .. } => "put vertices of one owner alone into a class that has two edges or more",
            Misfit::NoMember { .. } => "leave the class out of the reduced game",
            Misfit::NoMove { .. } => "give each vertex of the game an edge out",
            Misfit::Repeated { .. } => "write each edge of the reduced game once",
        }
    }
}

/// The sentence, with the numbers of vertices and classes, and priorities as the words have them.
impl fmt::Display for Misfit {
    fn fmt(&self, f: &mut fmt::Formatter) -> fmt::Result {
        let number = |number: u32| number.to_string();
        f.write_str(&self.told(number, number, |(p, q)| (p.into(), q.into())))
    }
}

impl std::error::Error for Misfit {}
