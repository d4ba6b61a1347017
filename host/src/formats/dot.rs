//! Pictures as Graphviz text. Even's vertices are diamonds, Odd's are boxes. A class of several members
//! has a light colour, and an edge that the reduced game drops is dashed.

use super::Vertices;
use crate::{members, Game, Order, Player, Reduced};
use std::collections::HashSet;
use std::fmt::Write;

/// The colours of classes, in turn.
pub const COLOURS: [&str; 12] = [
    "#cfe8fc", "#fde2c4", "#d5f0d0", "#f8d3dc", "#e4dcf7", "#fbf3bf", "#cdeeea", "#eadfd3",
    "#f3d5ef", "#dde5b9", "#d9dfe6", "#ffd9c9",
];

/// The edges between classes that the reduced game has.
pub struct Kept<'a> {
    classes: &'a [u16],
    edges: HashSet<(usize, usize)>,
}

impl Kept<'_> {
    /// Those of a reduced game, for the game that it comes from.
    ///
    /// ```
    /// use raskjomi::formats::{dot, Vertices};
    /// // Vertex 1 is below 2, so the edge from 0 to 1 is dropped.
    /// let text = "5 7 / 2 0 0 1 4 / 0 0 0 0 0 / 0 0 1 2 2 3 4 / 1 2 3 3 4 3 4";
    /// let game: raskjomi::Game = text.parse()?;
    /// let (reduced, names) = (game.reduce(), Vertices::numbers(5));
    /// let text = dot::game(&game, &names, &reduced.classes, Some(&dot::Kept::new(&reduced)));
    /// assert!(text.contains("\n  0 -> 1 [style=dashed];\n  0 -> 2;\n"));
    /// # Ok::<(), raskjomi::formats::ReadError>(())
    /// ```
    pub fn new(reduced: &Reduced) -> Kept<'_> {
        Kept { classes: &reduced.classes, edges: reduced.game.edges().collect() }
    }

    fn has(&self, source: usize, target: usize) -> bool {
        let class = |vertex: usize| self.classes[vertex].into();
        self.edges.contains(&(class(source), class(target)))
    }
}

/// A directed graph from its lines.
fn digraph(name: &str, lines: &[String]) -> String {
    let body: String = lines.iter().map(|line| format!("  {line}\n")).collect();
    let node = "node [fontname=\"Helvetica\", style=filled, fillcolor=white];";
    format!("digraph {name} {{\n  {node}\n{body}}}\n")
}

/// A vertex with its number, a label and perhaps a colour.
fn node(game: &Game, vertices: &Vertices, vertex: usize, label: &str, colour: &str) -> String {
    let shape = if game.owner(vertex) == Player::Even { "diamond" } else { "box" };
    let priority = vertices.priority(game.priority(vertex));
    let label = label.replace('\\', "\\\\").replace('"', "\\\"");
    let colour = match colour {
        "" => String::new(),
        _ => format!(", fillcolor=\"{colour}\""),
    };
    format!("{vertex} [shape={shape}, label=\"{label}\\npriority {priority}\"{colour}];")
}

/// The edges, dashed where the test fails.
fn edges(game: &Game, kept: impl Fn(usize, usize) -> bool) -> Vec<String> {
    let edge = |(source, target)| match kept(source, target) {
        true => format!("{source} -> {target};"),
        false => format!("{source} -> {target} [style=dashed];"),
    };
    game.edges().map(edge).collect()
}

/// The game; a frame holds the members of a class that has several, a single one names its class.
///
/// ```
/// use raskjomi::formats::{dot, Vertices};
/// let game: raskjomi::Game = "3 3 / 0 1 0 / 0 0 1 / 0 1 2 / 1 1 1".parse()?;
/// let text = dot::game(&game, &Vertices::numbers(3), &game.classes(), None);
/// assert!(text.contains("1 [shape=diamond, label=\"1 (class 1)\\npriority 1\"];"));
/// # Ok::<(), raskjomi::formats::ReadError>(())
/// ```
pub fn game(game: &Game, vertices: &Vertices, classes: &[u16], kept: Option<&Kept>) -> String {
    let (mut lines, all) = (Vec::new(), members(classes));
    for (class, members) in all.iter().enumerate() {
        if let [v] = members[..] {
            let label = format!("{} (class {class})", vertices.label(v));
            lines.push(node(game, vertices, v, &label, ""));
            continue;
        }
        let colour = colour(class, &all);
        let mut frame = format!("subgraph cluster_{class} {{ label=\"class {class}\"; ");
        write!(frame, "style=filled; color=\"{colour}\"; ").expect("a string takes all");
        for &v in members {
            let node = node(game, vertices, v, &vertices.label(v), "");
            write!(frame, "{node} ").expect("a string takes all");
        }
        lines.push(frame + "}");
    }
    lines.extend(edges(game, |v, w| kept.is_none_or(|kept| kept.has(v, w))));
    digraph("game", &lines)
}

/// The game without frames: each vertex names its class, and has its colour where the class has several members.
///
/// ```
/// use raskjomi::formats::{dot, Vertices};
/// let game: raskjomi::Game = "3 3 / 0 1 0 / 0 0 1 / 0 1 2 / 1 1 1".parse()?;
/// let (reduced, names) = (game.reduce(), Vertices::numbers(3));
/// let text = dot::unframed(&game, &names, &reduced.classes, &dot::Kept::new(&reduced));
/// assert!(text.contains("label=\"2 (class 0)\\npriority 0\", fillcolor=\"#cfe8fc\""));
/// # Ok::<(), raskjomi::formats::ReadError>(())
/// ```
pub fn unframed(game: &Game, vertices: &Vertices, classes: &[u16], kept: &Kept) -> String {
    let members = members(classes);
    let vertex = |(v, &class): (usize, &u16)| {
        let class = usize::from(class);
        let label = format!("{} (class {class})", vertices.label(v));
        node(game, vertices, v, &label, colour(class, &members))
    };
    let mut lines: Vec<String> = classes.iter().enumerate().map(vertex).collect();
    lines.extend(edges(game, |v, w| kept.has(v, w)));
    digraph("game", &lines)
}

/// The colour of a class, if it has several members.
fn colour(class: usize, members: &[Vec<usize>]) -> &'static str {
    if members[class].len() > 1 {
        COLOURS[class % COLOURS.len()]
    } else {
        ""
    }
}

/// A game of classes, each with its members, and of the reduced game's edges.
///
/// ```
/// use raskjomi::formats::{dot, Vertices};
/// let game: raskjomi::Game = "3 3 / 0 1 0 / 0 0 1 / 0 1 2 / 1 1 1".parse()?;
/// let reduced = game.reduce();
/// let text = dot::merged("reduced", &reduced, &Vertices::numbers(3), &reduced);
/// assert!(text.contains("label=\"class 0: 0 and 2\\npriority 0\""));
/// # Ok::<(), raskjomi::formats::ReadError>(())
/// ```
pub fn merged(name: &str, merged: &Reduced, vertices: &Vertices, reduced: &Reduced) -> String {
    let (game, members) = (&merged.game, merged.members());
    let kept: HashSet<(usize, usize)> = reduced.game.edges().collect();
    let class_node = |class: usize| {
        let label = format!("class {class}: {}", vertices.listed(&members[class]));
        node(game, vertices, class, &label, colour(class, &members))
    };
    let mut lines: Vec<String> = (0..members.len()).map(class_node).collect();
    lines.extend(edges(game, |source, target| kept.contains(&(source, target))));
    digraph(name, &lines)
}

/// The order between different vertices: an arrow from v to w where v is below w.
///
/// ```
/// use raskjomi::formats::{dot, Vertices};
/// let game: raskjomi::Game = "3 3 / 0 1 0 / 0 0 1 / 0 1 2 / 1 1 1".parse()?;
/// let text = dot::order(&game, &Vertices::numbers(3), &game.order());
/// assert!(text.ends_with("\n  0 -> 2;\n  2 -> 0;\n}\n"));
/// # Ok::<(), raskjomi::formats::ReadError>(())
/// ```
pub fn order(game: &Game, vertices: &Vertices, order: &Order) -> String {
    let node = |v: usize| node(game, vertices, v, &vertices.label(v), "");
    let mut lines: Vec<String> = game.vertices().map(node).collect();
    let pairs = order.pairs().filter(|(v, w)| v != w);
    lines.extend(pairs.map(|(v, w)| format!("{v} -> {w};")));
    digraph("order", &lines)
}
