//! The picture of the game and of its reduced game, or of the order.

use super::facts::Facts;
use super::html::{element, line, Html};
use super::matrix::matrix;
use super::svg::{fitting, picture, Edge, Node};
use super::table::scrolled;
use super::{MOST_DRAWN, MOST_DRAWN_EDGES};
use raskjomi::formats::dot::COLOURS;
use raskjomi::Player;

/// The most width of two pictures that a wide window shows side by side.
const MOST_BESIDE: f64 = 1500.0;

/// Both games side by side where they are small; else the order as a matrix.
pub fn pictures(facts: &Facts) -> Html {
    let (n, m) = (facts.vertices.len(), facts.game.game.size().different);
    match n <= MOST_DRAWN && m <= MOST_DRAWN_EDGES {
        true => drawn(facts),
        false => as_matrix(facts),
    }
}

fn drawn(facts: &Facts) -> Html {
    let said = "Even's vertices are diamonds, Odd's are boxes. The members of a class have its colour, and an edge that the reduced game drops \
                is dashed. A vertex leads to its row.";
    let nodes: Vec<Node> = (0..facts.vertices.len()).map(|vertex| node(facts, vertex)).collect();
    let question = facts.question();
    let edges = question.graph.successors.iter().enumerate();
    let edges = edges.flat_map(|(v, successors)| successors.iter().map(move |&w| (v, w)));
    let edges: Vec<Edge> =
        edges.map(|ends| Edge { ends, is_dashed: facts.dashed.contains(&ends) }).collect();
    let classes: Vec<Node> =
        (0..facts.members.len()).map(|class| class_node(facts, class)).collect();
    let kept = facts.reduced.successors.iter().enumerate();
    let kept = kept.flat_map(|(v, successors)| successors.iter().map(move |&w| (v, w)));
    let kept: Vec<Edge> = kept.map(|ends| Edge { ends, is_dashed: false }).collect();
    let titles = ["The game", "The reduced game"];
    let drawings = [
        picture(titles[0], "arrow-game", &nodes, &edges),
        picture(titles[1], "arrow-reduced", &classes, &kept),
    ];
    let width: f64 = drawings.iter().map(|drawing| drawing.width).sum();
    let class = if width <= MOST_BESIDE { "pictures beside" } else { "pictures" };
    let figures =
        titles.into_iter().zip(drawings).map(|(title, drawing)| figure(title, drawing.html));
    let figures = element("div", &[("class", class)], figures.collect::<Html>());
    Html::from([line("h2", "Picture"), line("p", said), figures])
}

fn figure(caption: &str, drawing: Html) -> Html {
    element("figure", &[], [line("figcaption", caption), scrolled(caption, drawing)])
}

/// The colour of a class that has several members.
fn colour(facts: &Facts, class: usize) -> Option<&'static str> {
    (facts.members[class].len() > 1).then(|| COLOURS[class % COLOURS.len()])
}

fn node(facts: &Facts, vertex: usize) -> Node {
    let (of, class) = (&facts.vertices[vertex], facts.classes[vertex]);
    Node {
        is_even: of.owner == Player::Even,
        lines: [fitting(&of.label), format!("priority {}", of.priority)],
        title: format!(
            "Vertex {}, {}'s, priority {}, class {class}",
            of.label, of.owner, of.priority
        ),
        colour: colour(facts, class),
        anchor: facts.anchor(vertex),
    }
}

fn class_node(facts: &Facts, class: usize) -> Node {
    let (members, is_even) = (&facts.members[class], facts.reduced.evens[class]);
    let lowest = &facts.vertices[members[0]];
    let labels: Vec<&str> = members.iter().map(|&vertex| &*facts.vertices[vertex].label).collect();
    let owner = if is_even { Player::Even } else { Player::Odd };
    let title = format!(
        "Class {class}, {owner}'s, priority {}, with {}",
        lowest.priority,
        labels.join(", ")
    );
    let written = format!("class {class}: {}", labels.join(", "));
    Node {
        is_even,
        lines: [fitting(&written), format!("priority {}", lowest.priority)],
        title,
        colour: colour(facts, class),
        anchor: facts.anchor(members[0]),
    }
}

fn as_matrix(facts: &Facts) -> Html {
    let title = "The order as a matrix";
    let said = format!(
        "The game is too large to be drawn (at most {MOST_DRAWN} vertices and {MOST_DRAWN_EDGES} edges are), so this is its order: a row and a column for each \
         vertex, and the square in the row of v and the column of w is dark if v is below w. Vertices stand by priority, and members of a class \
         side by side: the squares of classes with several members are framed on the diagonal.",
    );
    Html::from([
        line("h2", "Picture"),
        line("p", said),
        element("figure", &[], [line("figcaption", title), matrix(facts, title)]),
    ])
}
