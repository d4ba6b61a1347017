//! The vertices that another one represents, and those of the reduced game.

use super::facts::Facts;
use super::html::{line, plain, text, Html};
use super::reasons::{Pair, Reasons};
use super::table::{folded, label, listed, named, table, Cell, Row};

/// The pairs whose reasons are asked for: each merged vertex with the one that stands for it, in both directions.
pub fn pairs(facts: &Facts) -> impl Iterator<Item = Pair> + '_ {
    facts.merged().flat_map(|vertex| {
        let lowest = facts.lowest(vertex);
        [(vertex, lowest), (lowest, vertex)]
    })
}

/// A row for each vertex that another one represents.
pub fn merged(facts: &Facts, reasons: &mut Reasons) -> Html {
    let mut section = line("h2", "Merged vertices");
    if facts.merged().next().is_none() {
        section.push(line("p", "No vertex is represented by another."));
        return section;
    }
    section.push(line(
        "p",
        "These have no row in the reduced game: another vertex stands for each. Both are below each other in the order, so the same \
         player wins at both.",
    ));
    let rows = facts.merged().map(|vertex| row(facts, reasons, vertex));
    let columns = ["Vertex", "Stands for it", "Class", "Priority", "Owner"];
    section.push(table("Vertices that another one represents", &columns, rows.collect()));
    section
}

fn row(facts: &Facts, reasons: &mut Reasons, vertex: usize) -> Html {
    let lowest = facts.lowest(vertex);
    let why = [reasons.of((vertex, lowest)), reasons.of((lowest, vertex)), follows(facts, vertex)];
    let cells = vec![
        Cell::vertex(facts, vertex),
        Cell::vertex(facts, lowest),
        Cell::number(facts.classes[vertex]),
        Cell::number(facts.vertices[vertex].priority as usize),
        Cell::words(text(facts.vertices[vertex].owner)),
    ];
    let beneath = Some(folded("Why, in both directions", why.into()));
    Row { about: &[vertex], anchor: Some(facts.anchor(vertex)), cells, beneath }.html(facts)
}

/// What the merging of a vertex means for its winner.
fn follows(facts: &Facts, vertex: usize) -> Html {
    let [lowest, vertex] = [facts.lowest(vertex), vertex].map(|v| label(&facts.vertices[v].label));
    plain("p", [text("So whoever wins at "), lowest, text(" wins at "), vertex, text(".")])
}

/// A row for each vertex of the reduced game.
pub fn classes(facts: &Facts) -> Html {
    let rows = facts.members.iter().enumerate().map(|(class, members)| {
        let cells = vec![
            Cell::number(class),
            Cell::words(named(facts, members[0])),
            Cell::words(listed(facts, &members[1..])),
            Cell::number(facts.reduced.successors[class].len()),
        ];
        Row { about: members, anchor: Some(facts.anchor(members[0])), cells, beneath: None }
            .html(facts)
    });
    let columns = ["Class", "Lowest vertex", "Other members", "Edges"];
    Html::from([
        line("h2", "Vertices of the reduced game"),
        line(
            "p",
            "A class is a vertex of the reduced game. Its lowest member stands for all of them.",
        ),
        table("The vertices of the reduced game", &columns, rows.collect()),
    ])
}
