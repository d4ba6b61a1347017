//! The edges that the reduced game doesn't have.

use super::facts::{Alone, Facts};
use super::html::{line, plain, text, Html};
use super::reasons::{Pair, Reasons};
use super::table::{first_rows, folded, label, table, Cell, Row};
use crate::dropped::Dropped;

/// The most bytes of the rows of a table.
const MOST: usize = 700_000;

/// The pairs whose reasons are asked for: those that say that another edge serves as well.
pub fn pairs(facts: &Facts) -> impl Iterator<Item = Pair> + '_ {
    let dropped = facts.dropped.iter().map(|edge| (edge.reason.v, edge.reason.w));
    dropped.chain(facts.alone.iter().map(|edge| edge.pair))
}

/// A row for each edge between classes that is dropped, and for each edge of the game that the quotient doesn't have, either.
pub fn dropped(facts: &Facts, reasons: &mut Reasons) -> Html {
    let mut section = line("h2", "Dropped edges");
    if facts.dropped.is_empty() && facts.alone.is_empty() {
        section.push(line("p", "No edge is dropped."));
    }
    if !facts.dropped.is_empty() {
        section.push(line(
            "p",
            "The reduced game has no row for these edges between classes, as another edge out of the class serves its owner at least as well.",
        ));
        let rows = facts.dropped.iter().map(|edge| between(facts, reasons, edge));
        let columns = ["Edge", "Serves better", "Why"];
        section.push(first(facts, "Edges between classes that are dropped", &columns, rows));
    }
    if !facts.alone.is_empty() {
        section.push(line(
            "p",
            "These edges of the game lead to a class that another member of their source's class has no edge to: that member needs none, and \
             neither does the source, as another move of its own serves as well.",
        ));
        let rows = facts.alone.iter().map(|edge| alone(facts, reasons, edge));
        let columns = ["From", "To", "Serves better"];
        section.push(first(facts, "Edges of single members", &columns, rows));
    }
    section
}

/// The rows that there is room for, and how many are left out.
fn first(facts: &Facts, caption: &str, columns: &[&str], rows: impl Iterator<Item = Html>) -> Html {
    let (rows, left_out) = first_rows(rows, MOST);
    let mut shown = table(caption, columns, rows);
    if left_out > 0 {
        let command = line("code", format!("raskjomi dropped {}", facts.file.words));
        let said = format!(
            "{left_out} more edges have no room on this page; those between classes are given by "
        );
        shown.push(plain("p", [text(said), command]));
    }
    shown
}

/// An edge between classes, as `dropped` says it.
fn between(facts: &Facts, reasons: &mut Reasons, edge: &Dropped) -> Html {
    let name = |class: usize| facts.class_names.label(class);
    let arrow = |target: usize| label(&format!("{} -> {}", name(edge.source), name(target)));
    let cells = vec![
        Cell::words(arrow(edge.target)),
        Cell::words(arrow(edge.better)),
        Cell::words(label(&edge.sentence(&facts.class_names))),
    ];
    let ends = [edge.source, edge.target, edge.better].map(|class| facts.members[class][0]);
    row(facts, reasons, &ends, cells, (edge.reason.v, edge.reason.w))
}

/// An edge of the game that only some members of the class have.
fn alone(facts: &Facts, reasons: &mut Reasons, edge: &Alone) -> Html {
    let ends = [edge.source, edge.target, edge.better];
    let cells = ends.map(|vertex| Cell::vertex(facts, vertex)).into();
    row(facts, reasons, &ends, cells, edge.pair)
}

fn row(
    facts: &Facts,
    reasons: &mut Reasons,
    about: &[usize],
    cells: Vec<Cell>,
    pair: Pair,
) -> Html {
    let beneath = Some(folded("Why", reasons.of(pair)));
    Row { about, anchor: None, cells, beneath }.html(facts)
}
