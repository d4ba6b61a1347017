//! Vertices that look alike and aren't merged.

use super::facts::Facts;
use super::html::{line, text, Html};
use super::pairs::Apart;
use super::reasons::{Pair, Reasons};
use super::table::{first_rows, folded, table, Cell, Row};
use super::MOST_DRAWN;

/// The most bytes of the rows.
const MOST: usize = 600_000;

/// The pairs whose reasons are asked for, in both directions.
pub fn pairs(facts: &Facts) -> impl Iterator<Item = Pair> + '_ {
    facts.pairs.pairs().iter().flat_map(|&(v, w)| [(v, w), (w, v)])
}

/// A row for each pair.
pub fn apart(facts: &Facts, reasons: &mut Reasons) -> Html {
    let introduction = match &facts.pairs {
        Apart::Asked(_) => "These pairs were asked for by --pair.".to_string(),
        Apart::Alike(pairs) if pairs.is_empty() => {
            "No two classes have one priority and one owner. Other pairs are shown by --pair V,W.".into()
        }
        Apart::Alike(_) => "These have one priority and one owner, and yet they are in different classes. Each is the lowest vertex of \
                            its class: what holds of it holds of the other members, and they part in the same pass. Other pairs are shown \
                            by --pair V,W."
            .into(),
        Apart::TooMany => format!(
            "All pairs of one priority and one owner are shown for games of up to {MOST_DRAWN} vertices; this one has {}. Name the pairs by \
             --pair V,W.",
            facts.vertices.len()
        ),
    };
    let mut section = Html::from([line("h2", "Vertices that look alike"), line("p", introduction)]);
    let rows = facts.pairs.pairs().iter().map(|&pair| row(facts, reasons, pair));
    let (rows, left_out) = first_rows(rows, MOST);
    if rows.len() > 0 {
        section.push(table(
            "Pairs of vertices",
            &["Vertex", "Other vertex", "What parts them"],
            rows,
        ));
    }
    if left_out > 0 {
        section.push(line("p", format!("{left_out} more pairs are left out, as the page would be too large; name some by --pair V,W.")));
    }
    section
}

fn row(facts: &Facts, reasons: &mut Reasons, (v, w): Pair) -> Html {
    let why = [reasons.of((v, w)), reasons.of((w, v))];
    let cells = vec![
        Cell::vertex(facts, v),
        Cell::vertex(facts, w),
        Cell::words(text(parted(facts, (v, w)))),
    ];
    let beneath = Some(folded("Why, in both directions", why.into()));
    Row { about: &[v, w], anchor: None, cells, beneath }.html(facts)
}

/// What becomes of both directions.
fn parted(facts: &Facts, (v, w): Pair) -> String {
    let question = facts.question();
    match [(v, w), (w, v)].map(|(v, w)| question.passes.pass(v, w)) {
        [None, None] => "nothing: they share a class".into(),
        [one, None] | [None, one] => format!("{}; the other way round they fit", passed(one)),
        [one, other] => format!("{} one way, {} the other way", passed(one), passed(other)),
    }
}

/// The pass that a pair falls in.
fn passed(pass: Option<u32>) -> String {
    match pass {
        Some(0) => "their priorities".into(),
        pass => format!("pass {}", pass.unwrap_or_default()),
    }
}
