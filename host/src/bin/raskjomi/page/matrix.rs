//! The order as a matrix, with the members of a class side by side.

use super::facts::Facts;
use super::html::{element, line, Html};
use std::fmt::Write;

/// The lengths of runs that one row of classes has: where it begins, and how many columns it goes on.
type Runs = Vec<(usize, usize)>;

/// The matrix: the square in row v and column w is dark if v is below w.
pub fn matrix(facts: &Facts, title: &str) -> Html {
    let classes = sorted(facts);
    let mut marks = String::new();
    let mut top = 0;
    for &row in &classes {
        let height = facts.members[row].len();
        for (left, width) in runs(facts, &classes, row) {
            write!(marks, "M{left} {top}h{width}v{height}h-{width}z").expect("a string takes all");
        }
        top += height;
    }
    let n = top.to_string();
    let view = format!("0 0 {n} {n}");
    let back = [("class", "unmarked"), ("width", &n), ("height", &n)];
    let content = [
        line("title", title),
        element("rect", &back, Html::default()),
        element("path", &[("class", "marked"), ("d", &marks)], Html::default()),
        element("path", &[("class", "classes"), ("d", &blocks(facts, &classes))], Html::default()),
    ];
    let attributes =
        [("role", "img"), ("aria-label", title), ("viewBox", &view), ("class", "matrix")];
    element("svg", &attributes, content)
}

/// The classes by priority, and a class before those that it is below.
fn sorted(facts: &Facts) -> Vec<usize> {
    let mut classes: Vec<usize> = (0..facts.members.len()).collect();
    let above =
        |class: usize| classes.iter().filter(|&&other| is_below(facts, class, other)).count();
    let keys: Vec<(u32, usize)> = classes
        .iter()
        .map(|&class| {
            (facts.vertices[facts.members[class][0]].priority, facts.members.len() - above(class))
        })
        .collect();
    classes.sort_by_key(|&class| (keys[class], class));
    classes
}

/// Whether a class is below another.
fn is_below(facts: &Facts, class: usize, other: usize) -> bool {
    facts.question().is_below(facts.members[class][0], facts.members[other][0])
}

/// The runs of classes that a class is below, in columns.
fn runs(facts: &Facts, classes: &[usize], row: usize) -> Runs {
    let (mut runs, mut left) = (Runs::new(), 0);
    for &column in classes {
        let width = facts.members[column].len();
        if is_below(facts, row, column) {
            match runs.last_mut() {
                Some((start, length)) if *start + *length == left => *length += width,
                _ => runs.push((left, width)),
            }
        }
        left += width;
    }
    runs
}

/// The squares of the classes that have several members.
fn blocks(facts: &Facts, classes: &[usize]) -> String {
    let (mut blocks, mut left) = (String::new(), 0);
    for &class in classes {
        let width = facts.members[class].len();
        if width > 1 {
            write!(blocks, "M{left} {left}h{width}v{width}h-{width}z").expect("a string takes all");
        }
        left += width;
    }
    blocks
}
