//! Outputs as decimal text, which the commands read back.

use raskjomi::formats::{Part, Vertices};
use raskjomi::{members, Order, Plan, Player};
use std::collections::BTreeSet;
use std::fmt::Write;

/// The class of each vertex of a large game.
pub fn class_list(classes: &[u32]) -> String {
    format!("# the class of each vertex\n{}", Part("from vertex 0 on", classes))
}

/// A line for a vertex that another one represents.
pub fn merged(vertex: &str, class: u32, lowest: &str) -> String {
    format!("vertex {vertex}: class {class}, represented by vertex {lowest}\n")
}

/// What is said where no vertex is.
pub const NONE_MERGED: &str = "no vertex is represented by another\n";

/// The word for so many.
pub fn plural(count: usize, one: &'static str, several: &'static str) -> &'static str {
    if count == 1 {
        one
    } else {
        several
    }
}

/// A plan under a sentence and what its vertices are called.
pub fn plan(sentence: &str, plan: &Plan, names: &Vertices) -> String {
    let all: BTreeSet<usize> = plan.positions().iter().map(|&vertex| vertex.into()).collect();
    format!("# {sentence}{}\n{plan}", names.comments(all))
}

/// The marks under a title, a row for each vertex.
pub fn marks(title: &str, order: &Order) -> String {
    format!("# {title}; passes {}\n{order}", order.passes)
}

/// What a mark says: in the order, and in the largest governed bisimulation.
pub const ORDER: &str = "order: row v, column w is 1 if v is below w";
pub const GOVERNED: &str = "governed: row v, column w is 1 if v and w are bisimilar";

/// The class of each vertex, under the members of each class.
pub fn classes(classes: &[u16], vertices: &Vertices) -> String {
    let mut text = format!("# classes {}\n", members(classes).len());
    for (class, members) in members(classes).iter().enumerate() {
        writeln!(text, "# class {class}: {}", vertices.listed(members))
            .expect("a string takes all");
    }
    text + &Part("the class of each vertex", classes).to_string()
}

/// The class of each vertex, as comments.
pub fn class_comments(classes: &[u16], vertices: &Vertices) -> String {
    let line = |(vertex, class)| format!("# vertex {}: class {class}\n", vertices.label(vertex));
    classes.iter().enumerate().map(line).collect()
}

/// The number of classes before and after, and the vertices whose company in their class changes.
pub fn changes(before: &[u16], after: &[u16], vertices: &Vertices) -> String {
    let (old, new) = (members(before), members(after));
    let mut text = format!("classes {} before, {} after\n", old.len(), new.len());
    let company = |members: &[Vec<usize>], classes: &[u16], vertex: usize| {
        let mut others = members[classes[vertex] as usize].clone();
        others.retain(|&other| other != vertex);
        others
    };
    let named = |others: &[usize]| match others {
        [] => "alone".to_string(),
        _ => format!("with {}", vertices.listed(others)),
    };
    for vertex in 0..before.len() {
        let (was, is) = (company(&old, before, vertex), company(&new, after, vertex));
        if was != is {
            let (label, was, is) = (vertices.label(vertex), named(&was), named(&is));
            writeln!(text, "vertex {label}: {was} before, {is} after").expect("a string takes all");
        }
    }
    text
}

/// The number of classes before and after, and the vertices that would part or merge: those of a class
/// that falls apart, or of one that comes from several, in the groups that they have in the other.
pub fn preview(before: &[u16], after: &[u16], vertices: &Vertices) -> String {
    let (old, new) = (members(before), members(after));
    let mut text = format!("classes {} before, {} after\n", old.len(), new.len());
    let lines = [("would part", &old, after), ("would merge", &new, before)];
    for (name, classes, other) in lines {
        for members in classes {
            let groups = grouped(members, other);
            if groups.len() > 1 {
                let groups: Vec<String> =
                    groups.iter().map(|group| vertices.listed(group)).collect();
                writeln!(text, "{name}: {}", groups.join(" | ")).expect("a string takes all");
            }
        }
    }
    if text.lines().count() == 1 {
        text += "no vertices would part or merge\n";
    }
    text
}

/// The vertices by their classes, each group where its first vertex stands.
fn grouped(vertices: &[usize], classes: &[u16]) -> Vec<Vec<usize>> {
    let mut groups: Vec<Vec<usize>> = Vec::new();
    for &vertex in vertices {
        match groups.iter_mut().find(|group| classes[group[0]] == classes[vertex]) {
            Some(group) => group.push(vertex),
            None => groups.push(vec![vertex]),
        }
    }
    groups
}

/// What a player's plan that starts at a class of the reduced game shows of a vertex in a class.
pub fn verdict(player: Player, start: u16, vertex: &str, class: u16) -> String {
    let passes = format!("the plan wins for {player} from class {start} of the reduced game");
    match start == class {
        true => format!(
            "wins: {player} wins at vertex {vertex}, as {passes}, which is the class of vertex {vertex}."
        ),
        false => format!(
            "not shown: {passes}, but vertex {vertex} is in class {class}. This doesn't mean that {player} loses at \
             vertex {vertex}, or that the other player wins there: a plan that starts at class {class} may \
             still show either."
        ),
    }
}
