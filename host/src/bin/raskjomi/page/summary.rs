//! The top of the page: the game, what becomes of it, what is proved, and what made the page.

use super::facts::Facts;
use super::html::{element, line, link, plain, text, Html};
use crate::check_solution::grouped;
use crate::help;
use crate::text::plural;
use raskjomi::Player;
use std::collections::BTreeSet;

/// The sections, by their anchors and titles, as the contents list them.
pub type Contents = Vec<(&'static str, &'static str)>;

/// The title, the contents and the numbers.
pub fn header(facts: &Facts, contents: &Contents) -> Html {
    let item = |(anchor, title): &(&str, &str)| plain("li", link(anchor, text(title)));
    let list = plain("ul", contents.iter().map(item).collect::<Html>());
    let nav = element("nav", &[("aria-label", "Contents")], list);
    let title = plain("h1", [text("Reduction of "), line("bdi", &facts.file.name)]);
    element("header", &[], [title, nav])
}

/// The numbers, the proved sentence and the versions.
pub fn summary(facts: &Facts) -> Html {
    Html::from([line("h2", "Summary"), numbers(facts), proved(), rests_on()])
}

fn numbers(facts: &Facts) -> Html {
    let row = |(title, value): (&str, String)| {
        let heading = element("th", &[("scope", "row")], text(title));
        plain("tr", [heading, plain("td", line("bdi", value))])
    };
    let rows = rows(facts).into_iter().map(row).collect::<Html>();
    let caption = line("caption", "The game and its reduced game");
    element("table", &[("class", "numbers")], [caption, plain("tbody", rows)])
}

/// What is counted, each with its title.
fn rows(facts: &Facts) -> [(&'static str, String); 8] {
    let (size, file) = (facts.game.game.size(), &facts.file);
    let evens = facts.vertices.iter().filter(|vertex| vertex.owner == Player::Even).count();
    let reduced = [count(facts.members.len(), VERTICES), count(facts.reduced_edges(), EDGES)];
    let merged = count(facts.merged().count(), VERTICES);
    let copies = match size.edges - size.different {
        0 => String::new(),
        copies => format!(", and {copies} more that stand in the file again"),
    };
    let game = [count(size.vertices, VERTICES), count(size.different, EDGES)].join(", ");
    [
        ("File", format!("{}, {} bytes, {}", file.name, grouped(file.bytes), file.format)),
        ("Game", game + &copies),
        ("Owners", format!("Even has {evens} of the vertices, Odd {}", size.vertices - evens)),
        ("Priorities", priorities(facts)),
        ("Convention", file.decides.clone()),
        ("Reduced game", reduced.join(", ")),
        ("Merged", format!("{merged} that another one represents")),
        ("Dropped", dropped(facts)),
    ]
}

/// How many priorities there are, and the least and the highest.
fn priorities(facts: &Facts) -> String {
    let priorities: BTreeSet<u32> = facts.vertices.iter().map(|vertex| vertex.priority).collect();
    let ends = [priorities.first(), priorities.last()].map(|end| end.copied().unwrap_or_default());
    format!("{} different, from {} to {}", priorities.len(), ends[0], ends[1])
}

/// How many edges are dropped between classes, and how many of the game's edges have none in the reduced game.
fn dropped(facts: &Facts) -> String {
    let (classes, edges) = (facts.dropped.len(), facts.dashed.len());
    format!(
        "{} between classes; {} of the game {} none in the reduced game",
        count(classes, EDGES),
        count(edges, EDGES),
        plural(edges, "has", "have")
    )
}

/// The words for one and for several.
pub const VERTICES: [&str; 2] = ["vertex", "vertices"];
pub const EDGES: [&str; 2] = ["edge", "edges"];

/// A number of things.
pub fn count(number: usize, [one, several]: [&'static str; 2]) -> String {
    format!("{number} {}", plural(number, one, several))
}

fn proved() -> Html {
    let said = "It is proved that a player wins from a vertex of the game exactly if that player wins from the vertex's class in the reduced \
                game, and that no game equivalent to this one by direct simulation has fewer vertices or edges than the reduced game.";
    element("p", &[("class", "proved")], text(said))
}

fn rests_on() -> Html {
    let version = help::version().trim_end().replace('\n', ", ");
    let kit = option_env!("RASKJOMI_KIT").unwrap_or("a toolchain that this build isn't told");
    Html::from([
        line(
            "p",
            "This rests on the definitions and on the toolchain that docs/TRUST.md names. The order, the classes and the reduced game come from \
             the proved library. The sentences on this page are worked out by the program, which isn't proved, and are held to the proved order \
             before they are written; the compiled archive and its boundary to the program are tested, and not proved.",
        ),
        plain("p", [
            text("This page was made by "),
            line("code", version),
            text("; the proofs are those of "),
            line("code", kit),
            text("."),
        ]),
    ])
}
