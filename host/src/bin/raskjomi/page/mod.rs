//! The command that writes one page on a game and its reduced game: who is merged with whom and why, which edges are dropped, who wins.

mod acyclic;
mod apart;
mod check;
mod dropped;
mod facts;
mod html;
mod layout;
mod matrix;
mod merged;
mod pairs;
mod picture;
mod reasons;
#[path = "../../../../archives/sha256.rs"]
mod sha256;
mod summary;
mod svg;
mod table;
mod winners;
mod won;

use crate::arguments::Arguments;
use crate::commands::Written;
use crate::failure::Failure;
use crate::help::{Command, Opt, FORCE};
use crate::progress::watched;
use facts::Facts;
use html::{element, included, line, policy_hash, text, Html};
use reasons::{Pair, Reasons};

/// It comes after the commands about other tools' files.
pub const COMMANDS: [Command; 1] = [Command {
    name: "page",
    usage: "page GAME [--plan PLAN --player even|odd | --solution FILE] [--pair V,W ..] [--force]",
    summary: "one HTML page on a game: merged vertices, dropped edges, reasons, winners, a picture",
    details: "The page needs no network, no other file and no script; scripts add search, sorting and folding. It says which vertices are merged and \
              why in both directions, which edges are dropped, what parts vertices that look alike, or those of --pair, and how to check all \
              that. PLAN is a plan on the reduced game, as for `verdict`, and FILE a solution of it, as for `winners`: the page then says \
              who wins at each vertex, as far as it is shown. With -o FILE the page is written whole or not at all, and never over a file \
              unless --force says so.",
    example: "./raskjomi page games/lift-doors.txt --solution games/lift-doors.sol",
    files: 1..=1,
    options: &[
        Opt { name: "--plan", value: Some("a file") },
        Opt { name: "--player", value: Some("even or odd") },
        Opt { name: "--solution", value: Some("a file") },
        Opt { name: pairs::PAIR, value: Some("two vertices") },
        Opt { name: FORCE, value: None },
    ],
    run: page,
}];

/// The most vertices and edges of a game that is drawn, and of which all vertices that look alike are compared.
const MOST_DRAWN: usize = 60;
const MOST_DRAWN_EDGES: usize = 240;

/// The most bytes of a page, but where the rows alone take more.
const MOST_BYTES: usize = 4_900_000;

const STYLE: &str = include_str!("style.css");
const SCRIPT: &str = include_str!("script.js");

/// A section, by its anchor and its title in the contents.
type Section = (&'static str, &'static str, Html);

/// `page`.
fn page(arguments: &Arguments) -> Written {
    if arguments.has(FORCE) && arguments.output().is_none() {
        return Err(Failure::usage(
            "page: --force is for a file that is there; write -o FILE --force",
        ));
    }
    let facts = Facts::gather(arguments).map_err(Failure::without_output)?;
    Ok(watched("the page", || written(&facts)).into())
}

/// The page, with as many reasons as there is room for.
fn written(facts: &Facts) -> String {
    let asked: Vec<Pair> =
        merged::pairs(facts).chain(dropped::pairs(facts)).chain(apart::pairs(facts)).collect();
    let bare = whole(facts, Reasons::none(facts)).len();
    let room = MOST_BYTES.saturating_sub(bare);
    whole(facts, Reasons::new(facts, &asked, room)).page()
}

/// The whole page, with these reasons.
fn whole(facts: &Facts, mut reasons: Reasons) -> Html {
    let sections = sections(facts, &mut reasons);
    let contents = sections.iter().map(|(anchor, title, _)| (*anchor, *title)).collect();
    let section = |(anchor, _, content): Section| element("section", &[("id", anchor)], content);
    let main = sections.into_iter().map(section).collect::<Html>();
    let body = [
        element(
            "a",
            &[("class", "skip"), ("href", "#merged")],
            text("Skip to the merged vertices"),
        ),
        summary::header(facts, &contents),
        tools(),
        element("main", &[], main),
        included("script", SCRIPT),
    ];
    element("html", &[("lang", "en")], [head(facts), element("body", &[], body)])
}

fn sections(facts: &Facts, reasons: &mut Reasons) -> Vec<Section> {
    let mut sections = vec![
        ("summary", "Summary", summary::summary(facts)),
        ("merged", "Merged vertices", merged::merged(facts, reasons)),
        ("classes", "Vertices of the reduced game", merged::classes(facts)),
        ("dropped", "Dropped edges", dropped::dropped(facts, reasons)),
        ("apart", "Vertices that look alike", apart::apart(facts, reasons)),
        ("winners", "Winners", won::winners(facts)),
        ("picture", "Picture", picture::pictures(facts)),
    ];
    let rest = reasons.rest();
    if !rest.is_empty() {
        let title = "Further reasons";
        let said = "Those of the pairs that the reasons above name, and so on.";
        let list = element("ul", &[("class", "further")], rest.into_iter().collect::<Html>());
        sections.push(("reasons", title, Html::from([line("h2", title), line("p", said), list])));
    }
    sections.push(("check", "How to check this page", check::check(facts)));
    sections
}

/// The head, with a policy under which no script but the page's own runs, and nothing is loaded.
fn head(facts: &Facts) -> Html {
    let policy = format!(
        "default-src 'none'; style-src {}; script-src {}; base-uri 'none'; form-action 'none'",
        policy_hash(STYLE),
        policy_hash(SCRIPT)
    );
    let meta = |name, value, content: &str| {
        element("meta", &[(name, value), ("content", content)], Html::default())
    };
    let parts = [
        element("meta", &[("charset", "utf-8")], Html::default()),
        meta("http-equiv", "Content-Security-Policy", &policy),
        meta("name", "viewport", "width=device-width, initial-scale=1"),
        meta("name", "color-scheme", "light dark"),
        line("title", format!("Reduction of {}", facts.file.name)),
        included("style", STYLE),
    ];
    element("head", &[], parts)
}

/// Search and folding, which the script shows.
fn tools() -> Html {
    let button = |id, title| element("button", &[("type", "button"), ("id", id)], text(title));
    let input = element(
        "input",
        &[("type", "search"), ("id", "find"), ("autocomplete", "off")],
        Html::default(),
    );
    let parts = [
        element("label", &[("for", "find")], text("Find a vertex by number or name")),
        input,
        button("open", "Open all reasons"),
        button("close", "Close all"),
        element("span", &[("id", "found"), ("role", "status")], Html::default()),
    ];
    element("form", &[("id", "tools"), ("role", "search"), ("hidden", "hidden")], parts)
}
