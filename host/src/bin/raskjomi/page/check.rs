//! How to check the page: the commands that give each part again, and the fingerprint of the file.

use super::facts::Facts;
use super::html::{element, line, plain, text, Html};
use super::winners::Shown;

/// The commands, and the fingerprint.
pub fn check(facts: &Facts) -> Html {
    let row = |(part, command): (&str, String)| {
        let heading = element("th", &[("scope", "row")], text(part));
        plain("tr", [heading, plain("td", line("code", format!("raskjomi {command}")))])
    };
    let head = ["Part", "Command"].map(|title| element("th", &[("scope", "col")], text(title)));
    let rows = commands(facts).into_iter().map(row).collect::<Html>();
    let caption = line("caption", "The commands that give each part again");
    let table = plain("table", [caption, plain("thead", plain("tr", head)), plain("tbody", rows)]);
    let file = &facts.file;
    Html::from([
        line("h2", "How to check this page"),
        table,
        plain(
            "p",
            [
                text(format!(
                    "SHA-256 (FIPS 180-4) of the {} bytes of the input file: ",
                    file.bytes
                )),
                element("code", &[("id", "fingerprint")], text(&file.fingerprint)),
                text(". "),
                line("code", format!("sha256sum {}", file.path)),
                text(" gives it again."),
            ],
        ),
    ])
}

fn commands(facts: &Facts) -> Vec<(&'static str, String)> {
    let game = &facts.file.words;
    let mut commands = vec![
        ("Sizes and classes", format!("report {game}")),
        ("Merged vertices", format!("merged {game}")),
        ("A reason", format!("why {game} V W")),
        ("Dropped edges", format!("dropped {game}")),
        ("The reduced game", format!("reduce {game}")),
        ("The order", format!("order {game}")),
        ("Pictures", format!("dot {game}")),
    ];
    let Some(winners) = &facts.winners else { return commands };
    let file = &winners.words;
    match winners.shown {
        Shown::Plan { player, .. } => {
            let player = player.to_string().to_lowercase();
            let options = format!("{game} {file} --player {player} --vertex V");
            commands.push(("A winner", format!("verdict {options}")));
            commands.push(("A carried plan", format!("carry --class {options}")));
        }
        Shown::Solution => commands.extend([
            ("The winners", format!("winners {game} {file}")),
            ("The reduced game, in a file", format!("reduce {game} --as pgsolver -o REDUCED")),
            ("The plan of a class", format!("plan REDUCED {file} --vertex CLASS -o PLAN")),
            ("A carried plan", format!("carry --class {game} PLAN --player WINNER --vertex V")),
        ]),
    }
    commands
}
