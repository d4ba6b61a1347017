//! The winners, as far as they are shown.

use super::facts::Facts;
use super::html::{line, text, Html};
use super::table::{table, Cell, Row};
use super::winners::{At, Shown, Winners};

/// A row for each vertex, if a plan or a solution is given.
pub fn winners(facts: &Facts) -> Html {
    let title = line("h2", "Winners");
    let Some(winners) = &facts.winners else {
        let said = "No plan and no solution is given, so no winner is shown. A plan on the reduced game comes by --plan PLAN --player even or \
                    odd, and a solution of it by --solution FILE.";
        return Html::from([title, line("p", said)]);
    };
    let rows = winners.at.iter().enumerate().map(|(vertex, at)| row(facts, vertex, at));
    let columns = ["Vertex", "Class", "Winner", "How it is known", "Carried plan"];
    let table = table("The winner at each vertex", &columns, rows.collect());
    Html::from([title, line("p", introduction(winners)), table])
}

/// What was judged, and what that shows.
fn introduction(winners: &Winners) -> String {
    let (file, all) = (&winners.words, winners.at.len());
    let shown = winners.at.iter().filter(|at| at.winner.is_some()).count();
    match winners.shown {
        Shown::Plan { player, start } => {
            format!(
                "The plan in {file} is {player}'s, on the reduced game, and starts at class {start}. The proved acceptor passes it, so the verdict \
                 is that {player} wins at the vertices of that class: {shown} of {all}. At the others it shows nothing."
            )
        }
        Shown::Solution => format!(
            "The solution in {file} is one of the reduced game, and the proved check of solutions finds it right where it decides. So the winner \
             that it names at a class wins at every vertex of the class: {shown} of {all} vertices are answered."
        ),
    }
}

fn row(facts: &Facts, vertex: usize, at: &At) -> Html {
    let carried = match &at.carried {
        Ok((positions, links)) => format!("{positions} positions, {links} links"),
        Err(why) => why.clone(),
    };
    let winner = at.winner.map_or("not shown".to_string(), |winner| winner.to_string());
    let cells = vec![
        Cell::vertex(facts, vertex),
        Cell::number(facts.classes[vertex]),
        Cell::words(text(winner)),
        Cell::words(text(&at.known)),
        Cell::words(text(carried)),
    ];
    Row { about: &[vertex], anchor: None, cells, beneath: None }.html(facts)
}
