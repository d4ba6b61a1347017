//! The page on a game: its structure, and that it says what the commands print.

use crate::html::{parse, Element};
use crate::run::{bytes, file, numbers, run, run_on, shipped};
use generator::{any_game, small_games, solve, Lcg, Table};
use std::collections::HashSet;
use std::fs;

/// The page that the words give, which is as pages have to be.
pub fn page(words: &[&str]) -> Element {
    let page = parse(&run(&[&["page"], words].concat()).text());
    hold_links(&page);
    hold_headings(&page);
    page
}

/// Each link leads to a place of the page, nothing is loaded, and nothing but the page's own script runs.
fn hold_links(page: &Element) {
    let all = page.all();
    let ids: Vec<&str> = all.iter().filter_map(|element| element.attribute("id")).collect();
    let set: HashSet<&str> = ids.iter().copied().collect();
    assert_eq!(ids.len(), set.len(), "each id once");
    let is_there = |target: Option<&str>| target.is_some_and(|target| set.contains(target));
    for (key, value) in all.iter().flat_map(|element| &element.attributes) {
        let target = match &**key {
            "href" => value.strip_prefix('#'),
            "marker-end" => value.strip_prefix("url(#").and_then(|rest| rest.strip_suffix(')')),
            "for" => Some(&**value),
            _ => {
                assert!(
                    !["src", "style", "action"].contains(&&**key) && !key.starts_with("on"),
                    "{key}"
                );
                continue;
            }
        };
        assert!(is_there(target), "{key}={value} leads nowhere");
    }
    let own: Vec<&&Element> =
        all.iter().filter(|part| ["script", "style"].contains(&&*part.name)).collect();
    assert_eq!(own.len(), 2, "one script and one style");
    for part in own {
        assert!(!["http", "//", "@import", "url("].iter().any(|mark| part.text().contains(mark)));
    }
}

/// Headings are in order, and tables have captions and headers.
fn hold_headings(page: &Element) {
    let names: Vec<&str> = page.all().iter().map(|element| &*element.name).collect();
    let headings: Vec<&&str> =
        names.iter().filter(|name| ["h1", "h2", "h3"].contains(name)).collect();
    assert!(
        *headings[0] == "h1" && headings[1..].iter().all(|name| **name == "h2"),
        "{headings:?}"
    );
    for section in page.named("section") {
        assert_eq!(section.named("h2").len(), 1, "{:?}", section.attribute("id"));
    }
    for table in page.named("table") {
        assert_eq!(table.named("caption").len(), 1, "each table has a caption");
        assert!(table.named("th").iter().all(|heading| heading.attribute("scope").is_some()));
        assert!(!table.named("th").is_empty());
    }
    assert_eq!(page.attribute("lang"), Some("en"));
}

/// The texts of a row's cells, but those beneath it.
pub fn cells(row: &Element) -> Vec<String> {
    let cells =
        row.named("tr")[0].all().into_iter().filter(|cell| ["th", "td"].contains(&&*cell.name));
    cells.map(Element::text).collect()
}

/// The rows of a section's table.
pub fn rows<'a>(page: &'a Element, section: &str) -> Vec<&'a Element> {
    let section = page.id(section).expect("a section");
    section.named("tbody").into_iter().filter(|row| row.attribute("data-ids").is_some()).collect()
}

/// The shipped games, all that are small, some of three vertices, and random ones.
pub fn games() -> Vec<Vec<u16>> {
    let mut games: Vec<Vec<u16>> =
        ["b.txt", "c.txt", "d.txt", "lift-doors.txt"].map(shipped).into();
    let has_moves = |table: &Table| {
        (0..table.n()).all(|v| table.edges.iter().any(|edge| usize::from(edge.0) == v))
    };
    let small =
        [1, 2].into_iter().flat_map(small_games).chain(small_games(3).into_iter().step_by(97));
    games.extend(small.filter(has_moves).map(|table| table.words()));
    let mut lcg = Lcg::new(43);
    games.extend([4, 7, 12, 20].repeat(3).into_iter().map(|most| any_game(&mut lcg, most).words()));
    games
}

#[test]
fn rows_are_what_merged_prints() {
    for game in games() {
        let path = file("page-merged.bin", &bytes(&game));
        let page = page(&[&path]);
        let row = |row: &&Element| {
            let cells = cells(row);
            assert_eq!(row.attribute("id"), Some(&*format!("vertex-{}", cells[0])));
            let follows = format!("So whoever wins at {} wins at {}.", cells[1], cells[0]);
            assert!(row.text().ends_with(&follows), "{}", row.text());
            format!("vertex {}: class {}, represented by vertex {}\n", cells[0], cells[2], cells[1])
        };
        let told: String = rows(&page, "merged").iter().map(row).collect();
        let printed = run(&["merged", &path]).text();
        match told.is_empty() {
            true => assert!(printed.starts_with("no vertex is represented"), "{printed}"),
            false => assert_eq!(told, printed),
        }
        for vertex in 0..game[0] {
            assert!(page.id(&format!("vertex-{vertex}")).is_some(), "each vertex has its anchor");
        }
    }
}

#[test]
fn sizes_are_what_report_prints() {
    for game in games() {
        let path = file("page-sizes.bin", &bytes(&game));
        let (page, report) = (page(&[&path]), run(&["report", &path]).text());
        let summary = page.id("summary").expect("a summary").text();
        let numbers = |line: &str| -> Vec<usize> {
            let line = report.lines().find(|told| told.starts_with(line)).expect("a line");
            line.split(' ').skip(1).map(|number| number.parse().expect("a number")).collect()
        };
        for (title, line) in [("Game", "game"), ("Reduced game", "reduced")] {
            let numbers = numbers(line);
            let [vertices, edges] =
                [(0, ["vertex", "vertices"]), (1, ["edge", "edges"])].map(|(i, words)| {
                    format!("{} {}", numbers[i], words[usize::from(numbers[i] != 1)])
                });
            assert!(summary.contains(&format!("{title}{vertices}, {edges}")), "{summary}");
        }
        assert_eq!(rows(&page, "classes").len(), numbers("classes")[0]);
    }
}

/// The plan of a solved game's winner from vertex 0, and the whole solution, on the reduced game.
fn solved(game: &str) -> (String, String, &'static str) {
    let words = numbers(&run(&["reduce", game, "--as", "text"]).text());
    let (table, path) = (Table::from_words(&words), file("page-reduced.bin", &bytes(&words)));
    let solution = solve(&table);
    let line = |v: usize| match table.owners[v] == solution.winner[v] {
        true => format!("{v} {} {};\n", solution.winner[v], solution.choice[v]),
        false => format!("{v} {};\n", solution.winner[v]),
    };
    let lines: String = (0..table.n()).map(line).collect();
    let solution_path =
        file("page.sol", format!("paritysol {};\n{lines}", table.n() - 1).as_bytes());
    let plan = run(&["plan", &path, &solution_path, "--vertex", "0"]).bytes();
    (file("page.plan", &plan), solution_path, ["even", "odd"][usize::from(solution.winner[0] == 1)])
}

#[test]
fn winners_are_what_verdict_and_winners_print() {
    for game in games().into_iter().step_by(3) {
        let path = file("page-won.bin", &bytes(&game));
        let (plan, solution, player) = solved(&path);
        let by_plan = page(&[&path, "--plan", &plan, "--player", player]);
        for row in rows(&by_plan, "winners") {
            let cells = cells(row);
            let options = ["--player", player, "--vertex", &cells[0]];
            let ran = run(&[&["verdict", &path, &plan], &options[..]].concat());
            assert_eq!(format!("{}\n", cells[3]), String::from_utf8(ran.out).expect("text"));
            assert_eq!(cells[2] == "not shown", ran.status == 4);
            if ran.status == 0 {
                assert_eq!(cells[2].to_lowercase(), player);
                let carried =
                    run(&[&["carry", "--class", &path, &plan], &options[..]].concat()).text();
                let sizes = numbers(&carried);
                assert_eq!(cells[4], format!("{} positions, {} links", sizes[0], sizes[1]));
            }
        }
        let by_solution = hold_winners(&path, &solution);
        for (one, other) in rows(&by_plan, "winners").into_iter().zip(rows(&by_solution, "winners"))
        {
            let [one, other] = [one, other].map(cells);
            assert!(one[4].is_empty() || one[4] == other[4], "the plan is that of the solution");
        }
        // And by a solution that leaves out the last class.
        let text = fs::read_to_string(&solution).expect("a solution");
        let (part, _) = text.trim_end().rsplit_once('\n').expect("lines");
        hold_winners(&path, &file("page-part.sol", format!("{part}\n").as_bytes()));
    }
}

/// The winners by a solution, or why they aren't shown, are what `winners` prints.
fn hold_winners(game: &str, solution: &str) -> Element {
    let page = page(&[game, "--solution", solution]);
    let line = |row: &&Element| {
        let cells = cells(row);
        assert!(cells[3].starts_with(&cells[2]), "{cells:?}");
        assert_eq!(cells[2] == "not shown", cells[4].is_empty(), "a shown winner has a plan");
        format!("vertex {}: {}\n", cells[0], cells[3])
    };
    let lines: String = rows(&page, "winners").iter().map(line).collect();
    let printed = String::from_utf8(run(&["winners", game, solution]).out).expect("text");
    assert_eq!(lines, printed.split_once('\n').expect("a first line").1);
    page
}

#[test]
fn a_wrong_solution_or_plan_gives_no_page() {
    let wrong = file("page-wrong.sol", b"paritysol 6; 0 1 0; 1 1 2; 2 1; 3 1; 4 1; 5 1 0; 6 1 0;");
    let game = "games/lift-doors.txt";
    let told = run(&["winners", game, &wrong]).err;
    assert_eq!(run(&["page", game, "--solution", &wrong]).fails(1, &[]), "");
    assert_eq!(run(&["page", game, "--solution", &wrong]).err, told, "as winners says it");
    let plan = "games/lift-doors.plan.txt";
    let words = [game, plan, "--player", "even"];
    let told = run(&[&["verdict"], &words[..], &["--vertex", "0"]].concat()).err;
    let ran = run(&["page", game, "--plan", plan, "--player", "even"]);
    assert_eq!((ran.status, ran.out.len(), ran.err), (1, 0, told), "as verdict says it");
}

#[test]
fn games_are_refused_as_by_the_other_commands() {
    for game in ["games/none.txt", "games/lift-doors.sol", "/dev/null"] {
        let [page, reduce] = ["page", "order"].map(|command| run(&[command, game]));
        assert_eq!(
            (page.status, page.err, page.out.len()),
            (reduce.status, reduce.err, 0),
            "{game}"
        );
    }
    let large = format!("513 513 {}", "0 ".repeat(4 * 513));
    let [page, order] = ["page", "order"].map(|command| run_on(&[command, "-"], large.as_bytes()));
    assert_eq!((page.status, page.err), (order.status, order.err));
}
