//! Values as JSON: they say what the text says, and docs/JSON.md shows each of them.

use crate::parsed::Json;
use crate::run::{bytes, file, numbers, run, run_on, shipped, words};
use crate::workflow::printed;
use crate::{common::commands, common::root, large_reductions::path};
use generator::{any_game, Lcg};
use std::collections::BTreeSet;
use std::fs;

/// Standard output of a run that succeeds, whatever it tells.
fn out(words: &[&str]) -> String {
    let ran = run(words);
    assert_eq!(ran.status, 0, "{words:?} {ran:?}");
    String::from_utf8(ran.out).expect("text")
}

/// The value that a command line with --json writes.
fn json(words: &[&str]) -> Json {
    Json::parse(&out(&[words, &["--json"]].concat()))
}

/// The sentences of a value of `why`, as the text has them.
fn told(value: &Json) -> String {
    let mut text = String::new();
    for answer in value.get("answers").list() {
        let (v, w) = answer.get("pair").pair();
        text += &match answer.get("below") {
            Json::Bool(true) => format!("Vertex {v} is below vertex {w}. "),
            _ => format!("Vertex {v} isn't below vertex {w}.\n"),
        };
        for reason in answer.get("reasons").list() {
            text += &format!("{}\n", reason.get("sentence").text());
        }
    }
    match value.get("sentence") {
        Json::Null => text,
        sentence => format!("{text}{}\n", sentence.text()),
    }
}

/// The moves of a reason are edges, and lead to the pairs that it rests on.
fn hold_reason(game: &[u16], reason: &Json) {
    let (n, m) = (usize::from(game[0]), usize::from(game[1]));
    let ends = game[2 + 2 * n..].split_at(m);
    let is_edge = |v: usize, w: usize| {
        (0..m).any(|i| (usize::from(ends.0[i]), usize::from(ends.1[i])) == (v, w))
    };
    let (v, w) = reason.get("pair").pair();
    for (x, y) in reason.get("rests_on").pairs() {
        assert!(is_edge(v, x) && is_edge(w, y), "{reason:?}");
        for (from, to) in reason.get("moves").pairs() {
            assert!((from, to) == (v, x) || (from, to) == (w, y), "{reason:?}");
        }
    }
    let count = match reason.get("cause").text() {
        "even_move" | "odd_move" => 1,
        "both_moves" => 2,
        _ => 0,
    };
    assert_eq!(reason.get("moves").list().len(), count, "{reason:?}");
    let parted = !["itself", "matched"].contains(&reason.get("cause").text());
    assert_eq!(reason.get("pass") != &Json::Null, parted, "{reason:?}");
}

/// Holds the values of `why` on a pair to the text, in one direction and in both; gives the causes that they name.
fn hold_why(game: &[u16], path: &str, v: usize, w: usize) -> BTreeSet<String> {
    let (line, mut causes) = (["why", path, &v.to_string(), &w.to_string()], BTreeSet::new());
    for line in [&line[..], &[&line[..], &["--both"]].concat()] {
        let value = json(line);
        assert_eq!(told(&value), out(line), "{game:?}");
        for answer in value.get("answers").list() {
            let (reasons, (v, w)) = (answer.get("reasons").list(), answer.get("pair").pair());
            reasons.iter().for_each(|reason| hold_reason(game, reason));
            causes.extend(reasons.iter().map(|reason| reason.get("cause").text().to_string()));
            let priorities = [v, w].map(|vertex| usize::from(game[2 + vertex]));
            assert_eq!(answer.get("priorities").numbers(), priorities);
        }
    }
    causes
}

#[test]
fn why_as_json_says_what_the_text_says() {
    let mut lcg = Lcg::new(17);
    for most in [4, 7, 10].repeat(6) {
        let game = any_game(&mut lcg, most).words();
        let (n, path) = (game[0] as usize, file("why-json.bin", &bytes(&game)));
        for (v, w) in [(0, n - 1), (n / 2, 0), (0, n / 2)] {
            hold_why(&game, &path, v, w);
        }
    }
    let game = shipped("lift-doors.txt");
    let pairs = [(6, 5), (0, 1), (3, 3)];
    let causes = pairs.map(|(v, w)| hold_why(&game, "games/lift-doors.txt", v, w));
    let all = ["both_moves", "every_move", "itself", "matched", "odd_move", "priorities"];
    assert_eq!(
        causes.iter().flatten().collect::<BTreeSet<_>>().into_iter().collect::<Vec<_>>(),
        all
    );
    assert!(hold_why(&shipped("c.txt"), "games/c.txt", 2, 1).contains("even_move"));
}

#[test]
fn why_in_both_directions() {
    let last = |v: &str, w: &str| {
        let text = out(&["why", "games/lift-doors.txt", v, w, "--both"]);
        let both = out(&["why", "games/lift-doors.txt", v, w])
            + &out(&["why", "games/lift-doors.txt", w, v]);
        let rest = text.strip_prefix(&both).expect("both directions").to_string();
        let value = json(&["why", "games/lift-doors.txt", v, w, "--both"]);
        assert_eq!(format!("{}\n", value.get("sentence").text()), rest);
        (rest, value.get("share_class") == &Json::Bool(true))
    };
    let shared = "Each is below the other, so they share a class and have the same winner.\n";
    assert_eq!(last("0", "7"), (shared.into(), true));
    let only = "Only 5 is below 6, so they are in different classes: if Even wins at 5, Even wins at 6, and if Odd wins at 6, Odd wins at 5.\n";
    assert_eq!(last("5", "6"), (only.into(), false));
    assert_eq!(last("6", "5"), (only.into(), false));
    let neither = "Neither is below the other, so they are in different classes, and the order doesn't compare their winners.\n";
    assert_eq!(last("0", "1"), (neither.into(), false));
    let line = ["why", "games/lift-doors.txt", "0", "7", "--both"];
    run(&[&line[..], &["--large"]].concat()).fails(2, &["--both and --large exclude each other"]);
    let large = file("both-large.txt", ring(600).as_bytes());
    run(&["why", &large, "0", "1", "--both"])
        .fails(2, &["--both is for games within the limits; above them the answer"]);
}

/// A ring of so many vertices, of priority 0 and Even's.
fn ring(n: usize) -> String {
    let line = |number: &dyn Fn(usize) -> usize| {
        (0..n).map(|v| number(v).to_string()).collect::<Vec<String>>().join(" ")
    };
    let zeros = "0 ".repeat(2 * n);
    format!("{n} {n} {zeros} {} {}", line(&|v| v), line(&|v| (v + 1) % n))
}

#[test]
fn why_by_moves_as_json() {
    let line = ["why", "games/lift-doors.txt", "3", "5", "--large"];
    let (value, text) = (json(&line), out(&line));
    let (first, rest) = text.split_once('\n').expect("a line");
    assert_eq!(value.get("sentence").text(), first);
    assert_eq!(value.get("cause").text(), "alone");
    assert_eq!(value.get("classes").pair(), (3, 5));
    let rows = value.get("successors").list();
    assert_eq!(rows.len(), rest.lines().count());
    for (row, line) in rows.iter().zip(rest.lines()) {
        let side = |name: &str| match &row.get(name).numbers()[..] {
            [] => "has no move there".to_string(),
            list => {
                format!("to {}", list.iter().map(usize::to_string).collect::<Vec<_>>().join(", "))
            }
        };
        let class = row.get("class").number();
        assert_eq!(line, format!("class {class}: 3 {} | 5 {}", side("from_v"), side("from_w")));
    }
    let cause =
        |v, w| json(&["why", "games/b.txt", v, w, "--large"]).get("cause").text().to_string();
    assert_eq!(
        [cause("0", "1"), cause("0", "2"), cause("1", "1")],
        ["priorities", "one_class", "same_classes"]
    );
    let owners = b"4 6 / 0 0 1 2 / 0 1 0 0 / 0 0 1 1 2 3 / 2 3 2 3 2 3";
    let owners = run_on(&["why", "-", "0", "1", "--large", "--json"], owners).text();
    assert_eq!(Json::parse(&owners).get("cause").text(), "owners");
}

#[test]
fn merged_as_json_says_what_the_text_says() {
    for (line, by) in [
        (&["merged", "games/lift-doors.txt"][..], "order"),
        (&["merged", "games/lift-doors.txt", "--large"], "moves"),
    ] {
        let value = json(line);
        assert_eq!(value.get("by").text(), by);
        let row = |row: &Json| {
            let (vertex, class) = (row.get("vertex").number(), row.get("class").number());
            let lowest = row.get("represented_by").get("vertex").number();
            format!("vertex {vertex}: class {class}, represented by vertex {lowest}\n")
        };
        assert_eq!(value.get("merged").list().iter().map(row).collect::<String>(), out(line));
    }
    assert!(json(&["merged", "games/c.txt"]).get("merged").list().is_empty());
}

/// The words of the table that a value of `reduce` has.
fn table(value: &Json) -> Vec<usize> {
    let table = value.get("table");
    let (sources, targets): (Vec<usize>, Vec<usize>) =
        table.get("edges").pairs().into_iter().unzip();
    let (priorities, owners) = (table.get("priorities").numbers(), table.get("owners").numbers());
    let sizes = vec![priorities.len(), sources.len()];
    [sizes, priorities, owners, sources, targets].concat()
}

#[test]
fn reduce_as_json_is_the_table() {
    for options in [&[][..], &["--large"], &["--large", "--then-order"]] {
        let line = [&["reduce", "games/lift-doors.txt"], options].concat();
        let (value, classes) = (json(&line), path("reduce-json.classes.txt"));
        let words: Vec<usize> = numbers(&out(&line)).into_iter().map(usize::from).collect();
        assert_eq!(table(&value), words);
        let by = ["order", "moves", "moves, then order"][options.len()];
        assert_eq!(value.get("by").text(), by);
        let size = |name: &str| ["vertices", "edges"].map(|of| value.get(name).get(of).number());
        assert_eq!((size("game"), size("reduced").to_vec()), ([14, 28], words[..2].to_vec()));
        let both = out(&[&line[..], &["--json", "--classes", &classes]].concat());
        assert_eq!(Json::parse(&both), value);
        let listed = numbers(&fs::read_to_string(&classes).expect("classes"));
        let of_value = value.get("vertices").list().iter().map(|v| v.get("class").number() as u16);
        assert_eq!(of_value.collect::<Vec<u16>>(), listed);
    }
}

/// The priorities are those of the file, as in the game that is written back.
#[test]
fn reduce_as_json_has_names_start_and_priorities_of_the_file() {
    let game = b"parity 9; start 7; 3 5 0 3 \"a\"; 5 5 1 3 \"b\"; 7 4 1 9,5 \"c\"; 9 0 0 9;";
    for options in [&[][..], &["--large"]] {
        let ran = run_on(&[&["reduce", "--json"], options].concat(), game);
        let value = Json::parse(std::str::from_utf8(&ran.out).expect("text"));
        let table = value.get("table");
        assert_eq!(table.get("decides").text(), "highest");
        assert_eq!(table.get("priorities").numbers(), [5, 4, 0]);
        assert_eq!(table.get("start").number(), 1);
        let name = |name: &str| Json::Text(name.into());
        assert_eq!(table.get("names").list(), [name("a"), name("c"), Json::Null]);
        let ids = value.get("vertices").list().iter().map(|v| v.get("id").number());
        assert_eq!(ids.collect::<Vec<usize>>(), [3, 5, 7, 9]);
    }
    let lowest = run_on(&["reduce", "--json", "--lowest"], game).text();
    assert_eq!(Json::parse(&lowest).get("table").get("decides").text(), "lowest");
}

#[test]
fn plan_as_json_is_the_plan() {
    for vertex in 0..5 {
        let line = ["plan", "games/c.txt", "games/c.sol", "--vertex", &vertex.to_string()];
        let plan = words(&run(&[&line[..], &["--as=words"]].concat()).bytes());
        let value = json(&line);
        let (sources, targets): (Vec<usize>, Vec<usize>) =
            value.get("links").pairs().into_iter().unzip();
        let positions = value.get("positions").numbers();
        let sizes = vec![positions.len(), sources.len()];
        let all = [sizes, positions, sources, targets].concat();
        assert_eq!(all, plan.into_iter().map(usize::from).collect::<Vec<usize>>());
        assert!(out(&line).starts_with(&format!("# {}\n", value.get("sentence").text())));
        assert_eq!(value.get("at").get("vertex").number(), vertex);
    }
}

/// The commands whose usage has --json.
fn with_json() -> Vec<String> {
    let overview = run(&["--help"]).text();
    let names = overview.lines().filter_map(|line| line.strip_prefix("  ")?.split(' ').next());
    let has_json = |name: &&str| {
        let help = run(&[name, "--help"]).text();
        help.lines().next().is_some_and(|usage| usage.contains("--json"))
    };
    names.filter(has_json).map(String::from).collect()
}

/// The fields that the tables of a section name, in backticks at the start of a row.
fn fields(section: &str) -> BTreeSet<String> {
    let rows = section.lines().filter_map(|line| line.strip_prefix("| `"));
    let names = rows.filter_map(|row| row.split_once(" |")).map(|(names, _)| names);
    names.flat_map(|names| names.split('`').step_by(2)).map(String::from).collect()
}

#[test]
fn the_page_shows_every_value() {
    let page = fs::read_to_string(root().join("docs/JSON.md")).expect("the page");
    let sections: Vec<(&str, &str)> =
        page.split("\n## ").skip(1).filter_map(|section| section.split_once('\n')).collect();
    let of = |name: &str| sections.iter().find(|(title, _)| *title == name).map(|(_, text)| *text);
    let common = of("Fields of several commands").expect("the fields of several commands");
    for name in with_json() {
        let section = of(&format!("`{name}`")).unwrap_or_else(|| panic!("no section on {name}"));
        let named: BTreeSet<String> = fields(section).into_iter().chain(fields(common)).collect();
        let (examples, mut used) = (commands(section, ""), BTreeSet::new());
        assert!(!examples.is_empty(), "{name}: no example");
        for (command, _) in &examples {
            assert!(command.contains(&format!("./raskjomi {name} ")), "{command}");
            let keys = Json::parse(&printed(command, root())).keys();
            assert!(keys.is_subset(&named), "{command}: {keys:?} of {named:?}");
            used.extend(keys);
        }
        let unused: Vec<&String> =
            named.difference(&used).filter(|key| !fields(common).contains(*key)).collect();
        assert!(unused.is_empty(), "{name}: no example has {unused:?}");
    }
    for (command, shown) in commands(&page, "") {
        let shown: String = shown.lines().map(str::trim_start).collect();
        assert_eq!(printed(&command, root()).trim_end(), shown, "{command}");
    }
}
