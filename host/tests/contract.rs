//! docs/CONTRACT.md has a row for each refusal and a section for each export, and its worked reduction of a large game is answered as it says.
//! docs/METHOD.md has each export in its table of lent memory.

mod common;

use common::root;
use raskjomi::large_reduction;
use std::fs;

/// The part of a text under a heading, up to the next heading of the same depth.
fn section(text: &str, heading: &str) -> String {
    let after = text.split(&format!("\n## {heading}\n")).nth(1).expect("a heading");
    after.split("\n## ").next().expect("a section").to_string()
}

fn page(name: &str) -> String {
    fs::read_to_string(root().join(name)).unwrap_or_else(|error| panic!("{name}: {error}"))
}

fn contract(heading: &str) -> String {
    section(&page("docs/CONTRACT.md"), heading)
}

/// The names of the exports, without what all begin with.
fn exports() -> Vec<String> {
    let declarations = page("host/src/exports.rs");
    let names = declarations.split("fn raskjomi_").skip(1);
    names.filter_map(|rest| rest.split('(').next()).map(String::from).collect()
}

#[test]
fn each_refusal_has_one_row() {
    let text = contract("Refusals");
    let first_cell = |line: &str| line.strip_prefix("| ")?.split(' ').next()?.parse::<u32>().ok();
    let rows: Vec<u32> = text.lines().filter_map(first_cell).collect();
    let explained: Vec<u32> = (0..1000).filter(|&n| raskjomi::explain(n).is_some()).collect();
    assert_eq!(rows, explained);
}

#[test]
fn each_export_has_one_section() {
    let calls = contract("The calls");
    let names = exports();
    for name in &names {
        let cited = calls.split("\n### ").filter(|call| {
            let export = format!("xport `raskjomi_{name}");
            call.contains(&format!("{export}`")) || call.contains(&format!("{export}("))
        });
        assert_eq!(cited.count(), 1, "{name}");
    }
    assert_eq!(calls.matches("\n### ").count(), names.len());
}

#[test]
fn each_export_is_in_the_methods_table_of_lent_memory() {
    let text = section(&page("docs/METHOD.md"), "3. Lent memory");
    let table = text.split("\n| call |").nth(1).expect("the table").split("\n\n").next();
    let rows = table.expect("rows").lines().skip(2).map(|row| row.split(" | ").next());
    let mut named: Vec<&str> =
        rows.flat_map(|cell| cell.expect("a cell").split('`').skip(1).step_by(2)).collect();
    let mut names = exports();
    named.sort_unstable();
    names.sort_unstable();
    assert_eq!(named, names);
}

/// The words of the example that the contract has under a name: those between backquotes, in their sequence.
fn example(name: &str) -> Vec<Vec<u32>> {
    let text = contract("Worked examples");
    let text = text.split(&format!("**{name}**")).nth(1).expect("the example").split("**").next();
    let quoted = text.expect("a text").split('`').skip(1).step_by(2);
    let words = |text: &str| text.split(' ').filter_map(|word| word.parse().ok()).collect();
    quoted.map(words).collect()
}

#[test]
fn the_worked_reduction_is_answered_as_it_says() {
    let lists = example("Large, reduced");
    let [game, reduced, classes, certificate, fewer, none] = &lists[..] else {
        panic!("{lists:?}");
    };
    let refused = |game: &[u32], reduced: &[u32], classes: &[u32], certificate: &[u32]| {
        large_reduction(game, reduced, classes, certificate)
            .map_or_else(|refusal| (refusal.number, refusal.place), |()| (0, 0))
    };
    let with = |words: &[u32], place: usize, word| {
        [&words[..place], &[word], &words[place + 1..]].concat()
    };
    let of_game = |game: &[u32]| refused(game, reduced, classes, certificate);
    let of_reduced = |reduced: &[u32]| refused(game, reduced, classes, certificate);
    let of_classes = |classes: &[u32]| refused(game, reduced, classes, certificate);
    let of_certificate = |certificate: &[u32]| refused(game, reduced, classes, certificate);
    assert_eq!(of_game(game), (0, 0));
    assert_eq!(of_classes(&with(classes, 1, 1)), (100, 1));
    assert_eq!(of_classes(&with(classes, 1, 4)), (99, 1));
    assert_eq!(of_classes(fewer), (98, 5));
    assert_eq!(of_game(&with(game, 9, 1)), (105, 1));
    assert_eq!(of_game(&with(game, 29, 3)), (103, 7));
    assert_eq!(of_certificate(&with(certificate, 1, 2)), (104, 1));
    assert_eq!(of_certificate(&with(certificate, 6, 2)), (102, 0));
    assert_eq!(of_certificate(&with(certificate, 18, 0)), (106, 0));
    assert_eq!(of_certificate(&[]), (101, 0));
    assert_eq!(of_reduced(&[]), (91, 0));
    assert_eq!(of_reduced(none), (92, 0));
    assert_eq!(of_reduced(&reduced[..19]), (94, 19));
    assert_eq!(of_reduced(&with(reduced, 7, 2)), (95, 7));
    assert_eq!(of_reduced(&with(reduced, 19, 4)), (96, 19));
    assert_eq!(of_reduced(&with(reduced, 10, 2)), (97, 1));
    assert_eq!(of_reduced(&with(reduced, 9, 1)), (0, 0));
}
