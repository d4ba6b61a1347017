//! Exit statuses: one table for all commands.

use crate::common::root;
use crate::run::{file, run};
use std::fs;
use std::process::Command;

#[test]
fn the_help_and_the_man_page_have_one_table() {
    let overview = run(&["--help"]).text();
    let (_, rest) = overview.split_once("\nExit status, of all commands:\n").expect("a table");
    let lines = rest.lines().take_while(|line| !line.is_empty());
    let rows: Vec<(&str, &str)> =
        lines.map(|line| line.split_once("  ").expect("a status and its meaning")).collect();
    let statuses: Vec<&str> = rows.iter().map(|(status, _)| *status).collect();
    assert_eq!(statuses, ["0", "1", "2", "3", "4"]);
    let page = run(&["man"]).text();
    let (_, shown) = page.split_once("\n.SH EXIT STATUS\n").expect("a section");
    let row = |(status, meaning): &(&str, &str)| {
        format!(".TP\n\\fB{status}\\fR\n{}\n", meaning.replace('-', "\\-"))
    };
    assert_eq!(shown, rows.iter().map(row).collect::<String>());
}

#[test]
fn what_is_not_shown_has_a_status_of_its_own() {
    let line = ["verdict", "games/d.txt", "games/c.plan.txt", "--player=even", "--vertex=2"];
    let text = run(&line).not_shown();
    assert!(text.starts_with("not shown: "), "{text}");
    let json = run(&[&line[..], &["--json"]].concat()).not_shown();
    assert!(json.starts_with("{\"accepted\":true,\"shown\":false,"), "{json}");
    // An answer goes where the output is to go.
    let path = file("not-shown.txt", b"old");
    assert_eq!(run(&[&line[..], &["-o", &path]].concat()).not_shown(), "");
    assert_eq!(fs::read_to_string(&path).expect("the answer"), text);
    let released = |vertex: &str| {
        let program = env!("CARGO_BIN_EXE_raskjomi");
        let line = format!(
            "'{program}' verdict games/d.txt games/c.plan.txt --player even --vertex {vertex} > /dev/null && echo released"
        );
        let mut shell = Command::new("sh");
        let ran = shell.args(["-c", &line]).current_dir(root()).output().expect("a shell");
        String::from_utf8(ran.stdout).expect("text")
    };
    assert_eq!(["5", "2", "6"].map(released), ["released\n", "", ""]);
}

#[test]
fn a_vertex_that_is_not_there_is_bad_usage_everywhere() {
    let lines: [&[&str]; 13] = [
        &["report", "games/d.txt", "--vertex", "V"],
        &["report", "games/d.txt", "--vertex=V"],
        &["why", "games/d.txt", "--", "V", "0"],
        &["why", "games/d.txt", "--", "0", "V"],
        &["why", "games/d.txt", "--large", "--", "0", "V"],
        &["carry", "games/d.txt", "games/c.plan.txt", "--player=even", "--vertex=V"],
        &["carry", "games/d.txt", "games/c.plan.txt", "--player=even", "--vertex=V", "--class"],
        &["verdict", "games/d.txt", "games/c.plan.txt", "--player=even", "--vertex=V"],
        &["plan", "games/c.txt", "games/c.sol", "--vertex=V"],
        &["check-solution", "games/c.txt", "games/c.sol", "--vertex=V"],
        &["edit", "games/d.txt", "--add=V:0"],
        &["edit", "games/d.txt", "--add=0:V", "--preview"],
        &["edit", "games/d.txt", "--remove=0:V", "--classes"],
    ];
    for vertex in ["6", "65541", "4294967295", "4294967296", "none", "-1", ""] {
        for line in lines {
            let words: Vec<String> = line.iter().map(|word| word.replace('V', vertex)).collect();
            let words: Vec<&str> = words.iter().map(String::as_str).collect();
            let parts = [": no edge `", &*format!("no vertex `{vertex}`; write ")];
            let of_edge = usize::from(line[0] != "edit");
            assert_eq!(run(&words).fails(2, &[parts[of_edge], " to "]), "", "{words:?}");
        }
    }
}
