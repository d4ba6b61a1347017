//! docs/INSTALL.md: its commands, run one after the other, print what it says.

use crate::common::{commands, root};
use crate::folder::{fresh, word};
use std::fs;
use std::os::unix::fs::symlink;
use std::process::Command;

/// The page's home is a folder of the test, and it installs the program that the tests try.
#[test]
fn the_page_shows_what_its_commands_print() {
    let folder = fresh("page");
    fs::create_dir(&folder).expect("a folder");
    for name in ["games", "examples", "install"] {
        symlink(root().join(name), folder.join(name)).expect("a link");
    }
    let page = fs::read_to_string(root().join("docs/INSTALL.md")).expect("the page");
    let commands = commands(&page, "");
    let install = format!("./install --program '{}'", env!("CARGO_BIN_EXE_raskjomi"));
    let lines: Vec<String> =
        commands.iter().map(|(line, _)| line.replace("./install", &install)).collect();
    let mut shell = Command::new("sh");
    shell.args(["-c", &lines.join("\n")]).current_dir(&folder).env("HOME", &folder);
    let ran = shell.output().expect("a shell");
    let printed = String::from_utf8([ran.stdout, ran.stderr].concat()).expect("text");
    let shown: String = commands.into_iter().map(|(_, shown)| shown).collect();
    assert_eq!(printed.replace(word(&folder), "/home/you"), shown);
    assert!(lines.len() > 8, "{lines:?}");
}
