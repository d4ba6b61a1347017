//! The pages with commands: these print what the page says.

use crate::common::{commands, outside, root};
use std::fs;
use std::os::unix::fs::symlink;
use std::path::Path;
use std::process::Command;

/// Each page with the least number of commands that it has.
const PAGES: [(&str, usize); 2] = [("WORKFLOW", 12), ("METHOD", 12)];

/// What a command of a page prints in a folder.
pub fn printed(command: &str, folder: &Path) -> String {
    let line = command.replace("./raskjomi", &format!("'{}'", env!("CARGO_BIN_EXE_raskjomi")));
    let mut shell = Command::new("sh");
    let ran = shell.args(["-c", &line]).current_dir(folder).output().expect("a shell");
    String::from_utf8([ran.stdout, ran.stderr].concat()).expect("text")
}

fn page(name: &str) -> String {
    fs::read_to_string(root().join(format!("docs/{name}.md"))).expect("the page")
}

/// Runs the commands of a page in a folder of their own, and compares what they print.
fn hold(name: &str, least: usize) {
    let folder = outside().join(name);
    let _ = fs::remove_dir_all(&folder);
    fs::create_dir(&folder).expect("a folder");
    symlink(root().join("games"), folder.join("games")).expect("a link");
    let commands = commands(&page(name), "");
    for (command, shown) in &commands {
        assert_eq!(&printed(command, &folder), shown, "{name}: {command}");
    }
    assert!(commands.len() >= least, "{name}: {commands:?}");
}

#[test]
fn the_page_shows_what_its_commands_print() {
    for (name, least) in PAGES {
        hold(name, least);
    }
}

/// `sed` without `-i` prints the file as the command would leave it.
#[test]
fn the_edits_to_try_by_hand_change_their_files() {
    let commands = commands(&page("METHOD"), "console");
    let edits: Vec<&str> =
        commands.iter().filter_map(|(command, _)| command.strip_prefix("sed -i ")).collect();
    for edit in &edits {
        let mut shell = Command::new("sh");
        let shell = shell.args(["-c", &format!("sed {edit}")]).current_dir(root());
        let changed = shell.output().expect("a shell").stdout;
        let (_, file) = edit.rsplit_once(' ').expect("a file");
        let before = fs::read_to_string(root().join(file)).expect("the file");
        let after = String::from_utf8(changed).expect("text");
        let differ = before.lines().zip(after.lines()).filter(|(old, new)| old != new).count();
        assert_eq!((differ, before.lines().count()), (1, after.lines().count()), "{edit}");
    }
    assert_eq!(edits.len(), 3, "one for each section");
}
