//! Outputs that nobody takes, and the script at the root.

use crate::common::{outside, root};
use crate::run::{bytes, file};
use std::fs::{self, File};
use std::os::unix::fs::symlink;
use std::path::Path;
use std::process::{Command, Output, Stdio};

fn program() -> Command {
    let mut program = Command::new(env!("CARGO_BIN_EXE_raskjomi"));
    program.current_dir(root()).stdin(Stdio::null());
    program
}

/// A file that takes no byte.
fn full() -> File {
    File::options().write(true).open("/dev/full").expect("a full device")
}

#[test]
fn a_reader_that_goes_away() {
    // More text than a pipe holds.
    let game = file("largest.bin", &bytes(&largest()));
    let line = format!("'{}' order '{game}' | head -n 1", env!("CARGO_BIN_EXE_raskjomi"));
    let ran = Command::new("sh").args(["-c", &line]).output().expect("a shell");
    assert!(ran.stdout.starts_with(b"# order: "), "{ran:?}");
    assert!(ran.stderr.is_empty(), "{ran:?}");
}

/// 512 vertices, each with a loop alone.
fn largest() -> Vec<u16> {
    let loops: Vec<u16> = (0..512).collect();
    [&[512, 512], &[0; 1024][..], &loops, &loops].concat()
}

#[test]
fn an_output_that_is_full() {
    let ran = program().args(["reduce", "games/b.txt"]).stdout(full()).output().expect("a run");
    assert_eq!(ran.status.code(), Some(2), "{ran:?}");
    let told = String::from_utf8(ran.stderr).expect("text");
    assert!(told.starts_with("raskjomi: standard output: ") && told.contains("; write"), "{told}");
    for (words, status) in [(["report", "games/none"], 2), (["report", "/dev/null"], 1)] {
        let ran = program().args(words).stderr(full()).output().expect("a run");
        assert_eq!(ran.status.code(), Some(status), "{ran:?}");
    }
}

#[test]
fn an_output_that_is_closed() {
    let told = |line: String| {
        let ran = Command::new("sh").args(["-c", &line]).current_dir(root()).output();
        let ran = ran.expect("a shell");
        (ran.status.code(), String::from_utf8(ran.stderr).expect("text"))
    };
    // One that is open for reading alone.
    let (status, message) =
        told(format!("'{}' report games/b.txt 1</dev/null", env!("CARGO_BIN_EXE_raskjomi")));
    assert_eq!(status, Some(2), "{message}");
    assert!(
        message.starts_with("raskjomi: standard output: bad file descriptor; write"),
        "{message}"
    );
    let (status, message) = told("./raskjomi report games/b.txt >&-".into());
    assert_eq!(status, Some(2), "{message}");
    assert!(message.starts_with("raskjomi: standard output is closed; write"), "{message}");
}

/// The script's report on a game, run in a folder.
fn script(path: &Path, folder: &Path, game: &str) -> Output {
    Command::new(path).args(["report", game]).current_dir(folder).output().expect("a script")
}

#[test]
fn the_script_runs_from_anywhere() {
    let expected = program().args(["report", "games/b.txt"]).output().expect("a run").stdout;
    let folder = outside();
    let (link, again) = (folder.join("link"), folder.join("link-of-link"));
    for (link, target) in [(&link, root().join("raskjomi")), (&again, "link".into())] {
        let _ = fs::remove_file(link);
        symlink(target, link).expect("a link");
    }
    let game = root().join("games/b.txt");
    let game = game.to_str().expect("a plain path");
    for ran in [
        script(Path::new("./raskjomi"), root(), "games/b.txt"),
        script(&root().join("raskjomi"), &folder, game),
        script(&link, &folder, game),
        script(&again, root(), "games/b.txt"),
    ] {
        assert!(ran.status.success() && ran.stdout == expected, "{ran:?}");
    }
}
