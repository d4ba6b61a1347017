//! Runs ./install on folders of the tests.

use crate::common::{outside, root, write_program};
use std::collections::BTreeMap;
use std::fs;
use std::path::{Path, PathBuf};
use std::process::{Command, Output};
use std::sync::OnceLock;

/// A name for a folder of one test, in which nothing is.
pub fn fresh(name: &str) -> PathBuf {
    let folder = outside().join("install").join(name);
    let _ = fs::remove_dir_all(&folder).or_else(|_| fs::remove_file(&folder));
    fs::create_dir_all(folder.parent().expect("a folder")).expect("a folder");
    folder
}

/// ./install with words, of the program that the tests try.
pub fn install(words: &[&str]) -> Command {
    let mut install = Command::new(root().join("install"));
    install.args(["--program", env!("CARGO_BIN_EXE_raskjomi")]).args(words);
    install
}

/// Runs a command, which succeeds; what it prints.
pub fn done(command: &mut Command) -> String {
    let ran = command.output().expect("it starts");
    assert!(ran.status.success(), "{command:?}: {}", String::from_utf8_lossy(&ran.stderr));
    String::from_utf8(ran.stdout).expect("text")
}

/// Runs a command, which fails with a status; what it says on standard error.
pub fn failed(command: &mut Command, status: i32) -> String {
    let Output { status: ended, stderr, .. } = command.output().expect("it starts");
    let told = String::from_utf8(stderr).expect("text");
    assert_eq!(ended.code(), Some(status), "{told}");
    told
}

/// Has a command find a script of the test before the program of that name.
pub fn with_program(command: &mut Command, tools: &Path, name: &str, script: &str) {
    write_program(&tools.join(name), &format!("#!/bin/sh\n{script}\n"));
    let path = std::env::var("PATH").unwrap_or_default();
    command.env("PATH", format!("{}:{path}", tools.display()));
}

/// A path as a word.
pub fn word(path: &Path) -> &str {
    path.to_str().expect("a plain path")
}

/// A folder in which everything is installed, for tests that change nothing in it.
pub fn installed() -> &'static Path {
    static FOLDER: OnceLock<PathBuf> = OnceLock::new();
    FOLDER.get_or_init(|| {
        let folder = fresh("whole");
        done(&mut install(&["--prefix", word(&folder)]));
        folder
    })
}

/// All below a folder: each path with a file's bytes, a link's target, or nothing for a folder.
pub fn content(folder: &Path) -> BTreeMap<PathBuf, Vec<u8>> {
    let mut all = BTreeMap::new();
    for entry in fs::read_dir(folder).into_iter().flatten().flatten() {
        let path = entry.path();
        if path.is_symlink() {
            let target = fs::read_link(&path).expect("a link");
            all.insert(path, word(&target).into());
        } else if path.is_dir() {
            all.extend(content(&path));
            all.insert(path, Vec::new());
        } else {
            let bytes = fs::read(&path).expect("a file");
            all.insert(path, bytes);
        }
    }
    all
}
