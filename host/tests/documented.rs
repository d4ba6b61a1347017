//! What the library offers: every call for a game that owns its words, and an example of each function.

mod common;

use common::root;
use std::collections::BTreeSet;
use std::fs;
use std::path::PathBuf;

/// The public functions of a file whose comment has no example.
fn bare(text: &str) -> Vec<&str> {
    let (mut bare, mut has_example) = (Vec::new(), false);
    for line in text.lines().map(str::trim_start) {
        if let Some(function) = line.strip_prefix("pub fn ") {
            if !has_example {
                bare.push(function.split(['(', '<']).next().unwrap_or_default());
            }
        }
        let is_of_function = line.starts_with("///") || line.starts_with("#[");
        has_example = is_of_function && (has_example || line.starts_with("/// ```"));
    }
    bare
}

/// The files of a folder of the library.
fn files(folder: &str) -> Vec<(PathBuf, String)> {
    let entries = fs::read_dir(root().join("host/src").join(folder)).expect("the library");
    let paths = entries.map(|entry| entry.expect("a file").path());
    paths.map(|path| (path.clone(), fs::read_to_string(path).expect("text"))).collect()
}

/// A game that owns its words has each call as a method of the same name; `read` is what makes one.
#[test]
fn a_game_has_every_call() {
    let names = |text: &str| -> BTreeSet<String> {
        let lines = text.lines().filter_map(|line| line.trim_start().strip_prefix("pub fn "));
        lines.filter_map(|line| Some(line.split(['(', '<']).next()?.to_string())).collect()
    };
    let [calls, methods] = ["calls", "owned"]
        .map(|folder| files(folder).iter().flat_map(|(_, text)| names(text)).collect());
    let (calls, methods): (BTreeSet<String>, BTreeSet<String>) = (calls, methods);
    assert_eq!(calls.len(), 20);
    let missing: Vec<&String> = calls.difference(&methods).collect();
    assert_eq!(missing, ["read"]);
}

#[test]
fn each_function_has_an_example() {
    for folder in ["calls", "owned", "formats"] {
        for (path, text) in files(folder) {
            assert_eq!(bare(&text), [""; 0], "{}", path.display());
        }
    }
    assert_eq!(
        bare("/// Text.\n/// ```\n/// ```\npub fn a() {}\n/// No.\npub fn b<T>() {}"),
        ["b"]
    );
}
