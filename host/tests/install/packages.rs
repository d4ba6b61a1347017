//! What packages are made from.

use crate::common::root;
use crate::folder::done;
use std::fs;
use std::process::Command;

/// The package of the Rust library has what a build with RASKJOMI_ARCHIVES needs, and nothing of the tests.
#[test]
fn the_rust_package_has_what_a_user_needs() {
    let mut cargo = Command::new(env!("CARGO"));
    cargo.args(["package", "--list", "--offline", "--allow-dirty", "-p", "raskjomi"]);
    let listed = done(cargo.current_dir(root().join("host")));
    let of_folders = ["src/", "include/", "examples/", "archives/", "rattle/"];
    let others: Vec<&str> = listed
        .lines()
        .filter(|path| !of_folders.iter().any(|folder| path.starts_with(folder)))
        .collect();
    let expected =
        ["Cargo.lock", "Cargo.toml", "Cargo.toml.orig", "LICENSE", "README.md", "build.rs"];
    assert_eq!(
        others.iter().filter(|path| !path.starts_with('.')).collect::<Vec<_>>(),
        expected.iter().collect::<Vec<_>>()
    );
    for path in [
        "src/lib.rs",
        "src/exports.rs",
        "src/bin/raskjomi/main.rs",
        "include/raskjomi.h",
        "archives/mod.rs",
        "rattle/mod.rs",
    ] {
        assert!(listed.lines().any(|other| other == path), "{path}");
    }
}

#[test]
fn the_debian_package_has_the_version() {
    let changes = fs::read_to_string(root().join("debian/changelog")).expect("the changes");
    let first = format!("raskjomi ({}) ", env!("CARGO_PKG_VERSION"));
    assert!(changes.starts_with(&first), "{changes}");
}

#[test]
fn the_debian_package_has_the_licence() {
    let plain = |text: &str| -> String {
        let words = text.split_whitespace().filter(|word| *word != ".");
        words.collect::<Vec<&str>>().join(" ")
    };
    let [licence, copyright] = ["LICENSE", "debian/copyright"]
        .map(|path| fs::read_to_string(root().join(path)).expect("a text"));
    let terms = licence.split_once("Permission").expect("the terms").1;
    assert!(plain(&copyright).ends_with(&plain(terms)), "{copyright}");
}
