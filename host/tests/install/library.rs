//! The installed libraries and header, for C and C++.

use crate::archives;
use crate::common::{archives_linked, root};
use crate::folder::{done, failed, fresh, installed};
use std::collections::BTreeSet;
use std::fs;
use std::path::{Path, PathBuf};
use std::process::{Command, Stdio};
use std::sync::atomic::{AtomicU32, Ordering};

/// What pkg-config says of the installed library.
fn flags(words: &[&str]) -> Vec<String> {
    let mut pkg_config = Command::new("pkg-config");
    pkg_config
        .env("PKG_CONFIG_PATH", installed().join("lib/pkgconfig"))
        .args(words)
        .arg("raskjomi");
    done(&mut pkg_config).split_whitespace().map(String::from).collect()
}

/// Compilers, each with its language.
const C: [&str; 2] = ["cc", "-std=c11"];
const CPP: [&str; 2] = ["c++", "-std=c++17"];

/// A program compiled from a source, by the flags of pkg-config, with the shared library or with the static one.
fn compiled(compiler: [&str; 2], source: &Path, is_static: bool) -> PathBuf {
    static COUNT: AtomicU32 = AtomicU32::new(0);
    let program = fresh(&format!("program-{}", COUNT.fetch_add(1, Ordering::Relaxed)));
    let mut cc = Command::new(compiler[0]);
    cc.args([compiler[1], "-Wall", "-Wextra", "-Werror", "-pedantic", "-o"])
        .arg(&program)
        .arg(source);
    cc.args(match is_static {
        true => [vec!["-static".to_string()], flags(&["--static", "--cflags", "--libs"])].concat(),
        false => flags(&["--cflags", "--libs"]),
    });
    done(&mut cc);
    program
}

/// A compiled program that finds the shared library, and no other program.
fn ready(program: &Path, words: &[&str]) -> Command {
    let mut command = Command::new(program);
    command.env("PATH", "/none").env("LD_LIBRARY_PATH", installed().join("lib"));
    command.args(words).current_dir(root()).stdin(Stdio::null());
    command
}

/// The installed program, with neither cargo nor rt on the path.
fn raskjomi(words: &[&str]) -> Command {
    ready(&installed().join("bin/raskjomi"), words)
}

/// The lines of a text that aren't comments.
fn words_of(text: &str) -> Vec<&str> {
    text.lines().filter(|line| !line.starts_with('#')).collect()
}

fn on_game(mut command: Command, game: &str) -> Command {
    let file = fs::File::open(root().join(game)).expect("a shipped game");
    command.stdin(file);
    command
}

/// Both libraries, and the program beside them, answer the same.
#[test]
fn examples_do_what_the_program_does() {
    for is_static in [false, true] {
        let [reduce, judge] = ["reduce", "judge"]
            .map(|name| compiled(C, &root().join(format!("examples/{name}.c")), is_static));
        for game in ["games/b.txt", "games/d.txt", "games/lift-doors.txt"] {
            let told = done(&mut on_game(ready(&reduce, &[]), game));
            let reduced = done(&mut raskjomi(&["reduce", game]));
            assert_eq!(words_of(&told), words_of(&reduced));
        }
        let told = done(&mut ready(&judge, &["games/d.txt", "games/c.plan.txt", "even", "5"]));
        let carry =
            ["carry", "games/d.txt", "games/c.plan.txt", "--player", "even", "--vertex", "5"];
        assert_eq!(words_of(&told), words_of(&done(&mut raskjomi(&carry))));
    }
}

#[test]
fn examples_tell_refusals_in_words() {
    let reduce = compiled(C, &root().join("examples/reduce.c"), false);
    let told = failed(&mut on_game(ready(&reduce, &[]), "games/c.plan.txt"), 1);
    assert_eq!(told, "refused 4 at 11: the table's length doesn't fit its sizes\n");
    assert!(failed(&mut on_game(ready(&reduce, &[]), "README.md"), 2).starts_with("give at most "));
    let judge = compiled(C, &root().join("examples/judge.c"), false);
    let judged = |words: &[&str]| failed(&mut ready(&judge, words), 1);
    let [game, plan] = ["games/d.txt", "games/c.plan.txt"];
    for (words, number, call) in [
        ([game, plan, "odd", "5"], 15, "the plan"),
        ([game, plan, "neither", "5"], 11, "the plan"),
        ([game, plan, "even", "3"], 33, "the carried plan"),
        ([game, plan, "even", "x"], 33, "the carried plan"),
        ([game, game, "even", "5"], 12, "the plan"),
    ] {
        let (told, words_of) = (judged(&words), raskjomi::explain(number).expect("a refusal"));
        assert!(told.starts_with(&format!("{call}: refused {number} at ")), "{told}");
        let rest = format!(
            ": {}\nthe place is: {}\nwhat to do: {}\n",
            words_of.meaning, words_of.place, words_of.remedy
        );
        assert!(told.ends_with(&rest), "{told}");
    }
    assert!(failed(&mut ready(&judge, &[]), 2).starts_with("usage: "));
    assert!(failed(&mut ready(&judge, &["none", plan, "even", "5"]), 2).starts_with("none: "));
}

/// The calls that aren't proved: the version, and the words of every refusal and of numbers that are none.
const TEXTS: &str = r#"#include <raskjomi.h>
#include <stdio.h>
int main(void) {
    printf("%s %s %d.%d.%d\n", RASKJOMI_VERSION, raskjomi_version(), RASKJOMI_VERSION_MAJOR, RASKJOMI_VERSION_MINOR, RASKJOMI_VERSION_PATCH);
    for (uint32_t i = 0; i < 300; i++) printf("%u|%s|%s|%s\n", i, raskjomi_meaning(i), raskjomi_place(i), raskjomi_remedy(i));
    return 0;
}
"#;

#[test]
fn version_and_words_are_those_of_the_host() {
    let source = fresh("texts.cc");
    fs::write(&source, TEXTS).expect("a source");
    let version = env!("CARGO_PKG_VERSION");
    let mut expected = format!("{version} {version} {version}\n");
    for number in 0..300 {
        let told = raskjomi::explain(number);
        let [meaning, place, remedy] =
            told.map_or(["no refusal", "", ""], |told| [told.meaning, told.place, told.remedy]);
        expected += &format!("{number}|{meaning}|{place}|{remedy}\n");
    }
    for is_static in [false, true] {
        // The header serves C++, and the library links with it.
        let program = compiled(CPP, &source, is_static);
        assert_eq!(done(&mut ready(&program, &[])), expected);
    }
}

#[test]
fn the_header_has_a_constant_for_each_refusal() {
    let header = fs::read_to_string(installed().join("include/raskjomi.h")).expect("the header");
    let constants = header.lines().filter_map(|line| {
        let (name, number) = line.trim().trim_end_matches(',').split_once(" = ")?;
        Some((name.strip_prefix("RASKJOMI_REFUSED_")?, number.parse().ok()?))
    });
    let numbers: Vec<u32> = constants.map(|(_, number)| number).collect();
    let explained: Vec<u32> = (0..1000).filter(|&n| raskjomi::explain(n).is_some()).collect();
    assert_eq!(numbers, explained);
}

#[test]
fn the_shared_library_shows_the_calls_alone() {
    let library = installed().join("lib/libraskjomi.so");
    let read = |words: &[&str]| done(Command::new("readelf").args(words).arg(&library));
    let symbols = read(&["--dyn-syms", "-W"]);
    let defined =
        symbols.lines().filter(|line| line.contains(" DEFAULT ") && !line.contains(" UND "));
    let shown: BTreeSet<&str> = defined.filter_map(|line| line.split_whitespace().last()).collect();
    let declared = fs::read_to_string(root().join("host/src/exports.rs")).expect("the exports");
    let texts = ["version", "meaning", "place", "remedy"].map(|name| format!("raskjomi_{name}"));
    let calls = [archives::exports(&declared), texts.to_vec()].concat();
    assert_eq!(shown, calls.iter().map(String::as_str).collect());
    let major = env!("CARGO_PKG_VERSION_MAJOR");
    let dynamic = read(&["-dW"]);
    assert!(dynamic.contains(&format!("soname: [libraskjomi.so.{major}]")), "{dynamic}");
    assert!(!dynamic.contains("TEXTREL"), "{dynamic}");
    let segments = read(&["-lW"]);
    let stack = segments.lines().find(|line| line.contains("GNU_STACK")).expect("a stack's line");
    assert!(stack.contains(" RW ") && segments.contains("GNU_RELRO"), "{segments}");
    assert!(!segments.contains(" RWE "), "{segments}");
}

#[test]
fn the_static_library_has_the_proved_objects_as_they_are() {
    let folder = installed().join("lib");
    for name in archives::CRATES {
        let object = |archive: PathBuf| {
            let ran = Command::new("ar").arg("p").arg(archive).arg(format!("{name}.o")).output();
            ran.expect("ar").stdout
        };
        let proved = object(archives_linked().join(archives::file(name)));
        assert!(proved.starts_with(b"\x7fELF"), "{name}");
        assert!(proved == object(folder.join("libraskjomi.a")), "{name}");
    }
}

#[test]
fn the_program_runs_without_a_toolchain() {
    assert!(done(&mut raskjomi(&["--version"]))
        .starts_with(&format!("raskjomi {}\n", env!("CARGO_PKG_VERSION"))));
    assert!(done(&mut raskjomi(&["reduce", "games/lift-doors.txt"])).contains("\n7 13\n"));
    assert_eq!(flags(&["--modversion"]), [env!("CARGO_PKG_VERSION")]);
}

#[test]
fn pages_and_completions_are_those_of_the_program() {
    let file = |path: &str| fs::read_to_string(installed().join(path)).expect(path);
    for (path, words) in [
        ("share/man/man1/raskjomi.1", &["man"][..]),
        ("share/bash-completion/completions/raskjomi", &["completions", "bash"]),
        ("share/zsh/site-functions/_raskjomi", &["completions", "zsh"]),
        ("share/fish/vendor_completions.d/raskjomi.fish", &["completions", "fish"]),
    ] {
        assert_eq!(file(path), done(&mut raskjomi(words)), "{path}");
    }
    for page in [
        "LICENSE",
        "README.md",
        "docs/CONTRACT.md",
        "docs/INSTALL.md",
        "examples/judge.c",
        "games/d.txt",
    ] {
        let own = fs::read_to_string(root().join(page)).expect(page);
        assert_eq!(file(&format!("share/doc/raskjomi/{page}")), own);
    }
}
