//! The programs in `examples`, as a user runs them.

mod common;

use common::root;
use std::fs;
use std::path::PathBuf;
use std::process::Command;
use std::sync::Once;

static BUILT: Once = Once::new();

/// The program of an example, which cargo builds with the other tests, or now where one test program runs alone.
fn example(name: &str) -> PathBuf {
    BUILT.call_once(|| {
        let mut cargo = Command::new(env!("CARGO"));
        cargo.args(["build", "--offline", "--locked", "--examples"]);
        let built = cargo.current_dir(env!("CARGO_MANIFEST_DIR")).output().expect("cargo starts");
        assert!(built.status.success(), "{}", String::from_utf8_lossy(&built.stderr));
    });
    let test = std::env::current_exe().expect("this program");
    test.ancestors().nth(2).expect("the folder of the build").join("examples").join(name)
}

/// Whether it succeeds, its output and its messages.
fn run(name: &str, arguments: &[&str]) -> (bool, String, String) {
    let mut program = Command::new(example(name));
    let ran = program.args(arguments).current_dir(root()).output().expect("the example starts");
    let text = |bytes| String::from_utf8(bytes).expect("text");
    (ran.status.success(), text(ran.stdout), text(ran.stderr))
}

fn file(name: &str, bytes: &[u8]) -> String {
    let path = PathBuf::from(env!("CARGO_TARGET_TMPDIR")).join(name);
    fs::write(&path, bytes).expect("a file");
    path.to_str().expect("a plain path").into()
}

#[test]
fn each_is_short() {
    let folder = root().join("host/examples");
    for entry in fs::read_dir(folder).expect("the examples") {
        let text = fs::read_to_string(entry.expect("a file").path()).expect("text");
        assert!(text.lines().count() < 80);
    }
}

#[test]
fn a_file_is_reduced() {
    let (done, output, messages) = run("reduce", &["games/d.txt"]);
    let game = "parity 4;\n0 2 0 2;\n1 4 0 3;\n2 4 0 3,4;\n3 3 0 3;\n4 0 0 4;\n";
    assert!(done && output == game, "{output}");
    assert_eq!(
        messages,
        "6 vertices and 8 edges before, 5 and 6 after\nclass 0: vertices 0 and 5\n"
    );
    let named = file("example.pg", b"parity 7;\n3 1 0 5 \"a\";\n5 0 0 5;\n7 1 1 5 \"b\";\n");
    let (done, output, messages) = run("reduce", &[&named]);
    assert!(done && output == "parity 1;\n0 1 0 1 \"a\";\n1 0 0 1;\n", "{output}");
    assert!(messages.ends_with("\nclass 0: vertices id 3 \"a\" and id 7 \"b\"\n"), "{messages}");
    let bad = file("example-bad.pg", b"parity 7;\n3 1 0 5;\n");
    let (done, output, messages) = run("reduce", &[&bad]);
    let told = "reduce: line 2, id 3: successor 5 is no vertex of the file; add a line for 5, ";
    assert!(!done && output.is_empty() && messages.starts_with(told), "{messages}");
}

#[test]
fn a_relation_is_judged() {
    let right = file("example-right.txt", b"1 0 1\n0 1 0\n1 0 1\n");
    let accepted = "accepted: it is a direct simulation\n";
    assert_eq!(run("judge", &["games/b.txt", &right]).1, accepted);
    let packed = file("example-right.bin", &[0b0101_0101, 1]);
    assert_eq!(run("judge", &["games/b.txt", &packed]).1, accepted);
    let wrong = file("example-wrong.txt", b"1 0 1\n0 1 0\n1 1 1\n");
    let told = run("judge", &["games/b.txt", &wrong]).1;
    assert!(told.starts_with("refused 10 at 7: "), "{told}");
    assert!(told.contains("\nthe pair 2, 1 fails, at line 3, word 2\nwhat to do: "), "{told}");
    let short = file("example-short.txt", b"1 0 1");
    assert!(run("judge", &["games/b.txt", &short]).1.starts_with("refused 21 at 2: "));
    assert!(!run("judge", &["games/b.txt"]).0);
}

#[test]
fn edits_are_previewed_in_a_loop() {
    let (done, output, _) = run("edits", &["games/b.txt", "0:2", "1:0", "0:0", "0:1", "2:2"]);
    let expected = "0:2: 2 classes before, 3 after\n\
                    1:0: 2 classes before, 2 after\n\
                    0:0: 2 classes before, 3 after\n";
    assert!(done && output.starts_with(expected), "{output}");
    assert!(output.contains("\n0:1: refused 37 at 0: "), "{output}");
    assert!(output.ends_with("\n3 vertices, 4 edges, 2 classes\n"), "{output}");
    let (done, _, messages) = run("edits", &["games/b.txt", "0:3"]);
    assert!(!done && messages.starts_with("edits: no edge `0:3`; write two "), "{messages}");
}
