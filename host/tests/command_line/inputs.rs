//! Games from a file and from standard input, binary and text, told apart.

use crate::run::{bytes, file, run, run_on, shipped};

/// Game B as it is written by hand, by other editors and by other programs.
const TEXTS: [&[u8]; 10] = [
    b"3 3 0 1 0 0 0 1 0 1 2 1 1 1",
    b"3 3 / 0 1 0 / 0 0 1 / 0 1 2 / 1 1 1\n",
    b"/3/3/ 0 1 0 /0 0 1 0 1 2/1 1 1/ /\n",
    b"3 3\r\n0 1 0\r\n0 0 1 # owners\r\n0 1 2\r\n1 1 1\r\n",
    b"# B\n\n  3\t3 # sizes\n0 1 0#\n0 0 1\n0 1 2 ## 9\n1 1 1",
    b"\xef\xbb\xbf3 3 0 1 0 0 0 1 0 1 2 1 1 1\n",
    b"# na\xc3\xafve\n3 3 0 1 0 0 0 1 0 1 2 1 1 1",
    b"# na\xefve\n3 3 0 1 0 0 0 1 0 1 2 1 1 1",
    b"0003 03 0 1 0 0 0 1 0 1 2 1 1 1",
    b"3 3\x0c0 1 0 0 0 1 0 1 2 1 1 1",
];

#[test]
fn text_in_any_layout() {
    let report = run(&["report", "games/b.txt"]).text();
    for text in TEXTS {
        let shown = String::from_utf8_lossy(text);
        assert_eq!(run_on(&["report"], text).text(), report, "{shown}");
        assert_eq!(run(&["report", &file("layout.txt", text)]).text(), report, "{shown}");
    }
}

#[test]
fn each_command_reads_each_form() {
    let commands: [&[&str]; 8] = [
        &["report"],
        &["report", "--vertex", "0"],
        &["order"],
        &["classes"],
        &["quotient", "--as", "words"],
        &["reduce", "--as", "words"],
        &["dot"],
        &["dot", "--reduced"],
    ];
    for name in ["b.txt", "c.txt", "d.txt", "lift-doors.txt"] {
        let (path, binary) = (format!("games/{name}"), bytes(&shipped(name)));
        let text = std::fs::read(crate::common::root().join(&path)).expect("a shipped game");
        let stored = file(&format!("{name}.bin"), &binary);
        for command in commands {
            let expected = run(&[command, &[&path]].concat()).bytes();
            assert_eq!(run(&[command, &[&stored]].concat()).bytes(), expected);
            assert_eq!(run_on(command, &binary).bytes(), expected);
            assert_eq!(run_on(command, &text).bytes(), expected);
            assert_eq!(run_on(&[command, &["-"]].concat(), &text).bytes(), expected);
        }
    }
}

#[test]
fn values_and_files_in_any_sequence() {
    let expected = run(&["classes", "games/d.txt", "--as", "words"]).bytes();
    for words in [
        ["classes", "--as", "words", "games/d.txt"].as_slice(),
        &["classes", "--as=words", "games/d.txt"],
        &["classes", "--as=words", "--", "games/d.txt"],
    ] {
        assert_eq!(run(words).bytes(), expected, "{words:?}");
    }
    let words = ["check-plan", "--player=even", "games/c.txt", "games/c.plan.txt"];
    assert_eq!(run(&words).text(), "accepted\n");
}

#[test]
fn surplus_marks_are_told() {
    let marks = file("surplus.txt", b"1 0 1\n0 1 0\n1 0 1\n# too many\n1 1");
    let ran = run(&["check-relation", "games/b.txt", &marks]);
    assert_eq!((ran.status, &ran.out[..]), (0, &b"accepted\n"[..]));
    let note = "surplus.txt: line 5, word 1: only the first 9 of 11 marks are judged\n";
    assert!(ran.err.ends_with(note), "{}", ran.err);
    let order = file("order-of-d.txt", run(&["order", "games/d.txt"]).text().as_bytes());
    let ran = run(&["check-relation", "games/c.txt", &order]);
    assert_eq!((ran.status, &ran.out[..]), (1, &b"refused 10 at 0\n"[..]));
    assert!(ran.err.contains("only the first 25 of 36 marks are judged\n"), "{}", ran.err);
    let ran = run_on(&["check-relation", "games/b.txt", "-"], &[0b0101_0101, 1, 255, 0]);
    assert_eq!((ran.status, &ran.out[..]), (0, &b"accepted\n"[..]));
    let note = "byte 2 from 0, read as binary since byte 1 is a control character: only the first 2 of 4 bytes \
                are judged\n";
    assert!(ran.err.ends_with(note), "{}", ran.err);
}
