//! What people expect of a command line.

use crate::common::root;
use crate::run::{bytes, file, in_terminal, run, run_on, shipped};
use std::ffi::OsStr;
use std::fs;
use std::os::unix::ffi::OsStrExt;
use std::path::PathBuf;
use std::process::Command;

fn folder() -> PathBuf {
    PathBuf::from(env!("CARGO_TARGET_TMPDIR"))
}

#[test]
fn version() {
    let origin = match env!("RASKJOMI_ORIGIN") {
        "proved" => "proved from their sources by the build",
        _ => "given to the build, which proved nothing",
    };
    let (version, fingerprint) = (env!("CARGO_PKG_VERSION"), env!("RASKJOMI_FINGERPRINT"));
    let version = format!("raskjomi {version}\narchives {fingerprint}, {origin}\n");
    assert_eq!(run(&["--version"]).text(), version);
    assert_eq!(run(&["-V"]).text(), version);
}

#[test]
fn names_that_are_no_text() {
    let name = OsStr::from_bytes(b"caf\xe9.txt");
    let game = folder().join(name);
    fs::copy(root().join("games/b.txt"), &game).expect("a copy");
    let output = folder().join(OsStr::from_bytes(b"out\xff.txt"));
    let program = |last: &OsStr| {
        let mut program = Command::new(env!("CARGO_BIN_EXE_raskjomi"));
        program.arg("reduce").arg(&game).arg(last).output().expect("the program starts")
    };
    let expected = run(&["reduce", "games/b.txt"]).bytes();
    assert_eq!(program(OsStr::new("--as=text")).stdout, expected);
    let mut option = b"--output=".to_vec();
    option.extend(output.as_os_str().as_bytes());
    assert!(program(OsStr::from_bytes(&option)).stdout.is_empty());
    assert_eq!(fs::read(&output).expect("the output"), expected);
    let missing = program(OsStr::from_bytes(b"\xff"));
    assert_eq!(missing.status.code(), Some(2), "two games");
}

#[test]
fn words_after_two_dashes_are_files() {
    let dashed = folder().join("--help");
    fs::copy(root().join("games/b.txt"), &dashed).expect("a copy");
    let mut program = Command::new(env!("CARGO_BIN_EXE_raskjomi"));
    let ran =
        program.args(["report", "--", "--help"]).current_dir(folder()).output().expect("a run");
    assert_eq!(ran.stdout, run(&["report", "games/b.txt"]).bytes());
}

#[test]
fn outputs_to_a_file() {
    let path = folder().join("reduced.txt");
    let output = path.to_str().expect("a plain path");
    for words in
        [["-o", output].as_slice(), &["--output", output], &[&format!("--output={output}")]]
    {
        let _ = fs::remove_file(&path);
        assert_eq!(run(&[&["reduce", "games/d.txt"], words].concat()).text(), "");
        assert_eq!(fs::read(&path).expect("the output"), run(&["reduce", "games/d.txt"]).bytes());
    }
    fs::write(&path, "old").expect("a file");
    run(&["report", "games/c.plan.txt", "-o", output]).fails(1, &["refused 4"]);
    assert_eq!(fs::read(&path).expect("the file"), b"old", "it stays where the command fails");
    let standard = run(&["reduce", "games/d.txt", "-o", "-"]).bytes();
    assert_eq!(standard, run(&["reduce", "games/d.txt"]).bytes());
    assert!(!root().join("-").exists(), "no file of that name");
    run(&["reduce", "games/d.txt", "-o"]).fails(2, &["reduce: -o needs a file; usage: "]);
    run(&["reduce", "games/d.txt", "-o", "a", "-o", "b"]).fails(2, &["-o is given twice"]);
    let no = run(&["reduce", "games/d.txt", "-o", "/none/a"]);
    no.fails(
        2,
        &["/none/a: no such file or directory; name a file that can be written after -o\n"],
    );
    // A game may be replaced by itself.
    let game = file("in-place.txt", &fs::read(root().join("games/d.txt")).expect("a game"));
    run(&["edit", &game, "--remove=0:1", "-o", &game]).text();
    assert!(run(&["report", &game]).text().starts_with("game 6 7\n"));
}

#[test]
fn the_output_does_not_depend_on_the_path() {
    let lines: [&[&str]; 10] = [
        &["report"],
        &["order"],
        &["classes"],
        &["quotient"],
        &["reduce", "--with-classes"],
        &["convert"],
        &["dot"],
        &["report", "--json"],
        &["edit", "-", "--add=5:1"],
        &["verdict", "-", "games/c.plan.txt", "--player=even", "--vertex=5"],
    ];
    let text = fs::read(root().join("games/d.txt")).expect("a game");
    let copy = file("another-name.txt", &text);
    for line in lines {
        let of = |path: &str| {
            let there = line.contains(&"-");
            let named = line.iter().map(|&word| if word == "-" { path } else { word });
            let words: Vec<&str> = named.chain((!there).then_some(path)).collect();
            run(&words).bytes()
        };
        assert_eq!(of("games/d.txt"), of(&copy), "{line:?}");
        assert_eq!(of("games/d.txt"), run_on(line, &text).bytes(), "{line:?}");
    }
}

#[test]
fn control_characters_and_utf_16() {
    let plain = "save it as plain text, or say --binary if it is none";
    let told = |input: &[u8], place: &str| {
        let message = format!("standard input: {place}; {plain}\n");
        assert_eq!(run_on(&["report"], input).fails(2, &[&message]), "");
    };
    told(b"3 3\n0 1 \x1a0 0 0 1 0 1 2 1 1 1", "line 2, column 5: control character 26");
    told("# é\u{7f}\n1 1 0 0 0 0".as_bytes(), "line 1, column 4: control character 127");
    told(b"1 1 1 1 0 0 \0", "line 1, column 13: control character 0");
    let wide = |text: &str, bytes: fn(u16) -> [u8; 2]| {
        text.encode_utf16().flat_map(bytes).collect::<Vec<u8>>()
    };
    let utf_16 = "line 1, column 1: text in UTF-16";
    for text in ["1 1 0 0 0 0\n", "\u{feff}1 1 0 0 0 0\n", "\u{feff}parity 0; 0 0 0 0;"] {
        told(&wide(text, u16::to_le_bytes), utf_16);
        told(&wide(text, u16::to_be_bytes), utf_16);
    }
    // Each can be forced.
    let stray = b"1 1 1 1 0 0 \x1a";
    run_on(&["report", "--binary"], stray)
        .fails(1, &["word 0 from 0 (n is 8241), read as binary: refused 2 at 0"]);
    run_on(&["report", "--text"], stray).fails(2, &["line 1, word 7: `?` is no number"]);
    let b = bytes(&shipped("b.txt"));
    run_on(&["report", "--text"], &b).fails(2, &["line 1, word 1: `?"]);
    assert_eq!(run_on(&["report", "--binary"], &b).text(), run(&["report", "games/b.txt"]).text());
    run(&["report", "games/b.txt", "--text", "--binary"])
        .fails(2, &["--text and --binary exclude each other"]);
    let text = fs::read(root().join("games/b.txt")).expect("a game");
    assert_eq!(run_on(&["report", "--text"], &text).text(), run(&["report", "games/b.txt"]).text());
}

#[test]
fn two_vertices_of_one_name() {
    let game = file("twins.pg", b"parity 5;\n1 0 0 1 \"a\";\n3 0 0 1 \"a\";\n5 0 0 1 \"b\";\n");
    let told = "2 vertices are called a: those with the ids 1, 3";
    let lines: [&[&str]; 5] = [
        &["report", &game, "--vertex=a"],
        &["why", &game, "a", "b"],
        &["why", &game, "b", "a", "--large"],
        &["edit", &game, "--add=b:a"],
        &["edit", &game, "--remove=a:b"],
    ];
    for line in lines {
        run(line).fails(2, &[told]);
    }
    assert!(run(&["report", &game, "--vertex=b"]).text().starts_with("Vertex id 5 "));
}

#[test]
fn a_command_that_waits_for_a_terminal_says_so() {
    let shown = |words: &str| in_terminal(&format!("'{}' {words}", env!("CARGO_BIN_EXE_raskjomi")));
    let told = "raskjomi: waiting for input from this terminal; end it by Ctrl-D";
    for words in ["report", "check -", "reduce -", "check-plan games/c.txt - --player even"] {
        assert!(shown(words).contains(told), "{words}: {}", shown(words));
    }
    assert!(!shown("report games/b.txt").contains(told));
}

#[test]
fn near_misses_are_suggested() {
    run(&["redcue"]).fails(2, &["no command `redcue` (perhaps `reduce`); `raskjomi --help`"]);
    run(&["help", "orders"]).fails(2, &["(perhaps `order`)"]);
    run(&["order", "--ass=text"]).fails(2, &["no option --ass (perhaps `--as`); usage: "]);
    run(&["carry", "--vertx", "5"]).fails(2, &["(perhaps `--vertex`)"]);
    for far in ["x", "shrink", ""] {
        let ran = run(&[far]);
        assert!(!ran.err.contains("perhaps"), "{}", ran.err);
    }
}

#[test]
fn errors_of_the_system_have_no_numbers() {
    for words in [["report", "games/none"], ["report", "games"], ["report", "games/b.txt/x"]] {
        let ran = run(&words);
        assert!(ran.status == 2 && !ran.err.contains("os error"), "{}", ran.err);
    }
}

#[test]
fn classes_as_comments() {
    let plain = run(&["reduce", "games/d.txt"]).text();
    let text = run(&["reduce", "games/d.txt", "--with-classes"]).text();
    let comments = text.strip_prefix(&plain).expect("comments at the end");
    assert!(
        comments.starts_with("# vertex 0: class 0\n")
            && comments.ends_with("# vertex 5: class 0\n")
    );
    for form in ["words", "dot", "pgsolver"] {
        let ran = run(&["reduce", "games/d.txt", "--with-classes", "--as", form]);
        ran.fails(2, &["the classes are comments, for text alone; write --with-classes --as text"]);
    }
    let named = b"parity 1; 0 0 0 0 \"a\"; 1 0 0 1;";
    run_on(&["reduce", "--with-classes"], named).fails(2, &["; write --with-classes --as text"]);
    let text = run_on(&["reduce", "--with-classes", "--as=text"], named).text();
    assert!(text.ends_with("\n# vertex 0 \"a\": class 0\n# vertex 1: class 0\n"), "{text}");
}

#[test]
fn each_option_is_described() {
    let overview = run(&["--help"]).text();
    let commands = overview.lines().filter_map(|line| line.strip_prefix("  ")?.split(' ').next());
    for command in commands {
        let help = run(&[command, "--help"]).text();
        let (_, options) = help.split_once("\noptions:\n").expect("options");
        let lines: Vec<&str> = options.lines().take_while(|line| !line.is_empty()).collect();
        for line in &lines {
            assert!(
                line.starts_with("  -") && line.len() > 30 && line.as_bytes()[26] == b' ',
                "{command}: {line}"
            );
        }
        let usage = help.lines().next().expect("a usage");
        for option in usage.split([' ', '[', ']', '=']).filter(|word| word.starts_with("--")) {
            assert!(
                lines.iter().any(|line| line.contains(&format!("{option} "))),
                "{command} {option}"
            );
        }
    }
}

#[test]
fn the_man_page_and_the_completions_have_every_command() {
    let overview = run(&["--help"]).text();
    let commands: Vec<&str> =
        overview.lines().filter_map(|line| line.strip_prefix("  ")?.split(' ').next()).collect();
    let (page, script) = (run(&["man"]).text(), run(&["completions"]).text());
    assert!(page.starts_with(".TH RASKJOMI 1 "), "{page}");
    for command in &commands {
        let shown = command.replace('-', "\\-");
        assert!(page.contains(&format!("\n.SS {shown}")), "{command}");
        assert!(script.contains(&format!("        {command}) options='")), "{command}");
    }
    for line in page.lines().filter(|line| line.starts_with('.')) {
        let known = [".TH ", ".SH ", ".SS ", ".PP", ".TP", ".nf", ".fi"];
        assert!(known.iter().any(|request| line.starts_with(request)), "{line}");
    }
    assert!(page.is_ascii() && page.contains("n \\[u00D7] n marks"), "{page}");
    let path = file("raskjomi.1", page.as_bytes());
    // Where groff is installed, it has nothing to warn of.
    if let Ok(ran) = Command::new("groff").args(["-man", "-ww", "-Tascii", "-z", &path]).output() {
        assert!(ran.status.success() && ran.stderr.is_empty(), "{ran:?}");
    }
}
