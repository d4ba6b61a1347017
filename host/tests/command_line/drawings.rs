//! Pictures: colours, dashes, and Graphviz itself.

use crate::common::root;
use crate::run::{file, in_terminal, not_tried, run, run_on};
use std::fs;
use std::os::unix::fs::PermissionsExt;
use std::path::PathBuf;
use std::process::Command;
use std::thread;
use std::time::Duration;

#[test]
fn classes_are_coloured_and_dropped_edges_dashed() {
    let game = run(&["dot", "games/d.txt"]).text();
    let dashed: Vec<&str> = game.lines().filter(|line| line.contains("dashed")).collect();
    assert_eq!(dashed, ["  0 -> 1 [style=dashed];"]);
    assert!(
        game.contains(
            "subgraph cluster_0 { label=\"class 0\"; style=filled; color=\"#cfe8fc\"; 0 ["
        ),
        "{game}"
    );
    let reduced = run(&["dot", "games/d.txt", "--reduced"]).text();
    assert!(
        reduced.contains("label=\"class 0: 0 and 5\\npriority 2\", fillcolor=\"#cfe8fc\"];"),
        "{reduced}"
    );
    assert!(!reduced.contains("dashed") && !reduced.contains("0 -> 1"), "{reduced}");
    let quotient = run(&["quotient", "games/c.txt", "--as=dot"]).text();
    assert!(quotient.contains("  0 -> 1 [style=dashed];\n  0 -> 2;\n"), "{quotient}");
    let quotient = run(&["quotient", "games/d.txt", "--as=dot"]).text();
    assert!(!quotient.contains("dashed"), "the quotient of d has no edge to drop");
    let governed = run(&["governed", "classes", "games/d.txt", "--as=dot"]).text();
    assert!(!governed.contains("dashed"), "its classes are others");
    // Many classes of two: the colours come again, and no class is left white.
    let numbers = |of: fn(usize) -> usize| {
        (0..30).map(|v| of(v).to_string()).collect::<Vec<String>>().join(" ")
    };
    let pairs = format!(
        "30 30 {} {} {} {}",
        numbers(|v| v / 2),
        numbers(|_| 0),
        numbers(|v| v),
        numbers(|v| v / 2 * 2)
    );
    let text = run_on(&["dot"], pairs.as_bytes()).text();
    assert_eq!(text.matches("; style=filled; color=\"#").count(), 15, "{text}");
}

/// The program in a folder of its own, which is all of its path: a `dot` of the test may stand there.
struct Alone {
    folder: PathBuf,
}

impl Alone {
    fn new(name: &str) -> Alone {
        let folder = PathBuf::from(env!("CARGO_TARGET_TMPDIR")).join(name);
        let _ = fs::remove_dir_all(&folder);
        fs::create_dir(&folder).expect("a folder");
        Alone { folder }
    }

    fn install(&self, script: &str) {
        let dot = self.folder.join("dot");
        fs::write(&dot, script).expect("a script");
        fs::set_permissions(&dot, fs::Permissions::from_mode(0o755)).expect("a program");
    }

    fn command(&self, words: &[&str]) -> Command {
        let mut program = Command::new(env!("CARGO_BIN_EXE_raskjomi"));
        program.arg("dot").args(words).current_dir(root()).env("PATH", &self.folder);
        program
    }

    fn run(&self, words: &[&str]) -> (Option<i32>, String, String) {
        let ran = self.command(words).output().expect("the program starts");
        let text = |bytes| String::from_utf8(bytes).expect("text");
        (ran.status.code(), text(ran.stdout), text(ran.stderr))
    }
}

/// A `dot` that shows its words, then the text.
const SHOWS: &str = "#!/bin/sh\necho \"<svg> $*\"\n/bin/cat\n";

#[test]
fn graphviz_draws_where_it_is_installed() {
    let (alone, words) = (Alone::new("graphviz"), ["games/b.txt", "--svg"]);
    let (status, out, err) = alone.run(&words);
    assert_eq!((status, &*out), (Some(2), ""));
    assert!(
        err.contains("Graphviz") && err.contains("; install it (apt install graphviz"),
        "{err}"
    );
    alone.install(SHOWS);
    let text = run(&["dot", "games/b.txt"]).text();
    assert_eq!(alone.run(&words), (Some(0), format!("<svg> -Tsvg\n{text}"), String::new()));
    alone.install("#!/bin/sh\necho 'no font' >&2\nexit 1\n");
    let (status, out, err) = alone.run(&words);
    assert_eq!((status, &*out), (Some(2), ""));
    assert!(err.contains("`dot` fails: no font; leave --svg out"), "{err}");
}

/// A game of so many vertices with an edge to each from itself, all of one class.
fn loops(vertices: usize) -> String {
    let numbers: Vec<String> = (0..vertices).map(|v| v.to_string()).collect();
    let (numbers, zeros) = (numbers.join(" "), vec!["0"; 2 * vertices].join(" "));
    file(
        &format!("loops-{vertices}.txt"),
        format!("{vertices} {vertices} {zeros} {numbers} {numbers}").as_bytes(),
    )
}

#[test]
fn a_picture_of_many_edges_has_the_quick_layout() {
    let (alone, few, many) = (Alone::new("layouts"), loops(200), loops(201));
    alone.install(SHOWS);
    let drawn = |words: &[&str]| {
        let (status, out, err) = alone.run(words);
        assert_eq!((status, &*err), (Some(0), ""));
        let (line, text) = out.split_once('\n').expect("lines");
        (line.to_string(), text.to_string())
    };
    let text = run(&["dot", &few]).text();
    assert_eq!(drawn(&[&few, "--svg"]), ("<svg> -Tsvg".into(), text));
    let (line, text) = drawn(&[&many, "--svg"]);
    assert_eq!(line, "<svg> -Tsvg -Ksfdp -Goverlap=prism");
    let vertex =
        "  200 [shape=diamond, label=\"200 (class 0)\\npriority 0\", fillcolor=\"#cfe8fc\"];\n";
    assert!(text.contains(vertex) && !text.contains("cluster"), "{text}");
    assert!(run(&["dot", &many]).text().contains("cluster_0"), "the text itself has frames");
    // The reduced game has one edge.
    let reduced = run(&["dot", &many, "--reduced"]).text();
    assert_eq!(drawn(&[&many, "--svg", "--reduced"]), ("<svg> -Tsvg".into(), reduced));
}

#[test]
fn a_picture_that_fails_or_is_interrupted_leaves_the_file() {
    let (alone, path) = (Alone::new("interrupted"), file("old.svg", b"old"));
    let (words, begun) = (["games/b.txt", "--svg", "-o", &path], alone.folder.join("begun"));
    let half = format!("#!/bin/sh\necho '<svg>'\n: > '{}'\n", begun.display());
    alone.install(&format!("{half}exit 1\n"));
    let (status, out, err) = alone.run(&words);
    assert_eq!((status, &*out), (Some(2), ""));
    assert!(err.contains("`dot` fails: it says nothing; "), "{err}");
    assert_eq!(fs::read(&path).expect("the file"), b"old");
    fs::remove_file(&begun).expect("it was begun");
    alone.install(&format!("{half}exec /bin/sleep 2\n"));
    let mut running = alone.command(&words).spawn().expect("the program starts");
    while !begun.exists() {
        thread::sleep(Duration::from_millis(5));
    }
    running.kill().expect("it runs");
    running.wait().expect("it ends");
    assert_eq!(fs::read(&path).expect("the file"), b"old");
}

#[test]
fn a_picture_that_takes_long_is_told() {
    let alone = Alone::new("slow");
    alone.install("#!/bin/sh\n/bin/sleep 2\necho '<svg>'\n");
    let line = format!(
        "PATH='{}' '{}' dot games/b.txt --svg",
        alone.folder.display(),
        env!("CARGO_BIN_EXE_raskjomi")
    );
    let shown = in_terminal(&line);
    assert!(
        shown.contains("raskjomi: the picture: 1 s so far") && shown.contains("<svg>"),
        "{shown}"
    );
}

/// In ranks, Graphviz takes more than a minute for this game.
#[test]
fn graphviz_itself_draws_the_largest_games() {
    let mut program = Command::new(env!("CARGO_BIN_EXE_raskjomi"));
    let game = file("largest.bin", &run(&["seed", "1", "512", "8", "8", "--as=words"]).bytes());
    let path = file("largest.svg", b"");
    let ran =
        program.args(["dot", &game, "--svg", "-o", &path]).output().expect("the program starts");
    let err = String::from_utf8_lossy(&ran.stderr);
    if err.contains("needs Graphviz") {
        not_tried("a picture of 512 vertices, as Graphviz isn't installed");
        return;
    }
    assert!(ran.status.success(), "{err}");
    let picture = fs::read_to_string(&path).expect("a picture");
    assert_eq!(picture.matches("class=\"node\"").count(), 512);
}

/// The edges that a picture has in the titles of its arrows, as Graphviz writes them.
fn drawn(picture: &str) -> Vec<String> {
    let text = fs::read_to_string(root().join("docs").join(picture)).expect("the picture");
    let titles = text.split("<title>").skip(1).filter_map(|rest| rest.split("</title>").next());
    let mut edges: Vec<String> = titles
        .filter(|title| title.contains("&gt;"))
        .map(|title| title.replace("&#45;&gt;", " -> "))
        .collect();
    edges.sort();
    edges
}

#[test]
fn the_pictures_of_the_method_are_the_programs() {
    let pictures: [(&str, &[&str]); 2] =
        [("lift-doors.svg", &[]), ("lift-doors-reduced.svg", &["--reduced"])];
    for (picture, option) in pictures {
        let text = run(&[&["dot", "games/lift-doors.txt"], option].concat()).text();
        let edges = text.lines().filter(|line| line.contains(" -> "));
        let mut edges: Vec<&str> =
            edges.filter_map(|line| line.trim().split([';', '[']).next()).map(str::trim).collect();
        edges.sort_unstable();
        assert_eq!(drawn(picture), edges, "{picture}");
    }
}
