//! The page's file, the names in it, its fingerprint and its size.

use crate::common::{outside, root};
use crate::page::{page, rows};
use crate::run::{bytes, file, run, run_on};
use std::fs;
use std::os::unix::fs::symlink;
use std::path::PathBuf;
use std::process::Command;

/// A folder of a test's own, with nothing in it.
fn folder(name: &str) -> PathBuf {
    let folder = outside().join(name);
    let _ = fs::remove_dir_all(&folder);
    fs::create_dir(&folder).expect("a folder");
    folder
}

/// The names of the files in a folder.
fn names(folder: &PathBuf) -> Vec<String> {
    let files =
        fs::read_dir(folder).expect("a folder").map(|file| file.expect("a file").file_name());
    let mut names: Vec<String> = files.map(|name| name.to_string_lossy().into()).collect();
    names.sort();
    names
}

#[test]
fn a_page_is_written_whole_or_not_at_all() {
    let folder = folder("page-files");
    let path = folder.join("page.html");
    let output = path.to_str().expect("a plain path");
    assert_eq!(run(&["page", "games/none.txt", "-o", output]).status, 2);
    assert!(names(&folder).is_empty(), "a refused game leaves nothing");
    assert_eq!(run(&["page", "games/b.txt", "-o", output]).text(), "");
    let page = fs::read(&path).expect("the page");
    assert_eq!(page, run(&["page", "games/b.txt"]).bytes());
    let refused = run(&["page", "games/c.txt", "-o", output]);
    refused.fails(
        2,
        &["page.html: the file is there already, and stays as it is; name another one", "--force"],
    );
    assert_eq!(fs::read(&path).expect("the page"), page, "it stays");
    assert_eq!(run(&["page", "games/none.txt", "-o", output, "--force"]).status, 2);
    assert_eq!(fs::read(&path).expect("the page"), page, "it stays where the game is refused");
    assert_eq!(run(&["page", "games/c.txt", "-o", output, "--force"]).text(), "");
    assert_eq!(fs::read(&path).expect("the page"), run(&["page", "games/c.txt"]).bytes());
    assert_eq!(names(&folder), ["page.html"], "nothing else is left");
}

#[test]
fn links_and_folders() {
    let folder = folder("page-links");
    let plain = |name: &str| folder.join(name).to_str().expect("a plain path").to_string();
    symlink("aim.html", folder.join("link.html")).expect("a link");
    run(&["page", "games/b.txt", "-o", &plain("link.html")])
        .fails(2, &["the file is there already"]);
    fs::write(folder.join("aim.html"), "old").expect("a file");
    assert_eq!(run(&["page", "games/b.txt", "-o", &plain("link.html"), "--force"]).text(), "");
    assert_eq!(fs::read(plain("aim.html")).expect("a page"), run(&["page", "games/b.txt"]).bytes());
    assert_eq!(names(&folder), ["aim.html", "link.html"]);
    let of_folder = folder.to_str().expect("a plain path");
    run(&["page", "games/b.txt", "-o", of_folder, "--force"])
        .fails(2, &["it is no file; name a file after -o"]);
    run(&["page", "games/b.txt", "-o", "/dev/null", "--force"]).fails(2, &["it is no file"]);
    run(&["page", "games/b.txt", "-o", &plain("none/page.html")])
        .fails(2, &["no such file or directory; name"]);
    run(&["page", "games/b.txt", "--force"])
        .fails(2, &["--force is for a file that is there; write -o FILE"]);
}

#[test]
fn options_that_need_each_other() {
    let words = ["page", "games/lift-doors.txt"];
    let plan = ["--plan", "games/lift-doors.reduced-plan.txt"];
    run(&[&words[..], &plan].concat())
        .fails(2, &["no player; write --player even or --player odd"]);
    run(&[&words[..], &["--player", "even"]].concat())
        .fails(2, &["--player is for a plan; write --plan"]);
    let both = [&words[..], &plan, &["--player=even", "--solution=games/lift-doors.sol"]].concat();
    run(&both).fails(2, &["--plan and --solution exclude each other"]);
    run(&["page", "-", "--solution", "-"]).fails(2, &["two inputs are standard input"]);
    run(&[&words[..], &["--pair", "7"]].concat()).fails(2, &["no pair `7`; write two vertices"]);
    run(&[&words[..], &["--pair", "7,14"]].concat())
        .fails(2, &["no vertex `14`; write --pair with"]);
}

#[test]
fn asked_pairs_are_shown_merged_or_not() {
    let page = page(&["games/lift-doors.txt", "--pair", "0,7", "--pair", "5,13", "--pair=1,4"]);
    let told: Vec<String> =
        rows(&page, "apart").iter().map(|row| row.named("tr")[0].text()).collect();
    let parted = [
        "07nothing: they share a class",
        "513pass 4; the other way round they fit",
        "14their priorities one way, their priorities the other way",
    ];
    assert_eq!(told[0], parted[0]);
    assert_eq!(told[2], parted[2]);
    assert!(told[1].starts_with("513pass "), "{told:?}");
}

/// A name that does harm where it is taken for something else than text.
const NAMES: [&str; 6] = [
    "<script>alert(1)</script>",
    "' onload='alert(1)",
    "&lt;b&gt; & <b>",
    "</title></style></script><!--",
    "\u{202e}gnp.\u{2066}\u{200f}",
    "a\u{1b}[31m\u{7}\u{0}",
];

#[test]
fn names_are_text_and_never_markup() {
    let lines: String =
        NAMES.iter().enumerate().map(|(id, name)| format!("{id} 0 0 {id} \"{name}\";\n")).collect();
    let path = file("page-names.pg", format!("parity {};\n{lines}", NAMES.len() - 1).as_bytes());
    let shown = page(&[&path]);
    let text = shown.text();
    for name in &NAMES[..4] {
        assert!(text.contains(&format!("\"{name}\"")), "{name}");
    }
    assert!(text.contains("\"[U+202E]gnp.[U+2066][U+200F]\""), "marks of direction are seen");
    assert!(text.contains("\"a?[31m??\""), "control characters are shown as everywhere");
    let written = run(&["page", &path]).text();
    assert!(!written.chars().any(|c| (c.is_control() && c != '\n')
        || "\u{200b}\u{200e}\u{200f}\u{202a}\u{202e}\u{2066}".contains(c)));
    assert_eq!(shown.named("script").len(), 1);
    assert!(shown.named("b").is_empty());
    for row in rows(&shown, "classes") {
        assert!(row
            .attribute("data-names")
            .is_some_and(|names| names.contains("script") && names.contains("gnp")));
    }
}

#[test]
fn a_file_name_is_text_too() {
    let folder = folder("page-<b>&\"'");
    let game = folder.join("it's <i>.txt");
    fs::copy(root().join("games/b.txt"), &game).expect("a copy");
    let path = game.to_str().expect("a plain path");
    let text = page(&[path]).text();
    assert!(text.contains("it's <i>.txt, "), "{text}");
    let command =
        text.split("raskjomi report ").nth(1).and_then(|rest| rest.split("Merged vertices").next());
    let line =
        format!("'{}' report {}", env!("CARGO_BIN_EXE_raskjomi"), command.expect("a command"));
    let ran = Command::new("sh").args(["-c", &line]).output().expect("a shell");
    assert_eq!(
        ran.stdout,
        run(&["report", "games/b.txt"]).bytes(),
        "the command is one for a shell"
    );
}

#[test]
fn the_fingerprint_is_that_of_the_file() {
    for game in ["games/b.txt", "games/lift-doors.txt"] {
        let summed =
            Command::new("sha256sum").arg(root().join(game)).output().expect("sha256sum").stdout;
        let summed = String::from_utf8(summed).expect("text");
        let page = page(&[game]);
        let shown = page.id("fingerprint").expect("a fingerprint").text();
        assert_eq!(Some(&*shown), summed.split(' ').next());
    }
}

/// The rows and columns of the formats that games come in.
#[test]
fn each_format_says_its_convention() {
    let words: [u16; 10] = [2, 2, 0, 1, 0, 0, 0, 1, 1, 1];
    let binary = file("page-format.bin", &bytes(&words));
    let named = file("page-format.pg", b"parity 9; 3 2 0 5 \"start\"; 5 1 1 3;");
    let said = |words: &[&str]| page(words).id("summary").expect("a summary").text();
    assert!(said(&["games/b.txt"]).contains("decimal textGame"));
    assert!(said(&[&binary]).contains(", binaryGame2 vertices, 2 edges"));
    let highest = said(&[&named]);
    assert!(
        highest.contains("PGSolver's format")
            && highest.contains("the highest priority decides in the file"),
        "{highest}"
    );
    assert!(highest.contains("2 different, from 1 to 2"), "{highest}");
    assert!(said(&[&named, "--lowest"]).contains("the lowest priority decides"));
    let page = page(&[&named]);
    assert!(
        page.id("vertex-3").is_some() && page.id("vertex-5").is_some(),
        "anchors are the file's ids"
    );
    let piped = run_on(&["page", "-"], &bytes(&words));
    assert!(String::from_utf8(piped.out).expect("text").contains("raskjomi report -"));
}

/// The games that make the longest pages: one class, no class of two, many names, moves of one to all.
#[test]
fn a_page_of_the_largest_games_is_at_most_5_megabytes() {
    let name = "\"&<>'\u{202e}".repeat(9).replace('"', "'");
    let line = |v: usize, names: bool| {
        let next: Vec<String> = (1..9).map(|i| ((v + i * i) % 512).to_string()).collect();
        let name = if names { format!(" \"{name}\"") } else { String::new() };
        format!("{v} 0 {} {}{name};\n", v % 2, next.join(","))
    };
    let one_class = |names: bool| (0..512).map(|v| line(v, names)).collect::<String>();
    let wide = (0..512).map(|v| match v {
        0..7 => format!(
            "{v} 0 {} {};\n",
            v % 2,
            (0..512).map(|w| w.to_string()).collect::<Vec<_>>().join(",")
        ),
        _ => format!("{v} 0 {} {v};\n", v % 2),
    });
    let seeds = [[1, 512, 8, 2], [2, 512, 8, 8]].map(|numbers| {
        let numbers = numbers.map(|number: u32| number.to_string());
        run(&["seed", &numbers[0], &numbers[1], &numbers[2], &numbers[3]]).text()
    });
    let games = [one_class(false), one_class(true), wide.collect()]
        .map(|lines| format!("parity 511;\n{lines}"));
    for (i, game) in games.iter().chain(&seeds).enumerate() {
        let path = file("page-large.txt", game.as_bytes());
        let length = run(&["page", &path]).bytes().len();
        assert!(length <= 5_000_000, "game {i}: {length} bytes");
    }
}

#[test]
fn a_part_of_a_game() {
    let part = ["games/crossing.pg", "--reachable", "32"];
    let page = page(&part);
    let printed = run(&[&["merged"], &part[..]].concat()).text();
    assert_eq!(
        rows(&page, "merged").len(),
        printed.lines().filter(|line| line.starts_with("vertex ")).count()
    );
    let text = page.text();
    assert!(text.contains("raskjomi report games/crossing.pg --reachable 32"), "{text}");
    assert!(text.contains("games/crossing.pg, the part from vertex id 32"), "{text}");
}

#[test]
fn a_note_is_told_once() {
    let game = file("page-twice.pg", b"parity 1; 0 0 0 1,1; 1 0 0 0;");
    let solution = file("page-twice.sol", b"paritysol 0; 0 0 0;");
    let ran = run(&["page", &game, "--solution", &solution]);
    assert_eq!((ran.status, ran.err.lines().count()), (0, 1), "{}", ran.err);
}
