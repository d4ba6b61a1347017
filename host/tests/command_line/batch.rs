//! Several games reduced in one run, and what is told of a run.

use crate::common::outside;
use crate::large_reductions::bytes as wide_bytes;
use crate::run::{bytes, file, run, run_on, shipped, Run};
use generator::{large_random, LargeTable, Lcg};
use std::collections::BTreeSet;
use std::fs;
use std::os::unix::fs::symlink;
use std::path::PathBuf;

/// A folder that isn't there yet.
fn folder(name: &str) -> String {
    let path = outside().join(name);
    let _ = fs::remove_dir_all(&path);
    path.to_str().expect("a plain path").into()
}

fn read(folder: &str, name: &str) -> Vec<u8> {
    fs::read(PathBuf::from(folder).join(name)).expect("a reduced game")
}

fn text(run: &Run) -> String {
    String::from_utf8(run.out.clone()).expect("text")
}

/// The words of each line of a table.
fn cells(table: &str) -> Vec<Vec<&str>> {
    table.lines().map(|line| line.split_whitespace().collect()).collect()
}

/// A game above the limits, which has some edges twice.
fn large() -> LargeTable {
    let mut game = large_random(&mut Lcg::new(81), 600, 1300, 3);
    let again = game.edges[..9].to_vec();
    game.edges.extend(again);
    game
}

/// Games as text, as binary and in PGSolver's format, and one above the limits.
fn games(test: &str) -> [String; 4] {
    let binary = bytes(&shipped("d.txt"));
    let in_pgsolver = run(&["pgsolver", "games/lift-doors.txt"]).bytes();
    [
        "games/c.txt".into(),
        file(&format!("{test}.d.bin"), &binary),
        file(&format!("{test}.lift.pg"), &in_pgsolver),
        file(&format!("{test}.large.bin"), &wide_bytes(&large().words())),
    ]
}

#[test]
fn each_game_is_written_under_its_name_and_sizes_are_told() {
    let (games, to) = (games("each"), folder("each/made/at/once"));
    for options in [&[][..], &["--as=words"], &["--as=pgsolver", "--large", "--then-order"]] {
        let names: Vec<&str> = games.iter().map(String::as_str).collect();
        let ran = run(&[&["reduce"], &names[..], &["-o", &to], options].concat());
        assert_eq!(ran.status, 0, "{ran:?}");
        let told = |part: &str| ran.err.lines().any(|line| line == format!("raskjomi: {part}"));
        let table = text(&ran);
        let table = cells(&table);
        assert_eq!(table[0], ["game", "vertices", "after", "edges", "after"]);
        let mut totals = [0; 4];
        for (index, name) in names.iter().enumerate() {
            assert!(told(&format!("{} of 4: {name}", index + 1)), "{}", ran.err);
            let alone = run(&[&["reduce", name][..], options].concat());
            let own = name.rsplit('/').next().expect("a name");
            assert_eq!(read(&to, own), alone.out, "{name} {options:?}");
            let row: Vec<usize> =
                table[index + 1][1..].iter().map(|cell| cell.parse().expect("a number")).collect();
            assert_eq!(table[index + 1][0], *name);
            totals.iter_mut().zip(&row).for_each(|(total, cell)| *total += cell);
        }
        let total: Vec<String> = totals.iter().map(usize::to_string).collect();
        assert_eq!(
            (table[5][0], table[5][1..].to_vec()),
            ("total", total.iter().map(|s| &**s).collect())
        );
        if options.is_empty() {
            assert_eq!(table[1][1..], ["5", "5", "7", "6"]);
            assert_eq!(table[2][1..], ["6", "5", "8", "6"]);
            assert_eq!(table[3][1..3], ["14", "7"]);
            let edges: BTreeSet<(u32, u32)> = large().edges.into_iter().collect();
            assert_eq!((table[4][1], table[4][3]), ("600", &*edges.len().to_string()));
            assert!(ran.err.contains("each.large.bin: 600 vertices merged by their moves into "));
        }
    }
}

#[test]
fn a_game_that_fails_keeps_no_other_from_being_written() {
    let to = folder("some");
    let refused = file("some.refused.txt", b"1 1 0 0 0 1");
    let words = ["reduce", "games/b.txt", &refused, "no/such.txt", "games/c.sol", "games/c.txt"];
    let ran = run(&[&words[..], &["-o", &to]].concat());
    assert_eq!(ran.status, 2, "{ran:?}");
    let table = text(&ran);
    let table = cells(&table);
    assert_eq!(table[2], [&*refused, "refused", "6", "at", "5"]);
    assert_eq!(table[3], ["no/such.txt", "not", "reduced"]);
    assert_eq!(table[6], ["total", "8", "7", "10", "8"]);
    for part in [
        "some.refused.txt: line 1, word 6 (vertex 1): refused 6 at 5: ",
        "no/such.txt: no such file or directory; name a file that can be read",
        "games/c.sol: a solution in PGSolver's format, where a game is wanted",
    ] {
        assert_eq!(ran.err.matches(part).count(), 1, "{part}: {}", ran.err);
    }
    assert_eq!(fs::read_dir(&to).expect("a folder").count(), 2);
    for name in ["b.txt", "c.txt"] {
        assert_eq!(read(&to, name), run(&["reduce", &format!("games/{name}")]).bytes());
    }
    let one = run(&["reduce", "games/b.txt", &refused, "-o", &to]);
    assert_eq!(one.status, 1, "the highest of all games': {one:?}");
    // A file that can't be written is told as well.
    fs::create_dir(PathBuf::from(&to).join("d.txt")).expect("a folder of this name");
    let blocked = run(&["reduce", "games/d.txt", "games/c.txt", "-o", &to]);
    assert_eq!(blocked.status, 2, "{blocked:?}");
    assert!(blocked.err.contains("some/d.txt: is a directory; name another folder"), "{blocked:?}");
    assert!(text(&blocked).contains("games/d.txt not reduced\n"));
}

#[test]
fn nothing_is_written_over_a_game_or_twice() {
    let to = folder("over");
    let no = |words: &[&str], parts: &[&str]| {
        let output = run(&[&["reduce"], words].concat()).fails(2, parts);
        assert_eq!(output, "");
    };
    no(
        &["games/b.txt", "games/c.txt"],
        &["reduce: several games, and no folder for them; write -o"],
    );
    no(&["games/b.txt", "games/c.txt", "-o", "-"], &["several games, and no folder for them"]);
    let copy = file("b.txt", &fs::read("../games/b.txt").expect("a game"));
    let problem = "b.txt: both would be written to one file; rename one of them";
    no(&["games/b.txt", "games/c.txt", &copy, "-o", &to], &["games/b.txt and ", problem]);
    let problem = "--classes FILE is for one game";
    no(&["games/b.txt", "games/c.txt", "-o", &to, "--classes", &copy], &[problem]);
    let problem = "standard input: no name for a file in a folder; name a file";
    no(&["games/b.txt", "-", "-o", &to], &[problem]);
    no(&["games/b.txt", "games/c.txt", "-o", &to, "--as=x"], &["no form `x`"]);
    assert!(!PathBuf::from(&to).exists(), "nothing is made");
    let problem = "b.txt: is a file, and several games need a folder; name another folder after -o";
    no(&["games/d.txt", "games/c.txt", "-o", &copy], &[problem]);
    // The game itself, or a link to it.
    fs::create_dir(&to).expect("a folder");
    let inside = format!("{to}/b.txt");
    fs::copy(&copy, &inside).expect("a copy");
    let problem = "over/b.txt: is one of the games, and would be written over; name another folder";
    no(&["games/c.txt", &inside, "-o", &to], &[problem]);
    no(&[&inside, "-o", &to], &[problem]);
    fs::remove_file(&inside).expect("a file");
    symlink(&copy, &inside).expect("a link");
    no(&["games/c.txt", &copy, "-o", &to], &[problem]);
    // Two names of one file.
    symlink(&inside, format!("{to}/d.txt")).expect("a link");
    let problem = "games/b.txt and games/d.txt: both would be written to one file; rename";
    no(&["games/b.txt", "games/d.txt", "-o", &to], &[problem]);
    let kept = fs::read(&copy).expect("a game");
    assert_eq!(kept, fs::read("../games/b.txt").expect("a game"));
    assert_eq!(fs::read_dir(&to).expect("a folder").count(), 2);
}

#[test]
fn one_game_goes_into_a_folder_that_is_there_and_else_to_a_file() {
    let to = folder("one");
    let reduced = run(&["reduce", "games/lift-doors.txt"]).bytes();
    assert_eq!(run(&["reduce", "games/lift-doors.txt", "-o", &to]).text(), "");
    assert_eq!(fs::read(&to).expect("a file"), reduced);
    fs::remove_file(&to).expect("a file");
    fs::create_dir(&to).expect("a folder");
    let table = run(&["reduce", "games/lift-doors.txt", "-o", &to]);
    assert!(table.fails(0, &["1 of 1: games/lift-doors.txt"]).starts_with("game "));
    assert_eq!(read(&to, "lift-doors.txt"), reduced);
    let game = fs::read("../games/b.txt").expect("a game");
    let standard = run_on(&["reduce", "-o", &to], &game);
    standard.fails(2, &["standard input: no name for a file in a folder", "by -o FILE"]);
    // Other commands write one output.
    run(&["quotient", "games/b.txt", "-o", &to]).fails(2, &["one: is a directory; name a file"]);
}

#[test]
fn statistics_go_to_standard_error() {
    for name in &games("stats") {
        let plain = run(&["reduce", name]);
        let ran = run(&["reduce", name, "--stats"]);
        assert_eq!((ran.status, &ran.out), (0, &plain.out), "{ran:?}");
        let is_large = name.ends_with("large.bin");
        let lines: Vec<&str> = ran.err.lines().skip(usize::from(is_large)).collect();
        let [told, all] = lines[..] else { panic!("two lines: {lines:?}") };
        let (sizes, times) = told.split_once("measured in this run: ").expect("times");
        let steps: Vec<&str> = times.split(", ").map(timed).collect();
        if is_large {
            assert_eq!(steps, ["read", "reduce", "check", "format"]);
            assert!(sizes.contains(": vertices 600 before and ") && !sizes.contains("passes"));
        } else {
            assert_eq!(steps, ["read", "reduce", "format", "passes"]);
            assert_eq!(sizes, reported(name));
        }
        let all = all.strip_prefix("raskjomi: measured in this run: ").expect("the run");
        let (time, memory) = all.split_once(", at most ").unwrap_or((all, "1.0 MiB of memory"));
        assert_eq!(timed(time), "all");
        let memory = memory.strip_suffix(" MiB of memory").expect("memory");
        assert!(memory.parse::<f64>().is_ok_and(|memory| memory > 0.5), "{memory}");
        assert_eq!(all.contains("memory"), cfg!(target_os = "linux"));
    }
    let ran = run(&["reduce", "games/b.txt", "games/c.txt", "-o", &folder("stats"), "--stats"]);
    assert_eq!(ran.err.matches(", write ").count(), 2, "{ran:?}");
    assert_eq!(ran.err.matches("measured in this run: all ").count(), 1);
}

/// What is told of a game's sizes and passes, by the report.
fn reported(name: &str) -> String {
    let report = run(&["report", name]).text();
    let of = |key: &str| report.lines().find_map(|line| line.strip_prefix(key)).expect("a line");
    let [(n, m), (k, q)] =
        ["game ", "reduced "].map(|key| of(key).split_once(' ').expect("two numbers"));
    let passes = of("passes ");
    format!(
        "raskjomi: {name}: vertices {n} before and {k} after, different edges {m} before and {q} after; passes {passes}; "
    )
}

/// The step of a measurement.
fn timed(step: &str) -> &str {
    let (step, time) = step.split_once(' ').expect("a step and its time");
    let time = time.strip_suffix(" ms").expect("milliseconds");
    assert!(time.parse::<f64>().is_ok_and(|time| time >= 0.0), "{step} {time}");
    step
}
