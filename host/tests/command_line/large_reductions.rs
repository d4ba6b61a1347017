//! Games of any size reduced, and their winners told.

use crate::run::{file, run, run_on, Run};
use generator::{any_large, large_random, solve_large, LargeTable, Lcg};
use std::fs;
use std::path::PathBuf;

/// A path for a file that isn't there yet.
pub fn path(name: &str) -> String {
    let path = PathBuf::from(env!("CARGO_TARGET_TMPDIR")).join(name);
    let _ = fs::remove_file(&path);
    path.to_str().expect("a plain path").into()
}

pub fn bytes(words: &[u32]) -> Vec<u8> {
    words.iter().flat_map(|word| word.to_le_bytes()).collect()
}

/// The numbers of decimal text.
pub fn numbers(text: &str) -> Vec<u32> {
    let code = text.lines().map(|line| line.split('#').next().unwrap_or_default());
    let words = code.flat_map(|line| line.split([' ', '/']).filter(|word| !word.is_empty()));
    words.map(|word| word.parse().expect("a number")).collect()
}

/// Standard output of a run that succeeds and tells a line.
pub fn told(run: Run, parts: &[&str]) -> String {
    run.fails(0, parts)
}

/// Two copies of a game side by side, some edges of each leading to the other.
pub fn doubled(lcg: &mut Lcg, table: &LargeTable) -> LargeTable {
    let n = table.n() as u32;
    let mut edges = Vec::new();
    for &(v, w) in table.edges.iter().chain(&table.edges) {
        let copy = if edges.len() < table.m() { 0 } else { n };
        edges.push((v + copy, w + n * lcg.below(2) as u32));
    }
    let [priorities, owners] = [&table.priorities, &table.owners].map(|part| part.repeat(2));
    LargeTable { priorities, owners, edges }
}

/// The text of a solution, as a solver writes it.
pub fn solution(table: &LargeTable) -> String {
    let solved = solve_large(table);
    let mut text = format!("paritysol {};\n", table.n() - 1);
    for v in 0..table.n() {
        let winner = solved.winners[v];
        match table.owners[v] == winner {
            true => {
                text += &format!("{v} {winner} {};\n", table.edges[solved.choices[v] as usize].1)
            }
            false => text += &format!("{v} {winner};\n"),
        }
    }
    text
}

pub fn table(words: &[u32]) -> LargeTable {
    let (n, m) = (words[0] as usize, words[1] as usize);
    let part = |from: usize, count: usize| words[from..from + count].to_vec();
    let edges = part(2 + 2 * n, m).into_iter().zip(part(2 + 2 * n + m, m)).collect();
    LargeTable { priorities: part(2, n), owners: part(2 + n, n), edges }
}

#[test]
fn reduced_games_are_checked_and_solved() {
    let mut lcg = Lcg::new(41);
    for n in [1, 3, 8, 40, 300].repeat(2) {
        let half = any_large(&mut lcg, n);
        let game = doubled(&mut lcg, &half);
        let name = file("any.bin", &bytes(&game.words()));
        let (reduced, classes) = (path("any.reduced.txt"), path("any.classes.txt"));
        told(
            run(&["reduce", &name, "--large", "-o", &reduced, "--classes", &classes]),
            &["merged by their moves"],
        );
        let small = table(&numbers(&fs::read_to_string(&reduced).expect("a game")));
        let list = numbers(&fs::read_to_string(&classes).expect("classes"));
        assert!(small.n() <= n && list.len() == 2 * n);
        let right = run(&["check-reduction", &name, &reduced, &classes]).text();
        assert!(right.starts_with(&format!("right: {} vert", 2 * n)), "{right}");
        let winners = solve_large(&game).winners;
        let of = |v: usize| ["Even", "Odd"][winners[v] as usize];
        let lines =
            (0..2 * n).map(|v| format!("vertex {v}: {} wins, as in class {}\n", of(v), list[v]));
        let solved = file("any.sol", solution(&small).as_bytes());
        let text = run(&["winners", &name, &solved, "--large"]).text();
        let (first, rest) = text.split_once('\n').expect("a first line");
        assert!(first.starts_with("right: Even wins at "), "{first}");
        assert_eq!(rest, lines.collect::<String>());
    }
}

#[test]
fn a_hundred_thousand_vertices() {
    let mut lcg = Lcg::new(5);
    let mut game = large_random(&mut lcg, 390, 1_200, 6);
    while game.n() < 60_000 {
        game = doubled(&mut lcg, &game);
    }
    let n = game.n();
    let name = file("round.bin", &bytes(&game.words()));
    let (reduced, classes) = (path("round.pg"), path("round.classes.txt"));
    let part = format!("round.bin: {n} vertices merged by their moves into ");
    let words = ["reduce", &name, "--as=pgsolver", "-o", &reduced, "--classes", &classes];
    told(run(&words), &[&part, "--then-order runs it"]);
    let right = run(&["check-reduction", &name, &reduced, &classes]).text();
    assert!(right.starts_with("right: 99,840 vertices in "), "{right}");
    assert!(run(&["merged", &name]).text().contains(", represented by vertex "));
    let text = told(run(&["reduce", &name, "--as=text"]), &[&part]);
    let small = table(&numbers(&text));
    assert!(small.n() <= 390);
    let solved = file("round.sol", solution(&small).as_bytes());
    let text = run(&["winners", &name, &solved]).text();
    assert_eq!(text.lines().count(), n + 1);
    let (v, w) = (n - 1, n / 2 - 1);
    let text = run(&["why", &name, &v.to_string(), &w.to_string()]).text();
    assert!(text.starts_with(&format!("Vertices {v} and {w} share class ")), "{text}");
}

/// Where the highest priority decides: ids with gaps, names and a start. 3 and 7 behave alike, but for their owners; 9 and 5 are ends.
const GAPS: &str =
    "parity 9; start 5;\n3 2 0 9 \"door\"; 5 1 1 3,7; 7 2 1 9 \"gate\"; 9 0 0 9,5 \"end\";\n";

#[test]
fn names_and_ids() {
    let game = file("reduced-gaps.pg", GAPS.as_bytes());
    let classes = path("reduced-gaps.classes.txt");
    let part = "reduced-gaps.pg: 4 vertices merged by their moves into 3, with 4 edges; the contract's own reducer, by the order of all pairs, may \
                make it smaller yet: --then-order runs it";
    let text = told(run(&["reduce", &game, "--large", "--classes", &classes]), &[part]);
    assert_eq!(text, "parity 2;\nstart 1;\n0 2 0 2 \"door\";\n1 1 1 0;\n2 0 0 1,2 \"end\";\n");
    assert_eq!(numbers(&fs::read_to_string(&classes).expect("classes")), [0, 1, 0, 2]);
    let reduced = file("reduced-gaps.merged.pg", text.as_bytes());
    assert_eq!(
        run(&["check-reduction", &game, &reduced, &classes]).text(),
        "right: 4 vertices in 3 classes\n"
    );
    let text = told(run(&["reduce", &game, "--large", "--as=text"]), &[part]);
    let title = "# reduced game; the lowest priority decides, and p stands for 2 - p in PGSolver's format\n";
    let names = "# vertex 0: 0 \"door\"\n# vertex 2: 2 \"end\"\n";
    assert!(text.starts_with(&format!("{title}{names}")), "{text}");
    let words = told(run(&["reduce", &game, "--large", "--as=words"]), &[part]);
    assert_eq!(words.as_bytes(), bytes(&numbers(&text)));
    let lowest = told(run(&["reduce", &game, "--large", "--lowest"]), &[part]);
    assert!(lowest.contains("\n0 2 0 2 \"door\";\n"), "{lowest}");
    let merged = run(&["merged", &game, "--large"]).text();
    assert_eq!(merged, "vertex id 7 \"gate\": class 0, represented by vertex id 3 \"door\"\n");
    let loops = run_on(&["merged", "--large"], b"2 2 / 0 1 / 0 0 / 0 1 / 0 1").text();
    assert_eq!(loops, "no vertex is represented by another\n");
}

#[test]
fn winners_by_names_and_ids() {
    let game = file("winners-gaps.pg", GAPS.as_bytes());
    let solved = file("winners-gaps.sol", b"paritysol 2;\n0 0 2;\n1 0;\n2 0 1;\n");
    let text = run(&["winners", &game, &solved, "--large"]).text();
    assert_eq!(
        text,
        "right: Even wins at 4 vertices, Odd at 0\nvertex id 3 \"door\": Even wins, as in class 0\nvertex id 5: Even wins, as in class 1\n\
         vertex id 7 \"gate\": Even wins, as in class 0\nvertex id 9 \"end\": Even wins, as in class 2\n"
    );
    let value = run(&["winners", &game, &solved, "--large", "--json"]).text();
    assert!(
        value.starts_with(
            "{\"accepted\":true,\"vertices\":4,\"edges\":6,\"even_wins\":4,\"odd_wins\":0,\"not_shown\":0,\"at\":[\
             {\"vertex\":0,\"id\":3,\"name\":\"door\",\"class\":0,\"winner\":\"Even\"},{\"vertex\":1,\"id\":5,"
        ),
        "{value}"
    );
}

#[test]
fn why_vertices_share_a_class_or_not() {
    let game = file("why-gaps.pg", GAPS.as_bytes());
    let why = |v: &str, w: &str| run(&["why", &game, v, w, "--large"]).text();
    assert_eq!(
        why("door", "7"),
        "Vertices id 3 \"door\" and id 7 \"gate\" share class 0, so they have the same winner: they have priority 2, and all their moves lead \
         to one class, whoever moves.\nclass 2: id 3 \"door\" to id 9 \"end\" | id 7 \"gate\" to id 9 \"end\"\n"
    );
    assert_eq!(
        why("5", "9"),
        "Vertices id 5 and id 9 \"end\" are in the classes 1 and 2: they have the priorities 1 and 0.\n\
         class 0: id 5 to id 3 \"door\", id 7 \"gate\" | id 9 \"end\" has no move there\n\
         class 1: id 5 has no move there | id 9 \"end\" to id 5\nclass 2: id 5 has no move there | id 9 \"end\" to id 9 \"end\"\n"
    );
    // 0 is Even's and 1 Odd's, with the same choice; 2 has one of its two moves; 3 and 4 are loops.
    let text = b"5 7 / 0 0 0 1 2 / 0 1 0 0 0 / 0 0 1 1 2 3 4 / 3 4 3 4 4 3 4";
    let why = |v: &str, w: &str| run_on(&["why", "-", v, w, "--large"], text).text();
    assert!(why("0", "1").contains(
        "0 and 1: Even moves at the first and Odd at the second, with 2 classes to choose from.\n"
    ));
    assert!(why("2", "0").contains("2 and 0: 0 alone has a move to class 3.\n"));
    assert!(why("0", "2").contains("0 and 2: 0 alone has a move to class 3.\n"));
    assert!(why("3", "3").contains("share class 3, so they have the same winner: they have priority 1 and one owner, and their moves"));
    run_on(&["why", "-", "0", "x", "--large"], text)
        .fails(2, &["no vertex `x`; write W with a name"]);
    let hub: String = (1..40).map(|v| format!("{v} 0 0 0;")).collect();
    let targets: Vec<String> = (1..40).map(|v| v.to_string()).collect();
    let text = format!("parity 39; 0 1 0 {}; {hub}", targets.join(","));
    let text = run_on(&["why", "-", "0", "1", "--large"], text.as_bytes()).text();
    assert!(
        text.contains(
            "0 to 1, 2, 3, 4, 5, 6, 7, 8, 9, 10, 11, 12 and 27 more | 1 has no move there\n"
        ),
        "{text}"
    );
}

#[test]
fn then_the_order() {
    // Even can go from 0 to 1 or 2, and 1 is below 2: the order drops that edge. 5 copies 1.
    let text = b"6 8 / 2 0 0 1 4 0 / 0 0 0 0 0 0 / 0 0 1 2 2 3 4 5 / 1 2 3 3 4 3 4 3";
    let classes = path("order.classes.txt");
    let words = ["reduce", "--large", "--then-order", "--classes", &classes];
    let both = run_on(&words, text).text();
    let moves = told(run_on(&["reduce", "--large"], text), &["into 5, with 7 edges; "]);
    assert_eq!(
        (numbers(&moves)[..2].to_vec(), numbers(&both)[..2].to_vec()),
        (vec![5, 7], vec![5, 6])
    );
    assert_eq!(numbers(&both), numbers(&run_on(&["reduce"], text).text()));
    assert_eq!(numbers(&fs::read_to_string(&classes).expect("classes")), [0, 1, 2, 3, 4, 1]);
    // Within the limits the order alone does the same.
    run_on(&["reduce", "--then-order", "--classes", &classes], text).text();
    assert_eq!(numbers(&fs::read_to_string(&classes).expect("classes")), [0, 1, 2, 3, 4, 1]);
    let many: String = (0..600).map(|v| format!("{v} {v} 0 {v};\n")).collect();
    let part = "600 vertices merged by their moves into 600, with 600 edges; up to 512 vertices and 4,096 edges the contract's own reducer";
    let text =
        told(run_on(&["reduce", "--then-order"], format!("parity;\n{many}").as_bytes()), &[part]);
    assert!(text.starts_with("parity 599;\n"), "{text}");
}

#[test]
fn above_the_limits_without_being_asked() {
    let loops = |n: usize| {
        format!("parity;\n{}", (0..n).map(|v| format!("{v} 0 0 {v};\n")).collect::<String>())
    };
    assert_eq!(
        told(run_on(&["reduce"], loops(513).as_bytes()), &["513 vertices"]),
        "parity 0;\n0 0 0 0;\n"
    );
    assert_eq!(run_on(&["reduce"], loops(512).as_bytes()).text(), "parity 0;\n0 0 0 0;\n");
    let all: Vec<String> = (0..65).map(|v| v.to_string()).collect();
    let full: String = (0..65).map(|v| format!("{v} 0 0 {};\n", all.join(","))).collect();
    told(
        run_on(&["reduce"], format!("parity;\n{full}").as_bytes()),
        &["65 vertices merged by their moves into 1"],
    );
}

#[test]
fn what_cannot_be_reduced_or_written() {
    let many: String = (0..513).map(|v| format!("{v} 0 0 {v};\n")).collect();
    let large = format!("parity;\n{many}");
    run_on(&["reduce", "--as=dot"], large.as_bytes())
        .fails(2, &["reduce: no form `dot`; write --as text"]);
    run_on(&["reduce", "--with-classes"], large.as_bytes()).fails(
        2,
        &["standard input: --with-classes is for games within the limits", "--classes FILE"],
    );
    run_on(&["reduce", "--large", "--classes=/none/a"], b"1 1 0 0 0 0").fails(
        2,
        &["/none/a: no such file or directory; name a file that can be written after --classes"],
    );
    let stuck = run_on(&["reduce", "--large"], b"3 2 / 0 0 0 / 0 0 0 / 0 1 / 1 0");
    assert_eq!(
        stuck.fails(
            1,
            &["standard input: vertex 2 has no edge out; give each vertex of the game an edge out"]
        ),
        ""
    );
    let mut words = vec![600, 600];
    words.extend([0; 4 * 600]);
    words[2402 - 1] = 600;
    run_on(&["reduce"], &bytes(&words))
        .fails(1, &["standard input: word 2401 from 0: refused 6 at 2401: "]);
    words[0] = 60_000;
    words.resize(20_000, 0);
    run_on(&["reduce"], &bytes(&words)).fails(1, &["refused 4 at 20000: "]);
}

#[test]
fn winners_within_the_limits() {
    let mut lcg = Lcg::new(31);
    for round in 0..20 {
        let half = large_random(&mut lcg, 6 + round, 20 + 3 * round, 4);
        let game = doubled(&mut lcg, &half);
        let words: Vec<String> = game.words().iter().map(u32::to_string).collect();
        let name = file("within.txt", words.join(" ").as_bytes());
        let reduced = run(&["reduce", &name, "--as=text"]).text();
        let small = table(&numbers(&reduced));
        let solved = file("within.sol", solution(&small).as_bytes());
        let winners = solve_large(&game).winners;
        let text = run(&["winners", &name, &solved]).text();
        for (v, line) in text.lines().skip(1).enumerate() {
            let of = ["Even", "Odd"][winners[v] as usize];
            assert!(line.starts_with(&format!("vertex {v}: {of} wins, as in class ")), "{line}");
        }
        assert_eq!(text.lines().count(), game.n() + 1);
    }
}

#[test]
fn winners_by_wrong_solutions() {
    // Vertices 0 and 1 have edges to 2 and 3, loops of priorities 1 and 2.
    let game = file("won.txt", b"4 6 / 0 0 1 2 / 0 0 1 1 / 0 1 0 1 2 3 / 2 3 3 2 2 3");
    let wrong = |solution: &str, status: i32, parts: &[&str]| {
        run_on(&["winners", &game, "-", "--large"], solution.as_bytes()).fails(status, parts)
    };
    // Class 1 is a loop of priority 1.
    let part = "standard input: wrong: Even is said to win at vertex 1, but the moves of the solution leave Odd";
    let told = wrong("paritysol 2; 0 0 1; 1 0; 2 0;", 1, &[part]);
    assert_eq!(told, "wrong at vertex 1\n");
    wrong(
        "paritysol 2; 0 0 1; 1 1 1; 2 0;",
        1,
        &["Even is said to win at vertex 0 and Odd at 1", ": refused 84 at 0: "],
    );
    wrong("paritysol 3; 0 0 2; 1 1 1; 2 0; 3 0;", 2, &["id 3"]);
    let json =
        run_on(&["winners", &game, "-", "--large", "--json"], b"paritysol 2; 0 0 1; 1 0; 2 0;");
    let value = json.fails(1, &["wrong"]);
    assert!(value.starts_with("{\"accepted\":false,\"refusal\":null,"), "{value}");
    run_on(&["winners", "-", "games/c.sol"], b"2 1 / 0 0 / 0 0 / 0 / 0")
        .fails(1, &["standard input: vertex 1 has no edge out"]);
}

#[test]
fn they_stand_in_the_help() {
    for command in ["check-reduction", "winners"] {
        let help = run(&[command, "--help"]).text();
        assert!(
            help.contains("A game may have any number of vertices and edges")
                && !help.contains("at most 512"),
            "{help}"
        );
    }
    for command in ["reduce", "merged", "why"] {
        let help = run(&[command, "--help"]).text().replace('\n', " ");
        assert!(
            help.contains(
                "take games above the limits as well, and any game in the same way with --large"
            ),
            "{help}"
        );
    }
    let man = run(&["man"]).text();
    assert!(
        man.contains("check\\-reduction GAME REDUCED CLASSES")
            && man.contains("winners GAME SOLUTION")
    );
    let completions = run(&["completions"]).text();
    assert!(completions
        .contains("        check-reduction) options='--certificate --save-certificate --json "));
    assert!(completions
        .contains("        reduce) options='--as --with-classes --classes --large --then-order "));
    for number in ["91", "94", "100", "106"] {
        assert!(run(&["explain", number]).text().starts_with(&format!("refusal {number}, ")));
    }
    run(&["explain", "93"])
        .fails(2, &["`93` is no refusal number; they are", "91, 92 and 94 to 106"]);
}
