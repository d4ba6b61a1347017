//! Every vertex of a game answered by a solution of its reduced game, and the solution of the game written.

use crate::large_reductions::{doubled, numbers, solution, table};
use crate::run::{file, run, run_on};
use generator::{large_random, solve_large, LargeTable, Lcg};
use std::fs;

/// The id of a vertex in a file with gaps.
fn id(vertex: u32) -> u32 {
    3 * vertex + 2
}

/// A game in PGSolver's format, with gaps between ids, names and a start.
fn with_gaps(game: &LargeTable) -> String {
    let even = 2 * game.priorities.iter().max().expect("a vertex").div_ceil(2);
    let mut text = format!("parity {};\nstart {};\n", id(game.n() as u32 - 1), id(0));
    for v in 0..game.n() as u32 {
        let [priority, owner] = [&game.priorities, &game.owners].map(|part| part[v as usize]);
        let edges = game.edges.iter().filter(|edge| edge.0 == v);
        let mut targets: Vec<u32> = edges.map(|edge| id(edge.1)).collect();
        targets.sort_unstable();
        targets.dedup();
        let targets: Vec<String> = targets.iter().map(u32::to_string).collect();
        text += &format!("{} {} {owner} {} \"v{v}\";\n", id(v), even - priority, targets.join(","));
    }
    text
}

/// The text of a solution of the reduced game, by the second solver.
fn solved(name: &str, way: &[&str]) -> String {
    let reduced = run(&[&["reduce", name, "--as=text"], way].concat());
    assert_eq!(reduced.status, 0, "{reduced:?}");
    solution(&table(&numbers(&String::from_utf8(reduced.out).expect("text"))))
}

/// The written solution is one of the game, and has a move at each vertex of its winner's.
fn solution_is_right(name: &str, game: &LargeTable, words: &[&str]) {
    let written = name.replace(".pg", ".written.sol");
    assert_eq!(run(&[words, &["--as=solution", "-o", &written]].concat()).text(), "");
    let right = run(&["check-solution", name, &written, "--start"]).text();
    assert!(right.starts_with("right: "), "{right}");
    let (text, winners) =
        (fs::read_to_string(&written).expect("a file"), solve_large(game).winners);
    assert!(text.starts_with(&format!("paritysol {};\n", id(game.n() as u32 - 1))), "{text}");
    for (v, line) in text.lines().skip(1).enumerate() {
        let parts: Vec<&str> = line.trim_end_matches(';').split(' ').collect();
        let moves = usize::from(game.owners[v] == winners[v]);
        assert_eq!(parts[..2], [id(v as u32).to_string(), winners[v].to_string()]);
        assert_eq!(parts.len(), 2 + moves, "{line}");
    }
}

#[test]
fn every_vertex_of_random_games() {
    let mut lcg = Lcg::new(77);
    for (round, n) in [2, 3, 5, 8, 12, 20, 30, 60].repeat(2).into_iter().enumerate() {
        let half = large_random(&mut lcg, n, 3 * n, 5);
        let game = doubled(&mut lcg, &half);
        let name = file("winners-any.pg", with_gaps(&game).as_bytes());
        let winners = solve_large(&game).winners;
        let way: &[&str] = if round % 4 == 3 { &["--large"] } else { &[] };
        let solved = file("winners-any.sol", solved(&name, way).as_bytes());
        let words = [&["winners", &name, &solved], way].concat();
        let text = run(&words).text();
        assert_eq!(text.lines().count(), game.n() + 1);
        for (v, line) in text.lines().skip(1).enumerate() {
            let (id, of) = (id(v as u32), ["Even", "Odd"][winners[v] as usize]);
            let told = format!("vertex id {id} \"v{v}\": {of} wins, as in class ");
            assert!(line.starts_with(&told), "{line}");
        }
        solution_is_right(&name, &game, &words);
    }
}

#[test]
fn the_largest_games() {
    let mut lcg = Lcg::new(9);
    let half = large_random(&mut lcg, 256, 1_790, 40);
    let game = doubled(&mut lcg, &half);
    assert!(game.n() == 512 && game.m() <= 4_096, "{}", game.m());
    let name = file("winners-largest.pg", with_gaps(&game).as_bytes());
    let solved = file("winners-largest.sol", solved(&name, &[]).as_bytes());
    solution_is_right(&name, &game, &["winners", &name, &solved]);
}

/// The highest priority decides. Even can go from "hall" to "lift", whose priority is 2, or to "shaft", where it is 1; both lead back.
const HALL: &str =
    "parity 7;\nstart 3;\n3 0 0 5,7 \"hall\";\n5 2 1 3 \"lift\";\n7 1 1 3 \"shaft\";\n";

#[test]
fn the_solution_of_a_file_with_gaps() {
    let game = file("winners-hall.pg", HALL.as_bytes());
    let reduced = run(&["reduce", &game]).text();
    assert_eq!(
        reduced,
        "parity 2;\nstart 0;\n0 0 0 1,2 \"hall\";\n1 2 1 0 \"lift\";\n2 1 1 0 \"shaft\";\n"
    );
    let right = b"paritysol 2;\n0 0 1;\n1 0;\n2 0;\n";
    for way in [&[][..], &["--large"]] {
        let words = [&["winners", &game, "-", "--as", "solution"], way].concat();
        let text = run_on(&words, right).text();
        assert_eq!(text, "paritysol 7;\n3 0 5;\n5 0;\n7 0;\n");
    }
    assert!(run_on(&["winners", &game, "-", "--as=text"], right).text().starts_with("right: "));
    run_on(&["winners", &game, "-", "--as=words"], right)
        .fails(2, &["winners: no form `words`; write --as text or --as solution"]);
}

#[test]
fn wrong_is_told_apart_from_unreadable() {
    let game = file("winners-wrong.pg", HALL.as_bytes());
    for way in [&[][..], &["--large"]] {
        let line = [&["winners", &game, "-"], way].concat();
        let as_solution = [&line[..], &["--as=solution"]].concat();
        // The move from 0 to 2 leaves Odd the closed walk.
        let wrong = b"paritysol 2;\n0 0 2;\n1 0;\n2 0;\n";
        let told = "standard input: wrong: Even is said to win at vertex 2 \"shaft\", but the moves of the solution leave Odd the closed walk \
                    2 \"shaft\" -> 0 \"hall\" -> 2 \"shaft\", whose highest priority 1 in the file is odd; solve the game again";
        for words in [&line, &as_solution] {
            let out = run_on(words, wrong).fails(1, &[told]);
            assert_eq!(out, "wrong at vertex 2 \"shaft\"\n");
        }
        let value = run_on(&[&line[..], &["--json"]].concat(), wrong).fails(1, &[told]);
        let walk = "\"walk\":[{\"vertex\":2,\"id\":2,\"name\":\"shaft\"},{\"vertex\":0,\"id\":0,\"name\":\"hall\"}],\"edges\":[3,1]}";
        assert!(value.starts_with("{\"accepted\":false,\"refusal\":null,"), "{value}");
        assert!(value.trim_end().ends_with(walk), "{value}");
        let leaving = "Even is said to win at vertex 0 \"hall\" and Odd at 1 \"lift\", but the move of Even's strategy leads from 0 \"hall\" to 1 \"lift\"";
        run_on(&line, b"paritysol 2;\n0 0 1;\n1 1 0;\n2 0;\n").fails(1, &[leaving]);
        run_on(&line, b"paritysol 2;\n0 0 0;\n1 0;\n2 0;\n").fails(2, &["line 2", "no successor"]);
        run_on(&line, b"paritysol 2;\n0 0 1;\n1 0 x;\n2 0;\n").fails(2, &["line 3"]);
    }
}

#[test]
fn classes_that_are_left_out() {
    // 0 goes round; Even can go from 1 to 0 or to 2, where Odd wins, and from 3 to 2.
    let game = file(
        "winners-part.pg",
        b"parity 9;\n0 4 1 0 \"home\";\n1 1 0 0,2;\n2 3 1 2 \"trap\";\n9 2 0 2 \"edge\";\n",
    );
    for way in [&[][..], &["--large"]] {
        let line = [&["winners", &game, "-"], way].concat();
        let solved = b"paritysol 3;\n0 0;\n1 0 0;\n3 1;\n";
        let first = "right: Even wins at 2 vertices, Odd at 0; not shown: 2\n";
        let shown =
            "vertex id 0 \"home\": Even wins, as in class 0\nvertex id 1: Even wins, as in class 1\n";
        let trap = "standard input has no line for class 2 \"trap\"";
        let edge = "by standard input a play from class 3 \"edge\" can come to class 2 \"trap\", for which it has no line";
        let rest = format!(
            "vertex id 2 \"trap\": not shown: {trap}\nvertex id 9 \"edge\": not shown: {edge}\n"
        );
        assert_eq!(run_on(&line, solved).not_shown(), format!("{first}{shown}{rest}"));
        let value = run_on(&[&line[..], &["--json"]].concat(), solved).not_shown();
        assert!(
            value.contains("\"even_wins\":2,\"odd_wins\":0,\"not_shown\":2,\"at\":["),
            "{value}"
        );
        let part = "{\"vertex\":2,\"id\":2,\"name\":\"trap\",\"class\":2,\"winner\":null,\"why\":\"standard input has no line for class 2";
        assert!(value.contains(part), "{value}");
        let kept = file("winners-part.kept", b"kept");
        let told = "no solution is written, as 2 of 4 vertices are not shown: standard input has no line for class 2 \"trap\"; solve the whole";
        run_on(&[&line[..], &["--as=solution", "-o", &kept]].concat(), solved).fails(4, &[told]);
        assert_eq!(fs::read(&kept).expect("a file"), b"kept");
        // What it decides is wrong.
        run_on(&line, b"paritysol 3;\n0 1 0;\n1 1;\n3 1;\n")
            .fails(1, &["Odd is said to win at vertex 0 \"home\""]);
    }
}

#[test]
fn parts_of_solutions_of_random_games() {
    let mut lcg = Lcg::new(78);
    let (mut shown, mut open) = (0, 0);
    for n in [2, 4, 8, 16].repeat(6) {
        let game = large_random(&mut lcg, n, 2 * n, 4);
        let name = file("winners-some.pg", with_gaps(&game).as_bytes());
        let winners = solve_large(&game).winners;
        let whole = solved(&name, &[]);
        let lines: Vec<&str> = whole.lines().filter(|_| !lcg.once_in(4)).collect();
        let part = lines.join("\n");
        let ran = run_on(&["winners", &name, "-"], part.as_bytes());
        let text = String::from_utf8(ran.out).expect("text");
        for (v, line) in text.lines().skip(1).enumerate() {
            let of = ["Even", "Odd"][winners[v] as usize];
            let is_open = line.contains(": not shown: ");
            (shown, open) = (shown + usize::from(!is_open), open + usize::from(is_open));
            assert!(is_open || line.contains(&format!(": {of} wins, as in class ")), "{line}");
        }
        let status = if text.contains(": not shown: ") { 4 } else { 0 };
        assert_eq!((ran.status, &*ran.err), (status, ""), "{part}");
    }
    assert!(shown > 50 && open > 50, "{shown} shown, {open} not");
}
