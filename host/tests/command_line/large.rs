//! Solutions of games of any size, checked.

use crate::common::root;
use crate::run::{bytes, file, run, run_on, words, Run};
use generator::{any_game, solve, Lcg, Table};
use std::fs;
use std::path::PathBuf;

/// A solution of the lowest-priority game, as a solver writes it, with other winners at some vertices.
fn written(game: &Table, spoilt: &[usize]) -> String {
    let solution = solve(game);
    let line = |v: usize| {
        let winner = solution.winner[v] ^ u16::from(spoilt.contains(&v));
        match game.owners[v] == winner {
            true if spoilt.contains(&v) => format!("{v} {winner} {};\n", game.successors()[v][0]),
            true => format!("{v} {winner} {};\n", solution.choice[v]),
            false => format!("{v} {winner};\n"),
        }
    };
    let lines: String = (0..game.n()).map(line).collect();
    format!("paritysol {};\n{lines}", game.n() - 1)
}

fn check(line: &[&str]) -> Run {
    run(&[&["check-solution"], line].concat())
}

/// A path for a file that isn't there yet.
fn path(name: &str) -> String {
    let path = PathBuf::from(env!("CARGO_TARGET_TMPDIR")).join(name);
    let _ = fs::remove_file(&path);
    path.to_str().expect("a plain path").into()
}

#[test]
fn right_solutions_are_accepted_and_spoilt_ones_are_not() {
    let mut lcg = Lcg::new(40);
    for most in [1, 4, 9, 20].repeat(3) {
        let table = any_game(&mut lcg, most);
        let game = file("large.bin", &bytes(&table.words()));
        let solution = file("large.sol", written(&table, &[]).as_bytes());
        let winner = solve(&table).winner;
        let odd = winner.iter().filter(|&&winner| winner == 1).count();
        let even = winner.len() - odd;
        let vertices = if even == 1 { "vertex" } else { "vertices" };
        let right = format!("right: Even wins at {even} {vertices}, Odd at {odd}\n");
        assert_eq!(check(&[&game, &solution]).text(), right);
        let v = lcg.below(winner.len());
        let at = format!("{right}{} wins at vertex {v}\n", ["Even", "Odd"][winner[v] as usize]);
        assert_eq!(check(&[&game, &solution, "--vertex", &v.to_string()]).text(), at);
        let spoilt = file("spoilt.sol", written(&table, &[v]).as_bytes());
        let wrong = check(&[&game, &spoilt]);
        assert_eq!(wrong.status, 1, "another winner at {v}: {wrong:?} {table:?}");
    }
}

/// Where the highest priority decides: ids with gaps, names and a start.
const GAPS: &str = "parity 9; start 5;\n3 2 0 5,9 \"door\"; 5 1 1 3; 9 0 0 9 \"end\";\n";

#[test]
fn names_ids_and_the_start() {
    let game = file("large-gaps.pg", GAPS.as_bytes());
    let solution = "paritysol 9;\n3 0 5;\n5 0;\n9 0 9;\n";
    let told = |words: &[&str]| {
        run_on(&[&["check-solution", &game, "-"], words].concat(), solution.as_bytes())
    };
    assert_eq!(
        told(&["--start", "--vertex", "\"door\""]).text(),
        "right: Even wins at 3 vertices, Odd at 0\nEven wins at vertex id 3 \"door\"\nEven wins at the start, vertex id 5\n"
    );
    assert_eq!(
        told(&["--start", "--json"]).text(),
        "{\"accepted\":true,\"vertices\":3,\"edges\":4,\"even_wins\":3,\"odd_wins\":0,\
         \"at\":[{\"vertex\":1,\"id\":5,\"name\":null,\"winner\":\"Even\"}]}\n"
    );
    let parts = [
        "no vertex `4`; write --vertex with a name that one vertex alone has, ",
        "one of the ids, which are from 3 to 9",
    ];
    told(&["--vertex=4"]).fails(2, &parts);
    let right = b"paritysol 4;0 0 2;1 1;2 0 4;3 1;4 0 4;";
    let started = run_on(&["check-solution", "games/c.txt", "-", "--start"], right);
    started.fails(2, &["games/c.txt: no start; write `start ID;`", "or name a vertex by --vertex"]);
    // Where the lowest decides, the round through 3 and 5 is Odd's.
    let lowest = told(&["--lowest"])
        .fails(1, &["standard input: wrong: Even is said to win at vertex id 5"]);
    assert_eq!(lowest, "wrong at vertex id 5\n");
}

/// A game in PGSolver's format, with its lines in any sequence, ids that have gaps, and some names and comments.
fn as_file(lcg: &mut Lcg, game: &Table) -> String {
    let (step, first) = (lcg.between(1, 3), lcg.below(3));
    let id = |v: usize| first + step * v;
    let mut lines = Vec::new();
    for (v, successors) in game.successors().iter().enumerate() {
        let successors: Vec<String> = successors.iter().map(|&w| id(w).to_string()).collect();
        let (q, owner) = (game.priorities[v], game.owners[v]);
        let name = lcg.pick(&["", " \"a name\"", " \"\""]);
        let after = lcg.pick(&["\n", " ", " // 1;\n"]);
        lines.push(format!("{} {q} {owner} {}{name};{after}", id(v), successors.join(", ")));
    }
    if lcg.once_in(2) {
        lcg.shuffle(&mut lines);
    }
    format!("parity {};\n{}", id(game.n() - 1), lines.concat())
}

#[test]
fn files_are_read_as_other_commands_read_them() {
    let mut lcg = Lcg::new(41);
    for most in [1, 4, 12, 60, 512].repeat(4) {
        let game = any_game(&mut lcg, most);
        let text = as_file(&mut lcg, &game);
        let small = run_on(&["convert", "--as=words"], text.as_bytes()).bytes();
        let large = raskjomi::large::read_game(text.as_bytes(), None, false).expect("a game");
        let small: Vec<u32> = words(&small).into_iter().map(u32::from).collect();
        assert_eq!(large.words, small, "{text}");
    }
}

#[test]
fn a_game_from_standard_input() {
    let solution = file("large-gaps.sol", b"paritysol 9;\n3 0 5;\n5 0;\n9 0 9;\n");
    let told = run_on(&["check-solution", "-", &solution], GAPS.as_bytes()).text();
    assert_eq!(told, "right: Even wins at 3 vertices, Odd at 0\n");
    run(&["check-solution", "-", "-"]).fails(2, &["two inputs are standard input"]);
    run(&["check-solution", "-", &solution, "--certificate=-"])
        .fails(2, &["two inputs are standard input"]);
}

/// On the game with gaps a solution is turned down.
fn wrong(solution: &str, status: i32, parts: &[&str]) -> String {
    let game = file("large-wrong.pg", GAPS.as_bytes());
    run_on(&["check-solution", &game, "-"], solution.as_bytes()).fails(status, parts)
}

#[test]
fn each_reason_is_told() {
    // Odd's own move, and one of Even's.
    let told = wrong("paritysol 9; 3 1; 5 1 3; 9 0 9;", 1, &[
        "standard input: Odd is said to win at vertex id 3 \"door\" and Even at id 9 \"end\", but a move that Even has leads from id 3 \"door\" to",
        ": refused 84 at 1: ",
    ]);
    assert_eq!(told, "refused 84 at 1\n");
    wrong(
        "paritysol 9; 3 0 5; 5 1 3; 9 0 9;",
        1,
        &["but the move of Even's strategy leads from id 3 \"door\" to id 5: refused 84 at 0: "],
    );
    let told = wrong("paritysol 9; 3 1; 5 1 3; 9 1;", 1, &[
        "standard input: wrong: Odd is said to win at vertex id 9 \"end\", but the moves of the solution leave Even the closed walk \
         id 9 \"end\" -> id 9 \"end\", whose highest priority 0 in the file is even; solve the game again",
    ]);
    assert_eq!(told, "wrong at vertex id 9 \"end\"\n");
    wrong(
        "0 0 0 0 2",
        1,
        &["standard input: 5 words, and the game has 3 vertices: refused 81 at 5: "],
    );
    wrong("0 0 2 0 2 3", 1, &["standard input: vertex id 9 \"end\": refused 82 at 2: "]);
    wrong("0 0 0 2 2 3", 1, &["standard input: vertex id 3 \"door\", edge 2: refused 83 at 0: "]);
    wrong(
        "paritysol 9; 3 0 3; 5 0; 9 0 9;",
        2,
        &["line 1, id 3: strategy 3 is no successor of it; name one of its successors: 5, 9"],
    );
    wrong(
        "paritysol 9; 3 0 9;\n5 0;",
        2,
        &["standard input: no line for vertex id 9 \"end\"; solve the whole game"],
    );
    wrong("", 1, &["standard input: 0 words", "refused 81 at 0: "]);
}

#[test]
fn a_walk_as_json() {
    let game = file("large-walk.pg", b"parity 2; 0 1 0 1 \"a\"; 1 0 1 2; 2 0 0 0,2;");
    let ran = run_on(&["check-solution", &game, "-", "--json"], b"paritysol 2; 0 0 1; 1 0; 2 0 0;");
    let message = "standard input: wrong: Even is said to win at vertex 0 \\\"a\\\", but the moves of the solution leave Odd the closed walk \
                   0 \\\"a\\\" -> 1 -> 2 -> 0 \\\"a\\\", whose highest priority 1 in the file is odd; solve the game again";
    let vertices = [
        r#"{"vertex":0,"id":0,"name":"a"}"#,
        r#"{"vertex":1,"id":1,"name":null}"#,
        r#"{"vertex":2,"id":2,"name":null}"#,
    ];
    let value = format!(
        "{{\"accepted\":false,\"refusal\":null,\"message\":\"{message}\",\"walk\":[{}],\"edges\":[0,1,2]}}\n",
        vertices.join(",")
    );
    assert_eq!(ran.fails(1, &["wrong"]), value);
    let refused =
        run_on(&["check-solution", &game, "-", "--json"], b"paritysol 2; 0 1; 1 0; 2 0 2;");
    let value = refused.fails(1, &["refused 84 at 0"]);
    assert!(
        value.starts_with("{\"accepted\":false,\"refusal\":{\"number\":84,\"place\":0,"),
        "{value}"
    );
}

#[test]
fn a_certificate_by_two_runs() {
    let game = file("large-saved.pg", GAPS.as_bytes());
    let solution = file("large-saved.sol", b"paritysol 9;\n3 0 5;\n5 0;\n9 0 9;\n");
    let saved = path("large-saved.cert");
    let right = "right: Even wins at 3 vertices, Odd at 0\n";
    assert_eq!(check(&[&game, &solution, "--save-certificate", &saved]).text(), right);
    assert_eq!(check(&[&game, &solution, "--certificate", &saved]).text(), right);
    let certificate = fs::read(&saved).expect("a certificate");
    let given = run_on(&["check-solution", &game, &solution, "--certificate=-"], &certificate);
    assert_eq!(given.text(), right);
    let wrong = file("large-unsaved.sol", b"paritysol 9;\n3 1;\n5 1 3;\n9 1;\n");
    let unsaved = path("large-unsaved.cert");
    check(&[&game, &wrong, "--save-certificate", &unsaved]).fails(1, &["wrong"]);
    assert!(!PathBuf::from(&unsaved).exists(), "nothing is saved of a wrong solution");
    check(&[&game, &wrong, "--certificate", &saved])
        .fails(2, &["the certificate of another game or solution"]);
    check(&[&game, &solution, "--certificate=x", "--save-certificate=y"])
        .fails(2, &["exclude each other"]);
    check(&[&game, &solution, "--save-certificate=/none/a"])
        .fails(2, &["/none/a: no such file or directory; name a file that can be written"]);
    check(&[&game, &solution, "--certificate=/none/a"])
        .fails(2, &["/none/a: no such file or directory; name a file that can be read"]);
}

/// The message about a certificate of the game with gaps with some bytes changed.
fn damaged(change: impl Fn(&mut Vec<u8>), status: i32, part: &str) {
    let game = file("large-damaged.pg", GAPS.as_bytes());
    let solution = file("large-damaged.sol", b"paritysol 9;\n3 0 5;\n5 0;\n9 0 9;\n");
    let saved = path("large-damaged.cert");
    check(&[&game, &solution, "--save-certificate", &saved]).text();
    let mut certificate = fs::read(&saved).expect("a certificate");
    change(&mut certificate);
    fs::write(&saved, &certificate).expect("a file");
    check(&[&game, &solution, "--certificate", &saved]).fails(status, &[&saved, part]);
}

#[test]
fn damaged_certificates() {
    damaged(|bytes| bytes.truncate(40), 2, ": cut off: 40 bytes of 68; save or copy it again");
    damaged(|bytes| bytes.truncate(9), 2, ": cut off: 9 bytes of 68");
    damaged(Vec::clear, 2, ": no certificate of a solution, which begins with `rskjcert`");
    damaged(|bytes| bytes.push(0), 2, ": more than the 68 bytes");
    damaged(
        |bytes| bytes[0] = b'R',
        2,
        ": no certificate of a solution, which begins with `rskjcert`",
    );
    damaged(|bytes| bytes[8..12].reverse(), 2, ": words with their highest byte first");
    damaged(|bytes| bytes[12] = 9, 2, ": version 9 of the form");
    damaged(|bytes| bytes[16] = 4, 2, ": the certificate of a game with 4 vertices and 4 edges");
    damaged(|bytes| bytes[31] ^= 1, 2, ": the certificate of another game or solution");
    damaged(
        |bytes| bytes[32 + 4 * 4] = 3,
        1,
        ": word 4 from 0 behind the header: refused 86 at 4: ",
    );
    damaged(|bytes| bytes[32..44].rotate_left(4), 1, "refused 87 at 0: ");
    damaged(|bytes| bytes[60] = 1, 1, ": place 1: refused 88 at 1: ");
}

#[test]
fn an_order_that_is_none_is_told() {
    // The order 0, 1, 2 of a game where 0 loses to 1: the edge from 0 goes up from an odd priority.
    let game = file("large-order.txt", b"2 2 / 1 0 / 0 0 / 0 1 / 1 0");
    let solution = file("large-order.sol", b"paritysol 1; 0 0 1; 1 0 0;");
    let words = [1u32, 1, 2, 2, 0, 0, 0, 1, 0, 1, 0, 1];
    let mut certificate = b"rskjcert".to_vec();
    certificate.extend(words.iter().flat_map(|word| word.to_le_bytes()));
    let certificate = file("large-order.cert", &certificate);
    let told = check(&[&game, &solution, "--certificate", &certificate]);
    let part = ": edge 0, from vertex 0 to 1: refused 89 at 0: ";
    told.fails(
        1,
        &[&certificate, part, "leave --certificate out, so that one is made or the reason told"],
    );
    assert_eq!(check(&[&game, &solution]).text(), "right: Even wins at 2 vertices, Odd at 0\n");
}

#[test]
fn bad_games() {
    let solution = file("large-bad.sol", b"paritysol 0; 0 0 0;");
    let bad = |game: &[u8], status: i32, part: &str| {
        run_on(&["check-solution", "-", &solution], game).fails(status, &["standard input: ", part])
    };
    assert_eq!(bad(b"", 1, "refused 1 at 0: "), "refused 1 at 0\n");
    bad(b"0 0", 1, "word 0 from 0: refused 2 at 0: ");
    bad(b"1 1 0 0 0", 1, "refused 4 at 5: ");
    bad(b"1 1 0 2 0 0", 1, "word 3 from 0: refused 5 at 3: ");
    bad(b"1 1 0 0 0 1", 1, "word 5 from 0: refused 6 at 5: ");
    bad(b"1 1 0 0 0 x", 2, "line 1: `x` instead of a number; ");
    bad(b"parity 0; 0 0 0 0; 0 0 0 0;", 2, "line 1, id 0: ");
    bad(b"parity 0;", 2, "no vertex after the first line");
    bad(b"parity 0; 0 4294967296 0 0;", 2, "write numbers of 32 bits");
    check(&["games", &solution])
        .fails(2, &["games: line 1: is a directory; name a file that can be read"]);
    check(&["none", &solution]).fails(
        2,
        &["none: no such file or directory; name a file that can be read, or - for standard input"],
    );
    check(&["games/c.txt"]).fails(2, &["check-solution: number of arguments: 1 instead of 2; usage: raskjomi check-solution GAME SOLUTION"]);
    check(&["games/c.txt", &solution, "--strat"])
        .fails(2, &["no option --strat (perhaps `--start`)"]);
}

#[test]
fn a_hundred_thousand_vertices() {
    // A round with an even highest priority, where Odd has a way back at each vertex.
    let n = 100_000;
    let mut text = format!("parity {};\n", n - 1);
    let mut solution = format!("paritysol {};\n", n - 1);
    for v in 0..n {
        let priority = if v == 0 { 2 * n } else { v };
        text += &format!("{v} {priority} 1 {},0;\n", (v + 1) % n);
        solution += &format!("{v} 0;\n");
    }
    let game = file("large-round.pg", text.as_bytes());
    // For the last vertex, going on is going back.
    let twice = "line 100001, id 99999: a successor stands there twice, and is read as one edge\n";
    let told = run_on(&["check-solution", &game, "-", "--vertex=99999"], solution.as_bytes());
    let told = told.fails(0, &[twice]);
    assert_eq!(told, "right: Even wins at 100,000 vertices, Odd at 0\nEven wins at vertex 99999\n");
    run(&["report", &game]).fails(2, &["; raskjomi check-solution takes games of any size"]);
}

#[test]
fn other_commands_point_here() {
    let hint = "; raskjomi check-solution takes games of any size with a solver's solution";
    let line = |v: usize| format!("{v} 0 0 {v};\n");
    let game = file(
        "large-513.pg",
        ("parity;\n".to_string() + &(0..513).map(line).collect::<String>()).as_bytes(),
    );
    run(&["report", &game]).fails(1, &["refused 2 at 0", hint]);
    run(&["plan", &game, "games/c.sol", "--vertex=0"]).fails(1, &["refused 2 at 0", hint]);
    let verdict = run(&["verdict", &game, "games/c.plan.txt", "--vertex=0", "--player=even"]);
    verdict.fails(1, &["refused 2 at 0", hint]);
    run_on(&["report"], b"70000 1").fails(2, &["`70000` is no number from 0 to 65535", hint]);
    run_on(&["report"], b"1 5000").fails(1, &["refused 3 at 1", hint]);
}

#[test]
fn it_stands_in_the_help() {
    let help = run(&["check-solution", "--help"]).text();
    assert!(
        help.contains("A game may have any number of vertices and edges")
            && !help.contains("at most 512"),
        "{help}"
    );
    for option in
        ["--certificate FILE", "--save-certificate FILE", "--vertex V", "--start", "--json"]
    {
        assert!(help.contains(&format!("\n  {option} ")), "{option}: {help}");
    }
    assert!(run(&["man"]).text().contains("check\\-solution GAME SOLUTION"));
    assert!(run(&["completions"])
        .text()
        .contains("        check-solution) options='--certificate --save-certificate "));
    assert!(run(&["explain", "89"]).text().starts_with("refusal 89, "));
    assert!(root().join("games/c.sol").exists(), "the example's solution");
}
