//! Solutions in PGSolver's format, made into plans.

use crate::run::{bytes, file, numbers, run, run_on, shipped, words};
use generator::{any_game, solve, Lcg};

/// A solution of the lowest-priority game, as a solver writes it.
fn written(game: &generator::Table) -> String {
    let solution = solve(game);
    let line = |v: usize| match game.owners[v] == solution.winner[v] {
        true => format!("{v} {} {};\n", solution.winner[v], solution.choice[v]),
        false => format!("{v} {};\n", solution.winner[v]),
    };
    let lines: String = (0..game.n()).map(line).collect();
    format!("paritysol {};\n{lines}", game.n() - 1)
}

#[test]
fn every_vertex_of_a_solved_game_has_a_plan() {
    let mut lcg = Lcg::new(31);
    for most in [1, 3, 6, 10].repeat(3) {
        let table = any_game(&mut lcg, most);
        let game = file("solved.bin", &bytes(&table.words()));
        let solution = file("solved.sol", written(&table).as_bytes());
        let winner = solve(&table).winner;
        for (v, &winner) in winner.iter().enumerate() {
            let line = ["plan", &game, &solution, "--vertex", &v.to_string()];
            let name = ["Even", "Odd"][winner as usize];
            let text = run(&line).text();
            let sentence = format!("# This plan wins for {name} from vertex {v}.\n");
            assert!(text.starts_with(&sentence), "{text}");
            assert_eq!(numbers(&text)[2] as usize, v);
            let binary = run(&[&line[..], &["--as", "words"]].concat()).bytes();
            assert_eq!(words(&binary), numbers(&text));
            let player = ["even", "odd"][winner as usize];
            let judged = run_on(&["check-plan", &game, "-", "--player", player], text.as_bytes());
            assert_eq!(judged.text(), "accepted\n");
        }
    }
}

#[test]
fn ids_and_names() {
    let game = file("plan.pg", b"parity 9; 3 2 0 5,9 \"start\"; 5 1 1 3; 9 0 0 9;");
    let solution = b"paritysol 9; 3 0 5 \"start\"; 5 0; # free\n9 0 9;";
    for vertex in ["3", "start"] {
        let text = run_on(&["plan", &game, "-", "--vertex", vertex], solution).text();
        assert!(
            text.starts_with("# This plan wins for Even from vertex id 3 \"start\".\n# vertex 0: id 3 \"start\"\n# vertex 1: id 5\n# positions"),
            "{text}"
        );
        assert_eq!(numbers(&text), [2, 2, 0, 1, 0, 1, 1, 0], "positions at vertices 0 and 1");
    }
}

/// On game C from vertex 0 the solution is turned down with a message that has the parts.
fn bad(solution: &str, status: i32, parts: &[&str]) {
    let words = ["plan", "games/c.txt", "-", "--vertex", "0"];
    assert_eq!(run_on(&words, solution.as_bytes()).fails(status, parts), "", "nothing is written");
}

#[test]
fn errors_have_line_vertex_and_remedy() {
    bad("0 0 1", 2, &["no solution, whose first word is `paritysol`; write"]);
    bad("paritysol x;", 2, &["line 1: `x` instead of the highest id; write `paritysol N;`"]);
    bad(
        "paritysol 1;\n0;",
        2,
        &["line 2, id 0: a semicolon instead of a winner; write `id winner"],
    );
    bad("paritysol 1;\n0 2;", 2, &["line 2, id 0: winner 2; write 0 where Even wins"]);
    bad("paritysol 1;\n0 0 1", 2, &["line 2, id 0: the end of the file instead of a semicolon; "]);
    bad("paritysol 1;\nx;", 2, &["line 2: `x` instead of an id; "]);
    bad(
        "paritysol 1;\n0 0 1;\n0 0 1;",
        2,
        &["line 3, id 0: line 2 has this id already; write one"],
    );
    bad("paritysol 1;\n1 0 1;", 2, &["standard input: no line for vertex 0; solve the whole game"]);
    bad(
        "paritysol 4;\n0 0;",
        2,
        &["line 2, vertex 0: no strategy, though the vertex is its winner's; "],
    );
    bad(
        "paritysol 4;\n0 0 4;",
        2,
        &["vertex 0: strategy 4 is no successor of it; name one of its successors: 1 and 2"],
    );
    bad("paritysol 4;\n0 0 2;", 2, &["no line for vertex 2; "]);
    bad(
        "paritysol 4;\n0 0 1;\n1 1;",
        2,
        &["line 3, vertex 1: the plan comes here, and the other player is said to win; "],
    );
    // From 1 there is only the way to 3, where Odd wins.
    bad(
        "paritysol 4; 0 0 1; 1 0 3; 3 0 3;",
        1,
        &["Even is said to win from vertex 0, but vertex 3 shows that the plan fails: refused 16 at 2: ",
          "; here a walk of 1 link by vertices 3 -> 3, with lowest priority 1; "],
    );
}

#[test]
fn without_a_first_line_and_with_no_move() {
    let plan = run(&["plan", "games/c.txt", "games/c.sol", "--vertex=0"]).text();
    let lines = "0 0 2;\n1 1 -1;\n2 0 4 \"end\";\n3 1 -1;\n4 0 4;\n";
    for solution in [lines.to_string(), format!("# solved\nparitysol 4;\n{lines}")] {
        let game = ["plan", "games/c.txt", "-", "--vertex=0"];
        assert_eq!(run_on(&game, solution.as_bytes()).text(), plan);
    }
    bad("0 0 -1;\n", 2, &["line 1, vertex 0: no strategy, though the vertex is its winner's; "]);
    let game = file("start.pg", b"start 1;\n0 2 0 0;\n1 1 1 0,1;\n");
    let solution = file("start.sol", b"0 0 0;\n1 1 1;\n");
    let text = run(&["plan", &game, &solution]).text();
    assert!(text.starts_with("# This plan wins for Odd from vertex 1.\n"), "{text}");
    let text = run(&["check-solution", &game, &solution, "--start"]).text();
    assert_eq!(text, "right: Even wins at 1 vertex, Odd at 1\nOdd wins at the start, vertex 1\n");
    let plan = file("start.plan.txt", run(&["plan", &game, &solution]).text().as_bytes());
    let verdict = run(&["verdict", &game, &plan, "--player=odd"]).text();
    assert!(verdict.starts_with("wins: Odd wins at vertex 1, "), "{verdict}");
    let carried = run(&["carry", &game, &plan, "--player=odd"]).text();
    assert!(carried.starts_with("# This plan wins for Odd from vertex 1, "), "{carried}");
}

#[test]
fn usage() {
    let line = ["plan", "games/c.txt", "games/c.sol"];
    run(&line).fails(2, &["no vertex; write --vertex"]);
    run(&[&line[..], &["--vertex=5"]].concat()).fails(2, &["no vertex `5`", "from 0 to 4"]);
    run(&[&line[..], &["--vertex=0", "--as=dot"]].concat()).fails(2, &["plan: no form `dot`"]);
    run(&["plan", "-", "-", "--vertex=0"]).fails(2, &["two inputs", "name a file"]);
    let text = run(&[&line[..], &["--vertex=0"]].concat()).text();
    assert_eq!(
        numbers(&text),
        shipped("c.plan.txt"),
        "the shipped solution gives the shipped plan"
    );
    run(&["check-plan", "games/c.txt", "games/c.sol", "--player=even"]).fails(
        2,
        &["games/c.sol: a solution in PGSolver's format; make it into a plan by raskjomi plan"],
    );
    run(&["report", "games/c.sol"])
        .fails(2, &["a solution in PGSolver's format, where a game is wanted"]);
}
