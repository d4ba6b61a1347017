//! Refusals: status 1, and a message with file, place, meaning and remedy.

use crate::run::{bytes, file, run, run_on, shipped};

/// Games as text, the refusal, and where it is.
const GAMES: [(&str, &str, &str); 9] = [
    ("# nothing", "1 at 0", "no number in it"),
    ("1", "1 at 1", "after line 1, word 1, the last of 1"),
    ("0 1", "2 at 0", "line 1, word 1 (n is 0)"),
    ("513 1", "2 at 0", "line 1, word 1 (n is 513)"),
    ("1 4097", "3 at 1", "line 1, word 2 (m is 4097)"),
    ("1 1 0 0\n0", "4 at 5", "after line 2, word 1, the last of 5 (n is 1 and m is 1, so 6 words)"),
    ("1 1 # sizes\n0 2 / 0 0", "5 at 3", "line 2, word 2 (owner 2)"),
    ("1 1 / 0 0\n# ends\n0 1", "6 at 5", "line 3, word 2 (vertex 1)"),
    ("2 1\n0\n7\n0 0\n0 / 0", "8 at 1", "line 3, word 1 (vertex 1)"),
];

#[test]
fn games_in_text() {
    for (text, verdict, place) in GAMES {
        let game = file("refused.txt", text.as_bytes());
        let parts = [&*format!("refused.txt: {place}: refused {verdict}: "), "; "];
        assert_eq!(run(&["report", &game]).fails(1, &parts), format!("refused {verdict}\n"));
        for command in ["order", "classes", "quotient", "reduce", "dot"] {
            assert_eq!(run(&[command, &game]).fails(1, &parts), "", "{command} writes nothing");
        }
        let words = ["check-plan", &game, "games/c.plan.txt", "--player", "even"];
        assert_eq!(run(&words).fails(1, &parts), format!("refused {verdict}\n"));
        let words = ["check-relation", &game, "games/c.txt"];
        assert_eq!(run(&words).fails(1, &parts), format!("refused {verdict}\n"));
    }
}

#[test]
fn games_in_binary() {
    let refused = |input: &[u8], parts: &[&str]| run_on(&["report"], input).fails(1, parts);
    let owner = [
        "standard input: word 3 from 0 (owner 2), read as binary since byte 0 is a control character: refused 5 at 3: ",
        "an owner is above 1; write 0",
    ];
    assert_eq!(refused(&bytes(&[1, 1, 0, 2, 0, 0]), &owner), "refused 5 at 3\n");
    let nothing = ["standard input: no number in it: refused 1 at 0: "];
    assert_eq!(refused(&[], &nothing), "refused 1 at 0\n");
    let half =
        ["after word 4 from 0, the last of 5 (n is 1 and m is 1, so 6 words), read as binary"];
    assert_eq!(refused(&bytes(&[1, 1, 1, 1, 0])[..9], &half), "refused 4 at 5\n");
    let control = ["word 0 from 0 (n is 513), read as binary since byte 0 is a control character"];
    assert_eq!(refused(b"\x01\x02 1 1\x1a", &control), "refused 2 at 0\n");
}

#[test]
fn relations() {
    let rows: [(&str, &str, &str); 3] = [
        (
            "1 0 0\n0 1 0\n0 0",
            "21 at 2",
            "after line 3, word 2, the last of 8 (9 marks are needed)",
        ),
        ("# none", "21 at 2", "no number in it (9 marks are needed)"),
        ("1 0 0\n0 1 0\n0 1 1", "10 at 7", "line 3, word 2 (pair 2, 1)"),
    ];
    for (text, verdict, place) in rows {
        let relation = file("relation.txt", text.as_bytes());
        let parts = [&*format!("relation.txt: {place}: refused {verdict}: ")];
        let out = run(&["check-relation", "games/b.txt", &relation]).fails(1, &parts);
        assert_eq!(out, format!("refused {verdict}\n"));
    }
    // A mark without its reverse is refused by the governed check alone.
    let relation = file("relation.txt", b"1 0 1\n0 1 0\n0 0 1");
    assert_eq!(run(&["check-relation", "games/b.txt", &relation]).text(), "accepted\n");
    let parts = ["relation.txt: line 1, word 3 (pair 0, 2): refused 10 at 2: "];
    let out = run(&["governed", "check", "games/b.txt", &relation]).fails(1, &parts);
    assert_eq!(out, "refused 10 at 2\n");
    // 36 marks take five bytes, and so would 33: that three are missing is told.
    let parts =
        ["the last of 33 (36 marks are needed)", ": refused 21 at 5: ", "; give n × n marks"];
    let short = "1 ".repeat(33);
    run_on(&["check-relation", "games/d.txt", "-"], short.as_bytes()).fails(1, &parts);
    // Marks of text beyond the last pair are no unused bits.
    let ran = run_on(&["check-relation", "games/b.txt", "-"], "0 ".repeat(9).as_bytes());
    assert_eq!(ran.text(), "accepted\n");
}

#[test]
fn relations_in_binary() {
    let rows: [(&[u8], &str, &str); 4] = [
        (&[1], "21 at 2", "after byte 0 from 0, the last of 1 (2 bytes are needed)"),
        (&[1, 2], "41 at 1", "byte 1 from 0 (its bits from 1 on belong to no pair)"),
        (&[2, 128], "41 at 1", "byte 1 from 0 (its bits from 1 on belong to no pair)"),
        (&[0b1001_0001, 1], "10 at 7", "byte 0 from 0 (pair 2, 1, bit 7 from 0)"),
    ];
    for (marks, verdict, place) in rows {
        for check in [&["check-relation"][..], &["governed", "check"]] {
            let parts = [&*format!("standard input: {place}, read as binary "), ": refused "];
            let line = [check, &["games/b.txt", "-"]].concat();
            assert_eq!(run_on(&line, marks).fails(1, &parts), format!("refused {verdict}\n"));
        }
    }
}

#[test]
fn plans() {
    let rows: [(&str, &str, &str, &str); 7] = [
        ("even", "3", "12 at 0", "line 1, word 1"),
        (
            "even",
            "1 1 0 0",
            "12 at 0",
            "line 1, word 1 (p is 1 and l is 1, so 5 words, and it has 4)",
        ),
        ("even", "2 1 / 0 5\n0 2", "13 at 3", "line 1, word 4 (vertex 5)"),
        ("even", "2 1 / 0 2\n0 2", "13 at 5", "line 2, word 2 (position 2)"),
        ("even", "2 2 / 0 2\n0 1\n1 0", "14 at 1", "line 2, word 2 (link 1, from vertex 2 to 0)"),
        ("odd", "2 1 / 0\n2\n0 1", "15 at 0", "line 1, word 3 (position 0, at vertex 0)"),
        ("even", "2 2 / 1\n3\n0 1\n1 1", "16 at 1", "line 2, word 1 (position 1, at vertex 3)"),
    ];
    for (player, text, verdict, place) in rows {
        let plan = file("plan.txt", text.as_bytes());
        let parts = [&*format!("plan.txt: {place}: refused {verdict}: ")];
        let out = run(&["check-plan", "games/c.txt", &plan, "--player", player]).fails(1, &parts);
        assert_eq!(out, format!("refused {verdict}\n"));
    }
    let other = bytes(&shipped("c.plan.txt"));
    run_on(&["check-plan", "games/c.txt", "-", "--player", "odd"], &other).fails(
        1,
        &["standard input: word 2 from 0 (position 0, at vertex 0), ", ": refused 15 at 0"],
    );
}

/// Carrying the plan is refused with the verdict; the message has the place and the remedy.
fn not_carried(game: &str, plan: &str, options: &[&str], verdict: &str, parts: &[&str]) {
    let line = ["carry", game, plan, "--player", "even"];
    let refused = format!(": refused {verdict}: ");
    let parts = [&[&*refused], parts].concat();
    assert_eq!(run(&[&line, options].concat()).fails(1, &parts), "", "no plan is written");
}

#[test]
fn vertices_that_a_plan_is_not_carried_to() {
    for class in [&[][..], &["--class"]] {
        let to = |vertex, parts: &[&str]| {
            let options = [&["--vertex", vertex], class].concat();
            let verdict = format!("33 at {vertex}");
            let remedy = [
                "; name a vertex of the game; to carry a plan, for Even one that the plan's start",
            ];
            let parts = [parts, &remedy].concat();
            not_carried("games/d.txt", "games/c.plan.txt", &options, &verdict, &parts);
        };
        let of = if class.is_empty() { "" } else { " of the reduced game" };
        let start = format!("games/c.plan.txt: line 3, word 1 (the plan starts at vertex 0{of})");
        to("4", &["games/d.txt: vertex 4; ", &start]);
    }
}

#[test]
fn plans_that_are_not_carried() {
    let bad = file("not-carried.txt", b"2 2 / 0 2\n0 1\n1 0");
    let place = "not-carried.txt: line 2, word 2 (link 1, from vertex 2 to 0)";
    not_carried("games/d.txt", &bad, &["--vertex=5"], "14 at 1", &[&format!("{place}: ")]);
    let reduced = format!("{place}, on the reduced game: ");
    not_carried("games/d.txt", &bad, &["--vertex=5", "--class"], "14 at 1", &[&reduced]);
    let game = file("not-carried-game.txt", b"1 1 / 0 2 / 0 0");
    let parts = ["not-carried-game.txt: line 1, word 4 (owner 2): "];
    not_carried(&game, "games/c.plan.txt", &["--vertex=0"], "5 at 3", &parts);
    let many = generator::opponents(generator::complete(64), 0);
    let many = file("many.bin", &bytes(&many.words()));
    let round = file("round.txt", b"5 5 / 0 0 0 0 0 / 0 1 2 3 4 / 1 2 3 4 0");
    let parts = ["round.txt, carried to vertex 63: ", "; carry a plan with fewer positions"];
    not_carried(&many, &round, &["--vertex=63", "--class"], "34 at 0", &parts);
}

#[test]
fn verdicts() {
    let refused = |game: &str, plan: &str, vertex: &str, verdict: &str, parts: &[&str]| {
        let line = ["verdict", game, plan, "--player", "even", "--vertex", vertex];
        let told = format!(": refused {verdict}: ");
        let out = run(&line).fails(1, &[&[&*told], parts].concat());
        assert_eq!(out, format!("refused {verdict}\n"));
    };
    let bad = file("no-verdict.txt", b"2 2 / 0 2\n0 1\n1 0");
    let place =
        "no-verdict.txt: line 2, word 2 (link 1, from vertex 2 to 0), on the reduced game: ";
    refused("games/d.txt", &bad, "5", "14 at 1", &[place]);
    let game = file("no-verdict-game.txt", b"1 1 / 0 2 / 0 0");
    let parts = ["no-verdict-game.txt: line 1, word 4 (owner 2): "];
    refused(&game, "games/c.plan.txt", "9", "5 at 3", &parts);
    // The missing link on the reduced game; as JSON, with the message beside the number.
    let short = file("no-verdict-link.txt", b"3 2 / 0 2 3 / 0 1 / 1 2");
    let cause = "; here it has no link; its vertex leads to 3; ";
    refused("games/d.txt", &short, "5", "15 at 2", &[cause]);
    let line = ["verdict", "games/d.txt", &short, "--player=even", "--vertex=5", "--json"];
    let out = run(&line).fails(1, &["refused 15 at 2"]);
    let head = "{\"accepted\":false,\"refusal\":{\"number\":15,\"place\":2,";
    assert!(out.starts_with(head) && out.contains(cause), "{out}");
}

#[test]
fn edits() {
    let rows: [(&[&str], &str, &str); 4] = [
        (&["--add", "0:1"], "37 at 0", "--add 0:1"),
        (&["--remove", "2:0"], "37 at 2", "--remove 2:0"),
        (&["--add", "0:2", "--remove", "0:2", "--remove=0:1"], "38 at 0", "--remove 0:1"),
        (&["--add", "0:0", "--add", "0:0"], "37 at 0", "--add 0:0"),
    ];
    for (edits, verdict, place) in rows {
        let place = format!("games/b.txt: {place} (its vertices are 0 to 2): refused {verdict}: ");
        for form in [&[][..], &["--preview"], &["--classes"]] {
            let out = run(&[&["edit", "games/b.txt"], edits, form].concat()).fails(1, &[&place]);
            assert_eq!(out, "", "nothing is written");
        }
    }
    let full = file("full.bin", &bytes(&generator::complete(64).words()));
    let full_parts = [": refused 37 at 0: ", "; name two vertices"];
    run(&["edit", &full, "--add=0:0"]).fails(1, &full_parts);
    let mut lcg = generator::Lcg::new(1);
    let most = generator::random(&mut lcg, 512, 4096, 2);
    let absent = (0..512).find(|w| !most.edges.contains(&(0, *w))).expect("a vertex");
    let most = file("most.bin", &bytes(&most.words()));
    let parts = [": refused 39 at 4096: ", "; remove an edge first"];
    assert_eq!(run(&["edit", &most, "--add", &format!("0:{absent}")]).fails(1, &parts), "");
    run_on(&["edit", "-", "--add=0:0"], b"1 1 0 0 0").fails(1, &[": refused 4 at 5: "]);
}

#[test]
fn traces() {
    let rows: [(&[u8], &str, &str); 9] = [
        (b"", "40 at 0", "no number in it (a trace begins with its count)"),
        (b"1", "40 at 0", "line 1, word 1 (its count is 1, and it has 1 words)"),
        (b"1 0 2 2", "40 at 0", "line 1, word 1 (its count is 1, and it has 4 words)"),
        (b"4097", "40 at 0", "line 1, word 1 (its count is 4097, and it has 1 words)"),
        (b"1 / 3 / 0", "37 at 3", "line 1, word 2 (entry 0 from 0, edge 3 to 0; "),
        (b"2 / 0 0 / 2 3", "37 at 0", "line 1, word 3 (entry 1 from 0, edge 0 to 3; "),
        (b"2\n0 0\n2 65535", "37 at 0", "line 2, word 2 (entry 1 from 0, edge 0 to 65535; "),
        (
            b"1 / 0 / 1",
            "38 at 0",
            "edge 0 to 1; the vertices of games/b.txt are 0 to 2; 0 of 1 entries done)",
        ),
        (
            b"3 / 0 0 0 / 2 1 2",
            "38 at 0",
            "edge 0 to 2; the vertices of games/b.txt are 0 to 2; 2 of 3 entries done)",
        ),
    ];
    for (trace, verdict, place) in rows {
        let verdict = format!(": refused {verdict}: ");
        let out = run_on(&["replay", "games/b.txt", "-"], trace)
            .fails(1, &["standard input: ", place, &verdict]);
        assert_eq!(out, "", "nothing is written");
    }
    let mut lcg = generator::Lcg::new(1);
    let most = generator::random(&mut lcg, 512, 4096, 2);
    let absent = (0..512).find(|w| !most.edges.contains(&(0, *w))).expect("a vertex");
    let most = file("most-replay.bin", &bytes(&most.words()));
    let parts = [": refused 39 at 4096: ", "; remove an edge first"];
    let trace = format!("1 0 {absent}");
    assert_eq!(run_on(&["replay", &most, "-"], trace.as_bytes()).fails(1, &parts), "");
}

#[test]
fn games_by_the_seed() {
    for numbers in [
        ["0", "2", "4"],
        ["513", "2", "4"],
        ["512", "9", "4"],
        ["3", "17", "4"],
        ["3", "2", "65536"],
    ] {
        let [n, degree, priorities] = numbers;
        let place = format!("raskjomi: {n} vertices, degree {degree}, {priorities} priorities: ");
        let parts = [&*place, "refused 31 at 0: ", "; name 1 to 512 vertices, "];
        assert_eq!(run(&["seed", "7", n, degree, priorities]).fails(1, &parts), "");
    }
}

#[test]
fn games_that_are_not_converted() {
    let large = file("not-converted.txt", b"2 2\n65535 0 / 0 0 / 0 1 / 1 0");
    let parts = [
        "not-converted.txt: line 2, word 2 (vertex 1): refused 36 at 3: ",
        "; number the priorities in use anew, ",
    ];
    assert_eq!(run(&["convert", &large]).fails(1, &parts), "", "no table is written");
    let parts = ["standard input: line 1, word 4 (owner 2): refused 5 at 3: "];
    assert_eq!(run_on(&["convert"], b"1 1 / 0 2 / 0 0").fails(1, &parts), "");
}
