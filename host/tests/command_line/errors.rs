//! Bad usage: status 2, nothing on standard output, one line that says what to do.

use crate::run::{file, run, run_on};

/// The words are turned down with a message that has the parts.
fn bad(words: &[&str], parts: &[&str]) {
    assert_eq!(run(words).fails(2, parts), "");
}

#[test]
fn commands_and_options() {
    bad(&[], &["no command", "--help"]);
    bad(&["shrink"], &["no command `shrink`", "--help"]);
    bad(&["help", "shrink"], &["no command `shrink`", "--help"]);
    let usage = ["usage: raskjomi report [GAME] [--vertex V | --json]", "raskjomi report --help"];
    bad(&["report", "--all"], &[&["no option --all"], &usage[..]].concat());
    bad(&["report", "-x"], &[&["no option -x"], &usage[..]].concat());
    bad(&["report", "a", "b"], &[&["arguments: 2 instead of 0 to 1"], &usage[..]].concat());
    bad(&["check-plan", "games/c.txt", "--player", "even"], &["arguments: 1 instead of 2"]);
    bad(&["order", "games/c.txt", "--as"], &["--as needs text, words or dot"]);
    bad(&["dot", "games/c.txt", "--reduced=no"], &["--reduced takes no value"]);
    for twice in [["report", "--vertex", "0", "--vertex=1"], ["order", "--as", "text", "--as=text"]]
    {
        bad(&twice, &["is given twice; write it once"]);
    }
    bad(&["dot", "--reduced", "--reduced"], &["--reduced is given twice"]);
    bad(&["order", "games/c.txt", "--as", "svg"], &["no form `svg`", "--as text"]);
    bad(&["convert", "games/c.txt", "--as", "dot"], &["no form `dot`", "raskjomi dot"]);
    bad(&["check-plan", "a", "b"], &["no player", "--player even"]);
    bad(&["check-plan", "a", "b", "--player", "2"], &["no player `2`", "--player odd"]);
    bad(&["check-relation", "-", "-"], &["two inputs", "name a file"]);
    bad(&["check-plan", "-", "-", "--player", "odd"], &["two inputs", "name a file"]);
}

/// Every command that has two inputs or more, with all of them standard input but for one.
#[test]
fn standard_input_twice() {
    let lines: [&[&str]; 14] = [
        &["check", "-", "-"],
        &["check", "games/b.txt", "-", "games/c.txt", "-", "--json"],
        &["replay", "-", "-"],
        &["replay", "-", "-", "--classes"],
        &["check-relation", "-", "-"],
        &["check-plan", "-", "-", "--player=even"],
        &["carry", "-", "-", "--player=even", "--vertex=0"],
        &["verdict", "-", "-", "--player=even", "--vertex=0"],
        &["governed", "check", "-", "-"],
        &["plan", "-", "-", "--vertex=0"],
        &["check-solution", "-", "-"],
        &["check-solution", "games/c.txt", "-", "--certificate=-"],
        &["check-reduction", "-", "games/c.txt", "-"],
        &["winners", "-", "-"],
    ];
    for line in lines {
        bad(line, &["two inputs are standard input; name a file for one of them; usage: "]);
    }
    // A vertex may be called by that name.
    let game = b"parity 1;\n0 0 0 1 \"-\";\n1 0 0 0;\n";
    let why = run_on(&["why", "-", "-", "1"], game).text();
    assert!(why.starts_with("Vertex 0 \"-\" is below vertex 1. "), "{why}");
}

#[test]
fn governed_bisimulations() {
    let usage = "usage: raskjomi governed order|classes|check GAME [RELATION]";
    bad(&["governed", "order"], &["arguments: 1 instead of 2 to 3", usage]);
    bad(&["governed", "reduce", "games/c.txt"], &["governed: no `reduce`", "governed classes"]);
    bad(&["governed", "check", "games/c.txt"], &["governed check GAME RELATION"]);
    bad(&["governed", "order", "games/c.txt", "a"], &["a game alone", "governed check"]);
    bad(&["governed", "classes", "games/c.txt", "a"], &["a game alone", "governed check"]);
    bad(&["governed", "check", "games/c.txt", "a", "--as=text"], &["without --as"]);
    bad(&["governed", "order", "games/c.txt", "--as=svg"], &["no form `svg`"]);
    let json = run(&["governed", "order", "games/c.txt", "--json"]);
    json.fails(2, &["governed: --json is for governed classes and governed check"]);
    bad(&["governed", "check", "-", "-"], &["two inputs", "name a file"]);
}

#[test]
fn numbers() {
    bad(&["explain"], &["arguments: 0 instead of 1"]);
    for word in ["17", "0", "-1", "42", "x", "+8", "65544"] {
        bad(
            &["explain", word],
            &[
                &format!("`{word}` is no refusal number"),
                "1 to 16, 21 to 24, 31 to 41, 81 to 89, 91, 92 and 94 to 106",
            ],
        );
    }
    for vertex in ["3", "x", "-1", "+1", ""] {
        let parts = [&*format!("no vertex `{vertex}`"), "from 0 to 2"];
        bad(&["report", "games/b.txt", "--vertex", vertex], &parts);
    }
}

#[test]
fn plans_to_carry() {
    let line = ["carry", "games/d.txt", "games/c.plan.txt"];
    let with = |options: &[&str], parts: &[&str]| bad(&[&line, options].concat(), parts);
    with(&["--player=even"], &["no vertex; write --vertex"]);
    with(&["--vertex=5"], &["no player; write --player even"]);
    with(&["--vertex=5", "--player=both"], &["no player `both`"]);
    for word in ["x", "", "-1", "+1", "4294967296"] {
        let parts = [&*format!("no vertex `{word}`"), "a number from 0 to 5"];
        with(&["--player=even", "--vertex", word], &parts);
    }
    with(&["--player=even", "--vertex=5", "--as=dot"], &["carry: no form `dot`", "--as words\n"]);
    with(&["--player=even", "--vertex=5", "--class=0"], &["--class takes no value"]);
    with(&["more"], &["arguments: 3 instead of 2", "usage: raskjomi carry GAME PLAN --player"]);
    bad(&["carry", "-", "-", "--player=odd", "--vertex=0"], &["two inputs", "name a file"]);
    bad(
        &["carry", "games/d.txt", "none", "--player=odd", "--vertex=0"],
        &["none: ", "name a file"],
    );
}

#[test]
fn verdicts() {
    let line = ["verdict", "games/d.txt", "games/c.plan.txt"];
    let with = |options: &[&str], parts: &[&str]| bad(&[&line, options].concat(), parts);
    with(
        &["--player=even"],
        &["no vertex; write --vertex with the vertex that the verdict is about"],
    );
    with(&["--vertex=5"], &["no player; write --player even"]);
    with(&["--vertex=5", "--player=2"], &["no player `2`"]);
    with(
        &["--player=even", "--vertex=4294967296"],
        &["no vertex `4294967296`", "a number from 0 to 5"],
    );
    with(&["--player=even", "--vertex=5", "--as=words"], &["verdict: no option --as"]);
    with(
        &["more"],
        &["arguments: 3 instead of 2", "usage: raskjomi verdict GAME PLAN [--vertex V]"],
    );
    bad(&["verdict", "-", "-", "--player=odd", "--vertex=0"], &["two inputs", "name a file"]);
}

#[test]
fn edges_to_edit() {
    let usage = "usage: raskjomi edit GAME --add V:W --remove V:W ..";
    bad(&["edit", "--add", "0:1"], &["arguments: 0 instead of 1", usage]);
    bad(&["edit", "games/b.txt"], &["no edit; write --add V:W or --remove V:W"]);
    bad(&["edit", "games/b.txt", "--add"], &["--add needs an edge, as 0:2"]);
    bad(&["edit", "games/b.txt", "--add=0:1", "--as=dot"], &["edit: no form `dot`"]);
    bad(&["edit", "games/b.txt", "--classes", "--classes"], &["--classes is given twice"]);
    bad(&["edit", "games/b.txt", "--preview"], &["no edit; write --add V:W or --remove V:W"]);
    for edge in ["0", "", "0:", ":1", "0:1:2", "a:b", "-1:0", "0:4294967296", "0 : 1"] {
        for option in ["--add", "--remove"] {
            let parts = [&*format!("edit: {option}: no edge `{edge}`"), "as --"];
            bad(&["edit", "games/b.txt", option, edge], &parts);
        }
    }
}

#[test]
fn traces_to_replay() {
    let usage = "usage: raskjomi replay GAME TRACE";
    bad(&["replay", "games/b.txt"], &["arguments: 1 instead of 2", usage]);
    bad(&["replay", "games/d.txt", "games/d.trace.txt", "--as=dot"], &["replay: no form `dot`"]);
    bad(&["replay", "games/d.txt", "games/none.txt"], &["games/none.txt: ", "name a file"]);
}

#[test]
fn numbers_of_a_seed() {
    let usage = "usage: raskjomi seed SEED VERTICES DEGREE PRIORITIES [--as text|words|pgsolver]";
    bad(&["seed", "1", "3", "2"], &["arguments: 3 instead of 4", usage]);
    bad(&["seed", "1", "3", "2", "4", "--as", "dot"], &["no form `dot`", "raskjomi dot"]);
    for (which, name) in ["SEED", "VERTICES", "DEGREE", "PRIORITIES"].into_iter().enumerate() {
        for word in ["x", "", "+1", "-1", "1.5", "4294967296"] {
            let mut words = ["seed", "1", "3", "2", "4"];
            words[1 + which] = word;
            bad(&words, &[&format!("seed: {name} `{word}` is no number from 0 to 4294967295")]);
        }
    }
}

#[test]
fn files() {
    bad(&["report", "games/none.txt"], &["games/none.txt: ", "name a file"]);
    bad(&["report", "games"], &["games: ", "name a file"]);
    bad(&["check-relation", "games/b.txt", "none"], &["none: ", "name a file"]);
    bad(&["check-plan", "none", "games/b.txt", "--player", "odd"], &["none: ", "name a file"]);
    bad(
        &["report", "/dev/zero"],
        &["/dev/zero: more than 16 MiB, the most that is read; ", "name a file"],
    );
    bad(&["report", "two\nlines"], &["two?lines: ", "name a file"]);
}

#[test]
fn words_of_text() {
    let parts = ["line 2, word 3: `x`", "from 0 to 65535", "comments after #"];
    let bad_word = file("bad-word.txt", b"# a game\n1 1 x 0 / 0 0\n");
    bad(&["reduce", &bad_word], &[&parts[..], &["bad-word.txt: "]].concat());
    let input = |text: &str| run_on(&["report"], text.as_bytes());
    assert_eq!(
        input("1 1\n0 / 65536 0 0").fails(2, &["standard input: line 2, word 2: `65536`"]),
        ""
    );
    for text in ["+1", "-1", "1.5", "0x1", "1,1", "١", "70000", "99999999999999999999"] {
        input(text).fails(2, &[&format!("standard input: line 1, word 1: `{text}`")]);
    }
    input("1 1\r\n1 x\r\n").fails(2, &["line 2, word 2: `x`"]);
    input(&"9".repeat(5000)).fails(2, &[&format!("`{}..` is no number", "9".repeat(24))]);
    run_on(&["report"], &[255; 8]).fails(2, &["line 1, word 1: `"]);
    for mark in ["2", "256", "x", "-1", "101"] {
        let relation = format!("1 0\n{mark}");
        run_on(&["check-relation", "games/b.txt", "-"], relation.as_bytes()).fails(
            2,
            &[
                &format!("line 2, word 1: `{mark}` is no mark; write 0 or 1 for each pair, "),
                "or give exactly 2 bytes, eight marks in each",
            ],
        );
    }
}
