//! Games in PGSolver's format, in and out.

use crate::run::{bytes, file, numbers, run, run_on, shipped, words};
use generator::{any_game, solve, Lcg, Table};

/// Where the highest priority decides: ids with gaps, names, comments, a line over two lines.
const GAPS: &str =
    "% a game\nparity 9;\nstart 3;\n3 2 0 5,9 \"door, open\";\n5 1 1\n  3; // back\n\
                    9 0 0 9 \"clos\u{e9}\";\n";

#[test]
fn told_apart_by_the_first_word() {
    // The highest priority is 2, so a priority q becomes 2 - q; ids 3, 5 and 9 are vertices 0, 1 and 2.
    let table = [3, 4, 0, 1, 2, 0, 1, 0, 0, 0, 1, 2, 1, 2, 0, 2];
    let convert = |options: &[&str]| run_on(&[&["convert"], options].concat(), GAPS.as_bytes());
    assert_eq!(words(&convert(&["--as=words"]).bytes()), table);
    let text = convert(&[]).text();
    assert_eq!(numbers(&text), table);
    assert!(text.contains("; the lowest priority decides, and p stands for 2 - p of the file\n"));
    assert!(text.contains("\n# vertex 0: id 3 \"door, open\"\n# vertex 1: id 5\n"), "{text}");
    let lowest = [&[3, 4, 2, 1, 0], &table[5..]].concat();
    let same = run_on(
        &["edit", "-", "--lowest", "--as=words", "--add=3:3", "--remove=3:3"],
        GAPS.as_bytes(),
    );
    assert_eq!(words(&same.bytes()), lowest, "its priorities stay");
    for text in ["\u{feff}parity 0;0 0 0 0;", "parity;\n0 0 0 0 ;", "#x\n\n parity 7 ; 0 0 0 0;"] {
        let report = run_on(&["report"], text.as_bytes()).text();
        assert!(report.starts_with("game 1 1\n"), "{report}");
    }
}

#[test]
fn written_back() {
    let back = run_on(&["pgsolver"], GAPS.as_bytes()).text();
    let expected =
        "parity 9;\nstart 3;\n3 2 0 5,9 \"door, open\";\n5 1 1 3;\n9 0 0 9 \"clos\u{e9}\";\n";
    assert_eq!(back, expected, "ids, names, priorities and the start are kept");
    assert_eq!(run_on(&["pgsolver", "--lowest"], GAPS.as_bytes()).text(), expected);
    let edited = run_on(&["edit", "-", "--add", "5:9", "--remove", "3:5"], GAPS.as_bytes()).text();
    assert_eq!(
        edited,
        "parity 9;\nstart 3;\n3 2 0 9 \"door, open\";\n5 1 1 3,9;\n9 0 0 9 \"clos\u{e9}\";\n"
    );
    let trace = file("pgsolver-trace.txt", b"1 / 1 / 2");
    let game = file("gaps.pg", GAPS.as_bytes());
    let replayed = run(&["replay", &game, &trace]).text();
    assert!(replayed.contains("\n5 1 1 3,9;\n"), "{replayed}");
}

#[test]
fn priorities_stay_as_they_were() {
    let high = "parity 2;\n0 7 0 1;\n1 4 1 0,2;\n2 5 1 2;\n";
    for command in [&["pgsolver"][..], &["convert", "--as=pgsolver"], &["reduce"], &["quotient"]] {
        assert_eq!(run_on(command, high.as_bytes()).text(), high, "{command:?}");
    }
    let edited = run_on(&["edit", "-", "--add=2:0"], high.as_bytes()).text();
    assert_eq!(edited, high.replace("2 5 1 2;", "2 5 1 2,0;"), "one line is another");
    let large = run_on(&["reduce", "--large"], high.as_bytes());
    assert_eq!(large.fails(0, &["3 vertices merged by their moves into 3"]), high);
    for picture in [&["dot"][..], &["dot", "--reduced"]] {
        let picture = run_on(picture, high.as_bytes()).text();
        assert!(
            [7, 4, 5].iter().all(|p| picture.contains(&format!("priority {p}\""))),
            "{picture}"
        );
    }
    let why = run_on(&["why", "-", "0", "1"], high.as_bytes()).text();
    assert!(why.contains('7') && why.contains('4'), "{why}");
    let top = "parity 0;\n0 65535 0 0;\n";
    assert_eq!(run_on(&["pgsolver"], top.as_bytes()).text(), top);
}

#[test]
fn without_a_first_line() {
    let game = "parity 1;\n0 2 0 0,1;\n1 1 1 0;\n";
    for text in [
        "0 2 0 0,1;\n1 1 1 0;",
        "# numbers, then; marks\n% of it\n0 2\n 0 0 , 1 ;1 1 1 0;",
        "\u{feff}1 1 1 0;\n0 2 0 0,1;\n",
        "parity;\n0 2 0 0,1;\n1 1 1 0;\n",
    ] {
        assert_eq!(run_on(&["pgsolver"], text.as_bytes()).text(), game, "{text}");
        assert_eq!(run_on(&["reduce"], text.as_bytes()).text(), game, "{text}");
        let large = run_on(&["reduce", "--large"], text.as_bytes());
        assert_eq!(large.fails(0, &["2 vertices merged by their moves into 2"]), game, "{text}");
    }
    let started = game.replace("1;\n0 2", "1;\nstart 1;\n0 2");
    for text in ["start 1;\n0 2 0 0,1;\n1 1 1 0;", "start 1; parity 1; 0 2 0 0,1; 1 1 1 0;"] {
        assert_eq!(run_on(&["pgsolver"], text.as_bytes()).text(), started, "{text}");
        let large = run_on(&["reduce", "--large"], text.as_bytes());
        assert_eq!(large.fails(0, &["2 vertices merged"]), started, "{text}");
    }
    bad("0 2 0 0,3;", 2, &["line 1, id 0: successor 3 ", "as a semicolon ends its first line)"]);
    bad("start 2;\n0 0 0 0;", 2, &["line 1, id 2: the start is no vertex of the file; name one"]);
    bad("3, 3, 0", 2, &["line 1, word 1: `3,` is no number"]);
    let words = ["check-plan", "games/c.txt", "-", "--player=even"];
    run_on(&words, b"0 0 1;").fails(2, &["lines of a game or a solution in PGSolver's format; "]);
}

#[test]
fn the_start_is_that_of_a_class() {
    let twins = "parity 3; start 2; 0 1 0 1 \"a\"; 1 0 0 1 \"end\"; 2 1 1 1 \"b\"; 3 1 0 1;";
    let reduced = "parity 1;\nstart 0;\n0 1 0 1 \"a\";\n1 0 0 1 \"end\";\n";
    assert_eq!(run_on(&["reduce"], twins.as_bytes()).text(), reduced);
    let large = run_on(&["reduce", "--large"], twins.as_bytes());
    assert_eq!(large.fails(0, &["merged"]), reduced);
}

#[test]
fn names_keep_their_bytes() {
    // Latin-1, with a character of Windows' own; UTF-8; a name over two lines.
    let game =
        b"parity 2;\n0 0 0 1 \"clos\xe9 \x93\";\n1 1 0 2 \"clos\xc3\xa9\";\n2 2 0 0 \"a\nb\";\n";
    assert_eq!(run_on(&["pgsolver"], game).bytes(), game);
    assert_eq!(run_on(&["reduce"], game).bytes(), game);
    assert_eq!(run_on(&["reduce", "--large"], game).out, game);
    let report = run_on(&["report"], game).text();
    let told = "vertex 0 \"clos\u{e9} ?\" class 0\nvertex 1 \"clos\u{e9}\" class 1\nvertex 2 \"a?b\" class 2\n";
    assert!(report.contains(told), "{report}");
    let sentence = run_on(&["report", "--vertex", "clos\u{e9} ?"], game).text();
    assert!(sentence.starts_with("Vertex 0 "), "{sentence}");
}

#[test]
fn files_above_16_mib() {
    let commented = format!("parity 0;\n% {}\n0 0 0 0;\n", "x".repeat(1 << 24));
    let report = run_on(&["report"], commented.as_bytes()).text();
    assert!(report.starts_with("game 1 1\n"), "{report}");
    let many: String = (0..1_000_000).map(|id| format!("{id} 0 0 {id};\n")).collect();
    bad(&many, 2, &["line 1: 1000000 vertices and 1000000 edges; a game has at most ", "reduce"]);
}

#[test]
fn classes_have_the_name_of_their_lowest_member() {
    let twins = "parity 3; 0 1 0 1 \"a\"; 1 0 0 1 \"end\"; 2 1 1 1 \"b\"; 3 1 0 1;";
    let reduced = run_on(&["reduce"], twins.as_bytes()).text();
    assert_eq!(reduced, "parity 1;\n0 1 0 1 \"a\";\n1 0 0 1 \"end\";\n");
    let classes = run_on(&["classes"], twins.as_bytes()).text();
    assert!(classes.contains("\n# class 0: 0 \"a\", 2 \"b\" and 3\n"), "{classes}");
}

/// A file without names, whose ids are 0 and so on, as a game where the lowest priority decides: its
/// priorities are numbered anew, from the highest on, each with its parity.
fn by_highest(text: &str) -> Table {
    let (mut highest, mut owners, mut edges) = (Vec::new(), Vec::new(), Vec::new());
    for (v, line) in text.lines().skip(1).enumerate() {
        let words: Vec<&str> = line.trim_end_matches(';').split(' ').collect();
        highest.push(words[1].parse::<u16>().expect("a priority"));
        owners.push(words[2].parse().expect("an owner"));
        let targets = words[3].split(',').map(|word| word.parse().expect("a vertex"));
        edges.extend(targets.map(|target: u16| (v as u16, target)));
    }
    let mut downwards = highest.clone();
    downwards.sort_by(|a, b| b.cmp(a));
    downwards.dedup();
    let place =
        |q: &u16| downwards.iter().position(|other| other == q).expect("it is there") as u16;
    let priorities = highest.iter().map(|q| 2 * place(q) + q % 2).collect();
    Table { priorities, owners, edges }
}

#[test]
fn a_round_trip_keeps_winners() {
    let mut lcg = Lcg::new(30);
    for most in [2, 5, 9, 14].repeat(6) {
        let game = any_game(&mut lcg, most);
        let classes = words(&run_on(&["classes", "--as=words"], &bytes(&game.words())).bytes());
        let reduced = run_on(&["reduce", "--as=pgsolver"], &bytes(&game.words())).text();
        let (won, by_class) = (solve(&game).winner, solve(&by_highest(&reduced)).winner);
        let through: Vec<u16> = classes.iter().map(|&class| by_class[class as usize]).collect();
        assert_eq!(through, won, "by highest, as by lowest before: {game:?}");
        let again = run_on(&["reduce"], reduced.as_bytes()).text();
        assert_eq!(again, reduced, "read by highest, it is the same game");
    }
}

#[test]
fn out_of_our_format() {
    let c = run(&["pgsolver", "games/c.txt"]).text();
    assert_eq!(c, "parity 4;\n0 2 0 1,2;\n1 4 0 3;\n2 4 0 3,4;\n3 3 0 3;\n4 0 0 4;\n");
    let lowest = run(&["pgsolver", "games/c.txt", "--lowest"]).text();
    assert_eq!(lowest, "parity 4;\n0 2 0 1,2;\n1 0 0 3;\n2 0 0 3,4;\n3 1 0 3;\n4 4 0 4;\n");
    for (text, options) in [(c, &["--as=words"][..]), (lowest, &["--as=words", "--lowest"])] {
        let again = run_on(&[&["reduce", "-"], options].concat(), text.as_bytes()).bytes();
        assert_eq!(again, run(&["reduce", "games/c.txt", "--as=words"]).bytes());
    }
    let seed = ["seed", "1", "30", "1", "4"];
    let drawn = run(&[&seed[..], &["--as=pgsolver", "--lowest"]].concat()).text();
    let back = run_on(&["convert", "--lowest", "--as=words"], drawn.as_bytes()).bytes();
    let words = run(&[&seed[..], &["--as=words"]].concat()).bytes();
    assert_eq!(back, run_on(&["convert", "--as=words"], &words).bytes(), "drawn and read back");
}

#[test]
fn names_in_messages_and_pictures() {
    let game = file("names.pg", GAPS.as_bytes());
    let told = |words: &[&str], part: &str| {
        let ran = run(&[&[words[0], &game], &words[1..]].concat());
        let text = String::from_utf8(ran.out).expect("text") + &ran.err;
        assert!(text.contains(part), "no `{part}` in {text}");
    };
    told(&["report"], "\nvertex id 3 \"door, open\" class 0\nvertex id 5 class 1\n");
    told(&["report", "--vertex", "9"], "Vertex id 9 \"clos\u{e9}\" is alone in class 2: ");
    told(&["report", "--vertex", "clos\u{e9}"], "Vertex id 9 ");
    told(
        &["report", "--vertex", "4"],
        "no vertex `4`; write --vertex with an id or a name; its 3 ids are from 3 to 9",
    );
    told(&["edit", "--add=9:3", "--preview"], "no vertices would part or merge");
    told(&["edit", "--add=4:3"], "no edge `4:3`");
    told(&["edit", "--remove=5:3"], "--remove 5:3 (its 3 ids are from 3 to 9): refused 38 at 1");
    told(&["dot"], "0 [shape=diamond, label=\"id 3 \\\"door, open\\\" (class 0)\\npriority 2\"];");
    told(&["dot", "--reduced"], "label=\"class 2: id 9 \\\"clos\u{e9}\\\"\\npriority 0\"");
    told(&["order", "--as=dot"], "1 [shape=box, label=\"id 5\\npriority 1\"];");
    let relation = file("names-relation.txt", b"1 0 0 / 0 1 0 / 0 1 1");
    told(&["check-relation", &relation], "(pair id 9 \"clos\u{e9}\", id 5): refused 10 at 7");
    let plan = file("names-plan.txt", b"2 1 / 2 0 / 0 / 1");
    told(
        &["check-plan", &plan, "--player=even"],
        "(link 0, from vertex id 9 \"clos\u{e9}\" to id 3 \"door, open\")",
    );
    let good = file("names-good.txt", b"1 1 / 2 / 0 / 0");
    told(
        &["carry", &good, "--player=even", "--vertex=9"],
        "from vertex id 9 \"clos\u{e9}\", carried from vertex id 9 ",
    );
    told(&["carry", &good, "--player=even", "--vertex=5"], "names.pg: vertex id 5; ");
    told(
        &["verdict", &good, "--player=even", "--vertex", "clos\u{e9}"],
        "wins: Even wins at vertex id 9 \"clos\u{e9}\", as the plan wins for Even from class 2 of the reduced game, ",
    );
    told(&["verdict", &good, "--player=even", "--vertex=5"], ", but vertex id 5 is in class 1. ");
    told(
        &["verdict", &plan, "--player=even", "--vertex=9"],
        "(link 0, from vertex 2 \"clos\u{e9}\" to 0 \"door, open\"), on the reduced game: refused 14 at 0",
    );
    let round = file("names-round.txt", b"1 1 / 2 / 0 / 0");
    told(
        &["verdict", &round, "--player=odd", "--vertex=9"],
        "; here a walk of 1 link by vertices 2 \"clos\u{e9}\" -> 2 \"clos\u{e9}\", with highest priority 0 in the file; ",
    );
    told(
        &["verdict", &good, "--player=even", "--vertex=9", "--json"],
        "\"at\":{\"vertex\":2,\"id\":9,\"name\":\"clos\u{e9}\",\"class\":2}",
    );
    told(
        &["verdict", &good, "--player=even", "--vertex=1"],
        "no vertex `1`; write --vertex with an id or a name",
    );
    told(
        &["carry", &good, "--player=even", "--vertex=1"],
        "no vertex `1`; write --vertex with an id or a name",
    );
}

/// The game is turned down with a message that has the parts.
fn bad(game: &str, status: i32, parts: &[&str]) {
    let told = run_on(&["quotient"], game.as_bytes()).fails(status, parts);
    assert_eq!(told, "", "nothing is written");
}

#[test]
fn errors_have_line_id_and_remedy() {
    let rows: [(&str, &str, &str); 16] = [
        ("parity x;", "line 1: `x` instead of the highest id", "write `parity N;`"),
        ("parity 1\n0 0 0 0;", "line 2: `0` instead of a semicolon", "write `parity N;`"),
        (
            "parity 1;\n0 0 0 0",
            "line 2, id 0: the end of the file instead of a semicolon",
            "write `id ",
        ),
        (
            "parity 1;\n\n0 0 0 1,;",
            "line 3, id 0: a semicolon instead of a successor after the comma",
            "write",
        ),
        ("parity 1;\n0 0 0 0;\nx 0 0 0;", "line 3: `x` instead of an id", "write `id priority"),
        (
            "parity 1;\n0 \"a\" 0 0;",
            "line 2, id 0: a name instead of a priority",
            "write `id priority",
        ),
        ("parity 1;\n0 0 , 0;", "line 2, id 0: a comma instead of an owner", "write `id priority"),
        ("parity 1;\n0 0 0 -1;", "line 2, id 0: `-1` instead of a semicolon", "write `id priority"),
        ("parity 1;\n0 0 0 0 \"a;\n", "line 2: a name without its closing quote", "put `\"`"),
        (
            "parity 1;\n0 65536 0 0;",
            "line 2, id 0: priority 65536 is above 65535",
            "number the priorities",
        ),
        ("parity 1;\n0 0 2 0;", "line 2, id 0: owner 2", "write 0 for Even's"),
        (
            "parity 1;\n0 0 0 0;\n2 0 0 0;",
            "line 3, id 2: the id is above the highest",
            "write `parity 2;`",
        ),
        (
            "parity 1;\n0 0 0 0;\n0 0 0 0;",
            "line 3, id 0: line 2 has this id already",
            "an id of its own",
        ),
        (
            "parity 1;\n0 0 0\n0,7;",
            "line 2, id 0: successor 7 is no vertex of the file",
            "add a line for 7",
        ),
        ("parity 1; start ;", "line 1: a semicolon instead of an id after `start`", "leave it out"),
        ("0 0 0 x;\n", "line 1, word 4: `x;` is no number", "begins with `parity N;`"),
    ];
    for (game, place, remedy) in rows {
        bad(game, 2, &[&format!("standard input: {place}"), "; ", remedy]);
    }
}

#[test]
fn refusals_have_line_and_id() {
    bad(
        "parity 5;\n3 0 0 3;\n5 0 1 \"end\";",
        1,
        &["line 3, id 5 (vertex id 5 \"end\"): refused 8 at 1: ", "a loop serves"],
    );
    bad("parity 5;", 1, &["standard input: line 1 (n is 0): refused 2 at 0: "]);
    bad("parity 1;\n0 65535 0 1;\n1 0 0 0;", 1, &["line 3, id 1 (vertex 1): refused 36 at 3: "]);
    let many = |count: usize| {
        let lines: Vec<String> = (0..count).map(|id| format!("{id} 0 0 {id};\n")).collect();
        format!("parity {count};\n{}", lines.concat())
    };
    let most = raskjomi::MOST_VERTICES;
    assert!(run_on(&["reduce"], many(most).as_bytes()).text().starts_with("parity 0;\n"));
    let place = format!("line {}, id {most} (n is {}): refused 2 at 0: ", most + 2, most + 1);
    bad(&many(most + 1), 1, &[&place]);
    bad(&many(70_000), 2, &["line 1: 70000 vertices and 70000 edges; a game has at most "]);
    let all: Vec<String> = (0..65).map(|id: usize| id.to_string()).collect();
    let full = (0..65).map(|id| format!("{id} 0 0 {};\n", all.join(","))).collect::<String>();
    bad(&format!("parity 64;\n{full}"), 1, &["line 65, id 63 (m is 4225): refused 3 at 1: "]);
}

#[test]
fn a_successor_that_stands_twice_is_one_edge() {
    let game = b"parity 1;\n1 0 1 1;\n0 2 1 0,0,1;\n";
    let told =
        ["standard input: line 3, id 0: a successor stands there twice, and is read as one edge\n"];
    let back = run_on(&["pgsolver"], game).fails(0, &told);
    assert_eq!(back, "parity 1;\n0 2 1 0,1;\n1 0 1 1;\n");
    let json = run_on(&["check", "--json"], game).fails(0, &told);
    assert!(json.contains("\"different_edges\":3,\"edges\":3"), "{json}");
    for reduce in [&["reduce", "-"][..], &["reduce", "-", "--classes=/dev/null"]] {
        run_on(reduce, game).fails(0, &told);
    }
    let more = b"parity 1;\n0 2 1 0,0,1,1,0;\n1 0 1 1,0,1;\n";
    let told = "line 2, id 0: a successor stands there twice, as 4 do in this file; each is read as one edge";
    assert!(run_on(&["report"], more).fails(0, &[told]).starts_with("game 2 4\n"));
    let solution = file("twice.sol", b"paritysol 1; 0 0; 1 0;");
    let right = run_on(&["check-solution", "-", &solution, "--json"], more).fails(0, &[told]);
    assert!(right.contains("\"edges\":4,"), "{right}");
}

#[test]
fn copies_of_an_edge_are_written_once() {
    let copies = file("copies.txt", b"2 3 / 0 0 / 0 0\n0 0 1\n1 1 0");
    let once = "parity 1;\n0 0 0 1;\n1 0 0 0;\n";
    assert_eq!(run(&["pgsolver", &copies]).text(), once);
    assert_eq!(run(&["convert", &copies, "--as=pgsolver"]).text(), once);
    let edited = run(&["edit", &copies, "--add=0:0", "--as=pgsolver"]).text();
    assert_eq!(edited, "parity 1;\n0 0 0 1,0;\n1 0 0 0;\n");
    let trace = file("copies-trace.txt", b"1 / 1 / 1");
    let replayed = run(&["replay", &copies, &trace, "--as=pgsolver"]).text();
    assert_eq!(replayed, "parity 1;\n0 0 0 1;\n1 0 0 0,1;\n");
    for seed in 1..=20 {
        let line = ["seed", &seed.to_string(), "20", "3", "4"];
        let drawn = run(&[&line[..], &["--as=pgsolver"]].concat()).text();
        let words = run(&[&line[..], &["--as=words"]].concat()).bytes();
        let [drawn, words] =
            [drawn.as_bytes(), &words].map(|game| run_on(&["report"], game).text());
        assert_eq!(drawn, words, "{seed}");
    }
}

#[test]
fn what_the_format_cannot_say() {
    let large = b"2 2 / 65535 0 / 0 0 / 0 1 / 1 0";
    let parts = ["vertex 1, for PGSolver's format: refused 36 at 3: ", "; or write --lowest"];
    assert_eq!(run_on(&["pgsolver"], large).fails(1, &parts), "");
    assert!(run_on(&["pgsolver", "--lowest"], large).text().contains("\n0 65535 0 1;\n"));
    for words in [["order", "--as=pgsolver"], ["classes", "--as=pgsolver"]] {
        run_on(&words, &bytes(&shipped("b.txt")))
            .fails(2, &["no form `pgsolver` of what is no game"]);
    }
    let game = file("no-plan.pg", b"parity 0; 0 0 0 0;");
    let words = ["check-plan", "games/c.txt", &game, "--player=even"];
    run(&words).fails(2, &["no-plan.pg: a game in PGSolver's format", "name the game first"]);
}
