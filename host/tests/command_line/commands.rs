//! Each command and each output form.

use crate::common::root;
use crate::games::{B, C, CARRIED, D, TABLES};
use crate::run::{bytes, file, numbers, run, run_on, shipped, words};
use generator::{any_game, Lcg, Table};
use oracle::{mark_bytes, Memory, Oracle, Relation};
use std::process::Command;

const GAMES: [&str; 4] = ["b.txt", "c.txt", "d.txt", "lift-doors.txt"];

fn path(name: &str) -> String {
    format!("games/{name}")
}

/// The oracle's answers on a shipped game, with the table that the command writes.
fn expected(command: &str, name: &str) -> Memory {
    let game = shipped(name);
    let n = game[0] as usize;
    let (marks, classes) = (vec![0; mark_bytes(n)], vec![0; n]);
    let (spare, output) = (marks.clone(), vec![0; game.len()]);
    let mut memory = Memory { marks, spare, classes, output, ..Memory::default() };
    let answer = match command {
        "quotient" => Oracle::exact().quotient(&game, &mut memory),
        "governed" => Oracle::exact().governed_classes(&game, &mut memory),
        _ => Oracle::exact().reduce(&game, &mut memory),
    };
    assert_eq!(answer.number, 0);
    memory.output.truncate(2 + 2 * answer.vertices as usize + 2 * answer.edges as usize);
    memory
}

#[test]
fn shipped_games_are_the_documents() {
    assert_eq!(["b.txt", "c.txt", "d.txt"].map(shipped), [&B[..], &C, &D]);
}

#[test]
fn report_is_the_report_programs() {
    for name in GAMES {
        let words = bytes(&shipped(name));
        let text = Oracle::exact().report(&words);
        assert_eq!(run(&["report", &path(name)]).text(), text);
        assert_eq!(run_on(&["report"], &words).text(), text, "from standard input");
        assert_eq!(run_on(&["report", "-"], &words[..words.len() - 1]).text(), text, "half a word");
    }
    let mut lcg = Lcg::new(10);
    for most in [3, 8, 20, 60, 200].repeat(8).into_iter().chain([512]) {
        let words = bytes(&any_game(&mut lcg, most).words());
        assert_eq!(run_on(&["report"], &words).text(), Oracle::exact().report(&words));
    }
}

#[test]
fn report_on_one_vertex() {
    let of_b = |vertex| run(&["report", "games/b.txt", "--vertex", vertex]).text();
    let merged =
        "Vertex 2 and vertex 0 share class 0: a player wins from 2 exactly if the player wins \
                  from vertex 0, and from vertex 0 of the reduced game.\n";
    assert_eq!(of_b("2"), merged);
    let alone =
        "Vertex 1 is alone in class 1: a player wins from 1 exactly if the player wins from \
                 vertex 1 of the reduced game.\n";
    assert_eq!(of_b("1"), alone);
    let three = "4 4 / 0 0 0 1 / 0 0 0 0 / 0 1 2 3 / 3 3 3 3";
    let three = run_on(&["report", "--vertex", "1"], three.as_bytes()).text();
    assert!(three.starts_with("Vertex 1 and vertices 0 and 2 share class 0: "), "{three}");
    assert!(three.contains(" from each of 0 and 2, and from vertex 0 "), "{three}");
}

/// The bytes of the marks that stand in rows of 0 and 1, as many in each as there are rows.
fn packed(text: &str) -> Vec<u8> {
    let rows: Vec<Vec<u16>> = text.lines().map(numbers).filter(|row| !row.is_empty()).collect();
    assert!(rows.iter().all(|row| row.len() == rows.len()), "{text}");
    assert!(rows.iter().flatten().all(|&mark| mark <= 1), "{text}");
    Relation::of(rows.len(), rows.len(), |v, w| rows[v][w] == 1).bytes()
}

#[test]
fn order_in_each_form() {
    for name in GAMES {
        let marks = expected("order", name).marks;
        let text = run(&["order", &path(name)]).text();
        assert_eq!(packed(&text), marks);
        assert_eq!(run(&["order", &path(name), "--as", "words"]).bytes(), marks);
        assert_eq!(
            run_on(&["check-relation", &path(name), "-"], text.as_bytes()).text(),
            "accepted\n"
        );
        assert_eq!(run_on(&["check-relation", &path(name), "-"], &marks).text(), "accepted\n");
    }
    let text = run(&["order", "games/c.txt", "--as", "text"]).text();
    assert_eq!(
        text.lines().next(),
        Some("# order: row v, column w is 1 if v is below w; passes 2")
    );
    let dot = run(&["order", "games/c.txt", "--as", "dot"]).text();
    assert!(dot.contains("  1 -> 2;\n") && !dot.contains("2 -> 1"), "{dot}");
}

#[test]
fn classes_in_each_form() {
    for name in GAMES {
        let classes = expected("classes", name).classes;
        assert_eq!(numbers(&run(&["classes", &path(name)]).text()), classes);
        assert_eq!(words(&run(&["classes", &path(name), "--as", "words"]).bytes()), classes);
        let dot = run(&["classes", &path(name), "--as", "dot"]).text();
        assert_eq!(dot, run(&["dot", &path(name)]).text());
    }
    let text = run(&["classes", "games/d.txt"]).text();
    assert!(text.starts_with("# classes 5\n# class 0: 0 and 5\n"), "{text}");
}

#[test]
fn governed_in_each_form() {
    for name in GAMES {
        let Memory { marks, classes, .. } = expected("governed", name);
        let game = path(name);
        let text = run(&["governed", "order", &game]).text();
        assert_eq!(packed(&text), marks);
        assert_eq!(run(&["governed", "order", &game, "--as", "words"]).bytes(), marks);
        let check = ["governed", "check", &game, "-"];
        assert_eq!(run_on(&check, text.as_bytes()).text(), "accepted\n");
        assert_eq!(run_on(&["check-relation", &game, "-"], &marks).text(), "accepted\n");
        assert_eq!(numbers(&run(&["governed", "classes", &game]).text()), classes);
        let words_of = run(&["governed", "classes", &game, "--as", "words"]).bytes();
        assert_eq!(words(&words_of), classes);
    }
    let text = run(&["governed", "order", "games/d.txt"]).text();
    let title = "# governed: row v, column w is 1 if v and w are bisimilar; passes 3";
    assert_eq!(text.lines().next(), Some(title));
    let text = run(&["governed", "classes", "games/d.txt"]).text();
    assert!(text.starts_with("# classes 6\n# class 0: 0\n"), "{text}");
    let dot = run(&["governed", "order", "games/c.txt", "--as", "dot"]).text();
    assert!(!dot.contains("  1 -> 2;\n"), "{dot}");
}

#[test]
fn tables_in_each_form() {
    for command in ["quotient", "reduce"] {
        for name in GAMES {
            let text = run(&[command, &path(name)]).text();
            let binary = run(&[command, &path(name), "--as", "words"]).bytes();
            assert_eq!(words(&binary), numbers(&text));
            assert_eq!(numbers(&text), expected(command, name).output);
            let (from_text, from_binary) = (text.as_bytes(), &binary[..]);
            let sizes = |input| run_on(&["report"], input).text().lines().last().map(String::from);
            assert_eq!(sizes(from_text), sizes(from_binary), "both forms are read back");
        }
    }
    for (game, quotient, reduced) in TABLES {
        let write = |command| words(&run_on(&[command, "--as", "words"], &bytes(game)).bytes());
        assert_eq!(["quotient", "reduce"].map(write), [quotient, reduced]);
    }
    let dot = run(&["reduce", "games/d.txt", "--as", "dot"]).text();
    assert_eq!(dot, run(&["dot", "games/d.txt", "--reduced"]).text());
}

#[test]
fn edges_by_source_then_target() {
    // Each vertex has a priority of its own, and the edges come by descending source and target.
    let game = b"3 6 / 0 1 2 / 0 0 0 / 2 2 1 1 0 0 / 1 0 2 1 2 0";
    let listed = "# sources of the edges\n0 0 1 1 2 2\n# targets of the edges\n0 2 1 2 0 1\n";
    for command in ["quotient", "reduce"] {
        let text = run_on(&[command], game).text();
        assert!(text.ends_with(listed), "{text}");
        let dot = run_on(&[command, "--as", "dot"], game).text();
        let edges: Vec<&str> = dot.lines().filter(|line| line.contains("->")).collect();
        let expected = ["0 -> 0", "0 -> 2", "1 -> 1", "1 -> 2", "2 -> 0", "2 -> 1"];
        assert_eq!(edges, expected.map(|edge| format!("  {edge};")));
        let help = run(&[command, "--help"]).text().replace('\n', " ");
        assert!(help.contains("edges are listed by source, then by target, ascending"), "{help}");
    }
}

#[test]
fn pictures() {
    let game = run(&["dot", "games/b.txt"]).text();
    let frame = "subgraph cluster_0 { label=\"class 0\"; style=filled; color=\"#cfe8fc\"; \
                 0 [shape=diamond, label=\"0\\npriority 0\"]; 2 [shape=box, label=\"2\\npriority 0\"]; }";
    assert!(game.starts_with("digraph game {\n") && game.ends_with("}\n"), "{game}");
    assert!(game.contains(frame), "{game}");
    assert!(game.contains("  1 [shape=diamond, label=\"1 (class 1)\\npriority 1\"];\n"), "{game}");
    assert!(game.contains("  0 -> 1;\n  1 -> 1;\n  2 -> 1;\n"), "{game}");
    let reduced = run(&["dot", "--reduced", "games/b.txt"]).text();
    assert!(
        reduced.contains(
            "0 [shape=diamond, label=\"class 0: 0 and 2\\npriority 0\", fillcolor=\"#cfe8fc\"];"
        ),
        "{reduced}"
    );
    let quotient = run(&["quotient", "games/d.txt", "--as", "dot"]).text();
    assert!(quotient.starts_with("digraph quotient {\n"), "{quotient}");
}

#[test]
fn a_repeated_edge_is_one() {
    let game = b"3 6 / 0 1 0 / 0 0 1 / 0 1 0 2 2 0 / 1 1 1 1 1 1";
    assert_eq!(run_on(&["report"], game).text(), run(&["report", "games/b.txt"]).text());
    assert_eq!(run_on(&["dot"], game).text(), run(&["dot", "games/b.txt"]).text());
    for command in ["order", "classes", "quotient", "reduce"] {
        let written = |game: &[u8]| run_on(&[command, "--as", "words"], game).bytes();
        assert_eq!(written(game), written(&bytes(&B)), "{command}");
    }
    let loops = run_on(&["report"], b"1 2 / 0 / 0 / 0 0 / 0 0").text();
    assert!(loops.starts_with("game 1 1\n") && loops.ends_with("reduced 1 1\n"), "{loops}");
    let dot = run(&["dot", "--help"]).text().replace('\n', " ");
    assert!(dot.contains("several times is one arrow"), "{dot}");
    let explained = run(&["explain", "7"]).text();
    assert!(explained.contains("no longer occurs: since change request CR 2"), "{explained}");
}

#[test]
fn numbers_that_no_longer_occur() {
    let explained = run(&["explain", "9"]).text();
    assert!(explained.starts_with("refusal 9, about the relation\n"), "{explained}");
    assert!(explained.contains("no longer occurs: since change request CR 13 "), "{explained}");
    let help = run(&["explain", "--help"]).text().replace('\n', " ");
    assert!(help.contains("; 7 and 9 no longer occur."), "{help}");
}

/// Marks of 4 vertices, all of them: two bytes 255, of which none is a control character.
#[test]
fn marks_that_could_be_text() {
    let game = file("complete.bin", &bytes(&generator::complete(4).words()));
    let marks = run(&["order", &game, "--as", "words"]).bytes();
    assert_eq!(marks, [255, 255]);
    assert_eq!(run_on(&["check-relation", &game, "-"], &marks).text(), "accepted\n");
    // Bytes that look like text have the length that marks need, so they are none.
    run_on(&["check-relation", &game, "-"], b"01").fails(
        1,
        &[
            "standard input: byte 0 from 0 (pair 1, 0, bit 4 from 0), read as binary since it has the \
             2 bytes that the marks need: refused 10 at 4: ",
        ],
    );
    // Nor are they a game in PGSolver's format, or text with a stray character. Every relation between loops is one.
    let edges = (0..8).map(|v| (v, v)).collect();
    let loops = Table { priorities: vec![0; 8], owners: vec![0; 8], edges };
    let loops = file("loops.bin", &bytes(&loops.words()));
    for marks in [&b"parity 1"[..], b"1 0 1 0\x01"] {
        assert_eq!(run_on(&["check-relation", &loops, "-"], marks).text(), "accepted\n");
    }
    run_on(&["check-relation", &loops, "-"], b"parity 10").fails(2, &["PGSolver's format"]);
    // One vertex: a mark as text, and as a byte.
    let loops = file("loop.txt", b"1 1 / 0 / 0 / 0 / 0");
    for relation in [&b"0"[..], b"1", b"1\n", &[0], &[1]] {
        assert_eq!(run_on(&["check-relation", &loops, "-"], relation).text(), "accepted\n");
    }
    let parts = ["byte 0 from 0 (its bits from 1 on belong to no pair)", ": refused 41 at 0: "];
    run_on(&["check-relation", &loops, "-"], b"3").fails(1, &parts);
}

/// 512 vertices: rows of as many marks, and exactly the bytes needed.
#[test]
fn the_largest_order() {
    let game = file("chain-512.bin", &bytes(&generator::chain(512).words()));
    let binary = run(&["order", &game, "--as", "words"]).bytes();
    assert_eq!(binary.len(), 32_768);
    assert_eq!(packed(&run(&["order", &game]).text()), binary);
    assert_eq!(run_on(&["check-relation", &game, "-"], &binary).text(), "accepted\n");
}

#[test]
fn games_by_the_seed() {
    let game = [3, 6, 0, 0, 0, 0, 0, 1, 0, 0, 1, 1, 2, 2, 1, 1, 2, 0, 0, 2];
    let seed = |options: &[&str]| run(&[&["seed", "1", "3", "2", "4"], options].concat());
    let text = seed(&[]).text();
    assert!(text.starts_with("# game of seed 1: vertices 3, degree 2, priorities 4\n"), "{text}");
    assert_eq!(numbers(&text), game);
    assert_eq!(seed(&["--as", "text"]).text(), text);
    let binary = seed(&["--as", "words"]).bytes();
    assert_eq!(words(&binary), game);
    let [one, other] = [text.as_bytes(), &binary].map(|input| run_on(&["report"], input).text());
    assert_eq!(one, other, "the same game as text and as words");
    assert!(one.starts_with("game 3 5\n"), "{one}");
    for numbers in [["0", "1", "1", "1"], ["4294967295", "512", "8", "65535"]] {
        let mut memory = Memory { output: vec![0; 9218], ..Memory::default() };
        let parsed = numbers.map(|number| number.parse().expect("a number"));
        let answer = Oracle::exact().seed(parsed, &mut memory);
        memory.output.truncate(2 + 2 * answer.vertices as usize + 2 * answer.edges as usize);
        let written = run(&[&["seed", "--as=words"], &numbers[..]].concat()).bytes();
        assert_eq!(words(&written), memory.output);
    }
}

#[test]
fn converted_games() {
    let c = shipped("c.txt");
    let lowest = [&[5, 7, 2, 4, 4, 3, 0], &c[7..]].concat();
    let text = run(&["convert", "games/c.txt"]).text();
    let title = "# converted: the lowest priority decides; a priority p was 4 - p before\n";
    assert!(text.starts_with(title), "{text}");
    assert_eq!(numbers(&text), lowest);
    let binary = run_on(&["convert", "--as", "words"], &bytes(&c)).bytes();
    assert_eq!(words(&binary), lowest);
    let back = run_on(&["convert", "-", "--as=words"], text.as_bytes()).bytes();
    assert_eq!(words(&back), c, "converted twice; the lowest priority was 0");
    let large = b"2 2 / 65535 1 / 0 0 / 0 1 / 1 0";
    let text = run_on(&["convert"], large).text();
    assert!(text.contains("a priority p was 65536 - p before"), "{text}");
    assert_eq!(numbers(&text), [2, 2, 1, 65_535, 0, 0, 0, 1, 1, 0]);
}

#[test]
fn edits() {
    let edit = |edits: &[&str]| run(&[&["edit", "games/b.txt"], edits].concat());
    // An edge comes, and the first edge goes: both in sequence.
    let game = [3, 3, 0, 1, 0, 0, 0, 1, 1, 2, 0, 1, 1, 2];
    let text = edit(&["--add", "0:2", "--remove", "0:1"]).text();
    assert!(text.starts_with("# after edits: 1 added, 1 removed\n"), "{text}");
    assert_eq!(numbers(&text), game);
    assert_eq!(words(&edit(&["--add=0:2", "--remove=0:1", "--as", "words"]).bytes()), game);
    let doubled = run_on(&["edit", "-", "--remove", "0:0"], b"1 3 / 0 / 0 / 0 0 0 / 0 0 0");
    doubled.fails(1, &["standard input: --remove 0:0 ", ": refused 38 at 0: "]);
    let doubled = b"2 4 / 0 0 / 0 0 / 0 0 0 1 / 1 0 1 1";
    let left = run_on(&["edit", "-", "--remove", "0:1"], doubled).text();
    assert_eq!(numbers(&left), [2, 2, 0, 0, 0, 0, 0, 1, 0, 1], "both copies go");
    let back = edit(&["--add", "0:2", "--remove", "0:2"]).text();
    assert_eq!(numbers(&back), shipped("b.txt"));
    for input in [text.as_bytes(), &bytes(&game)] {
        let report = run_on(&["report"], input).text();
        assert!(report.starts_with("game 3 3\n"), "{report}");
    }
}

/// A buffer as the library's edits leave it: zeros behind the table.
#[test]
fn buffers_longer_than_their_table() {
    let mut buffer = [&shipped("b.txt")[..], &[0; 4]].concat();
    let (mut marks, mut classes) = ([0; 2], [0; 3]);
    let edited = raskjomi::remove_edge(&mut buffer, 0, 1, &mut marks, &mut [0; 2], &mut classes);
    assert_eq!(edited.map_err(|refusal| refusal.number), Err(38), "nothing is written");
    raskjomi::add_edge(&mut buffer, 0, 2, &mut marks, &mut [0; 2], &mut classes).expect("an edit");
    raskjomi::remove_edge(&mut buffer, 0, 2, &mut marks, &mut [0; 2], &mut classes)
        .expect("an edit");
    assert_eq!(buffer, [&shipped("b.txt")[..], &[0; 4]].concat());
    let text: Vec<String> = buffer.iter().map(u16::to_string).collect();
    let expected = run(&["edit", "games/b.txt", "--add=0:2"]).bytes();
    for input in [bytes(&buffer), text.join(" ").into_bytes()] {
        assert_eq!(run_on(&["edit", "-", "--add=0:2"], &input).bytes(), expected);
        let buffer = file("buffer.bin", &input);
        let trace = run_on(&["replay", &buffer, "-"], b"1 / 0 / 2").text();
        assert_eq!(numbers(&trace), numbers(&String::from_utf8_lossy(&expected)));
        run_on(&["reduce"], &input).fails(1, &["refused 4 at 18"]);
    }
    let other = [&buffer[..], &[1]].concat();
    run_on(&["edit", "-", "--add=0:2"], &bytes(&other)).fails(1, &["refused 4 at 19"]);
}

#[test]
fn edits_and_classes() {
    let classes = |edits: &[&str]| run(&[&["edit", "games/d.txt", "--classes"], edits].concat());
    let parted = "classes 5 before, 6 after\nvertex 0: with 5 before, alone after\n\
                  vertex 5: with 0 before, alone after\n";
    assert_eq!(classes(&["--remove=0:2"]).text(), parted);
    assert_eq!(classes(&["--add=5:1"]).text(), "classes 5 before, 5 after\n");
    let game = b"3 4 / 0 1 0 / 0 0 1 / 0 1 2 0 / 1 1 1 2";
    let merged = "classes 3 before, 2 after\nvertex 0: alone before, with 2 after\n\
                  vertex 2: alone before, with 0 after\n";
    assert_eq!(run_on(&["edit", "-", "--classes", "--remove", "0:2"], game).text(), merged);
}

#[test]
fn previews_of_edits() {
    let preview = |edits: &[&str]| run(&[&["edit", "games/d.txt", "--preview"], edits].concat());
    let before = shipped("d.txt");
    assert_eq!(preview(&["--remove=0:2"]).text(), "classes 5 before, 6 after\nwould part: 0 | 5\n");
    let same = "classes 5 before, 5 after\nno vertices would part or merge\n";
    assert_eq!(preview(&["--add=5:1"]).text(), same);
    assert_eq!(preview(&["--remove=0:2", "--add=0:2"]).text(), same, "in sequence");
    assert_eq!(shipped("d.txt"), before, "the game is as it was");
    let game = b"3 4 / 0 1 0 / 0 0 1 / 0 1 2 0 / 1 1 1 2";
    let merged = "classes 3 before, 2 after\nwould merge: 0 | 2\n";
    assert_eq!(run_on(&["edit", "-", "--preview", "--remove", "0:2"], game).text(), merged);
    // Of three that share a class one would part, and the two others stay together.
    let game = b"5 5 / 0 0 0 1 0 / 0 0 0 0 0 / 0 1 2 3 4 / 3 3 3 3 4";
    let parted = "classes 3 before, 4 after\nwould part: 0 and 2 | 1\n";
    assert_eq!(run_on(&["edit", "-", "--preview", "--add=1:4"], game).text(), parted);
}

#[test]
fn replays() {
    // The shipped trace is two edits.
    let edits = ["edit", "games/d.txt", "--add", "5:3", "--remove", "5:2"];
    let replay = |options: &[&str]| {
        run(&[&["replay", "games/d.txt", "games/d.trace.txt"], options].concat())
    };
    let text = replay(&[]).text();
    let title = "# after 2 entries of a trace\n";
    assert!(text.starts_with(title), "{text}");
    assert_eq!(numbers(&text), numbers(&run(&edits).text()));
    assert_eq!(words(&replay(&["--as", "words"]).bytes()), numbers(&text));
    let classes = run(&[&edits[..], &["--classes"]].concat()).text();
    assert_eq!(replay(&["--classes"]).text(), classes);
    // From standard input, as text and as words; none, and an edge that comes and goes.
    let on_b = |trace: &[u8]| numbers(&run_on(&["replay", "games/b.txt", "-"], trace).text());
    assert_eq!(on_b(b"0"), shipped("b.txt"));
    assert_eq!(on_b(b"2 / 0 0 / 2 2"), shipped("b.txt"));
    assert_eq!(on_b(&bytes(&[1, 0, 2])), [3, 4, 0, 1, 0, 0, 0, 1, 0, 1, 2, 0, 1, 1, 1, 2]);
}

#[test]
fn shipped_plans_win() {
    for (game, plan) in [("c.txt", "c.plan.txt"), ("lift-doors.txt", "lift-doors.plan.txt")] {
        let words = ["check-plan", &path(game), &path(plan), "--player", "even"];
        assert_eq!(run(&words).text(), "accepted\n");
    }
    let plan = file("plan.bin", &bytes(&shipped("c.plan.txt")));
    for player in ["0", "even", "Even"] {
        let words = ["check-plan", "--player", player, "-", &plan];
        assert_eq!(run_on(&words, &bytes(&shipped("c.txt"))).text(), "accepted\n");
    }
    for player in ["1", "odd", "Odd"] {
        let words = ["check-plan", "--player", player, "-", &plan];
        run_on(&words, &bytes(&shipped("c.txt"))).fails(1, &["refused 15 at "]);
    }
}

#[test]
fn carried_plans() {
    for row in &CARRIED {
        let game = file("carried-game.bin", &bytes(row.game));
        let plan = file("carried-plan.bin", &bytes(row.plan));
        let (player, name) = [("even", "Even"), ("odd", "Odd")][row.player as usize];
        let (vertex, start) = (row.vertex.to_string(), row.plan[2]);
        let mut line = vec!["carry", &game, &plan, "--player", player, "--vertex", &vertex];
        line.extend(row.class.then_some("--class"));
        let text = run(&line).text();
        assert_eq!(numbers(&text), row.words);
        let origin = if row.class { " of the reduced game" } else { "" };
        let sentence = format!(
            "# This plan wins for {name} from vertex {vertex}, \
             carried from vertex {start}{origin}.\n# positions, links\n"
        );
        assert!(text.starts_with(&sentence), "{text}");
        let binary = run(&[&line[..], &["--as", "words"]].concat()).bytes();
        assert_eq!(words(&binary), row.words);
        for carried in [text.as_bytes(), &binary] {
            let judged = run_on(&["check-plan", &game, "-", "--player", player], carried);
            assert_eq!(judged.text(), "accepted\n", "the plan goes on to the acceptor");
        }
    }
}

#[test]
fn carried_plans_from_standard_input() {
    let carry = |game, plan, input: &[u8], options: &[&str]| {
        let line = ["carry", game, plan, "--player=even", "--vertex=5"];
        numbers(&run_on(&[&line, options].concat(), input).text())
    };
    let [game, plan] = ["d.txt", "c.plan.txt"].map(|name| bytes(&shipped(name)));
    let carried = [3, 3, 5, 2, 4, 0, 1, 2, 1, 2, 2];
    for options in [&[][..], &["--class"]] {
        assert_eq!(carry("-", "games/c.plan.txt", &game, options), carried);
        assert_eq!(carry("games/d.txt", "-", &plan, options), carried);
    }
    let back = ["carry", "games/d.txt", "-", "--player", "even", "--vertex", "0"];
    let text = run_on(&back, b"3 3 / 5 2 4 / 0 1 2 / 1 2 2").text();
    assert_eq!(numbers(&text), shipped("c.plan.txt"), "and back");
}

#[test]
fn verdicts() {
    let say = |vertex: &str, player: &str| {
        let line = ["verdict", "games/d.txt", "games/c.plan.txt", "--vertex", vertex];
        run(&[&line[..], &["--player", player]].concat())
    };
    for vertex in ["0", "5"] {
        let sentence = format!(
            "wins: Even wins at vertex {vertex}, as the plan wins for Even from class 0 of the reduced game, \
             which is the class of vertex {vertex}.\n"
        );
        assert_eq!(say(vertex, "even").text(), sentence);
    }
    let sentence = "not shown: the plan wins for Even from class 0 of the reduced game, but vertex 2 is in class 2. \
                    This doesn't mean that Even loses at vertex 2, or that the other player wins there: a plan \
                    that starts at class 2 may still show either.\n";
    assert_eq!(say("2", "even").not_shown(), sentence);
    let line =
        ["verdict", "games/d.txt", "games/c.plan.txt", "--json", "--player=even", "--vertex"];
    let json = |vertex| run(&[&line[..], &[vertex]].concat());
    let told = "{\"accepted\":true,\"shown\":true,\"player\":\"Even\",\
                \"at\":{\"vertex\":5,\"id\":5,\"name\":null,\"class\":0},\"plan_starts_at_class\":0}\n";
    assert_eq!(json("5").text(), told);
    assert!(json("2").not_shown().starts_with("{\"accepted\":true,\"shown\":false,"));
    // Odd's plan from class 1, which is below class 2; either input may be standard input.
    let odd = b"2 2 / 1 3 / 0 1 / 1 1";
    let line = ["verdict", "games/c.txt", "-", "--player=odd", "--vertex"];
    let by_odd = |vertex| run_on(&[&line[..], &[vertex]].concat(), odd);
    assert!(by_odd("1").text().starts_with("wins: Odd wins at vertex 1, as the plan wins "));
    assert!(by_odd("2").not_shown().starts_with("not shown: "));
    let game = bytes(&shipped("d.txt"));
    let line = ["verdict", "-", "games/c.plan.txt", "--player=even", "--vertex=5"];
    assert_eq!(run_on(&line, &game).text(), say("5", "even").text());
}

/// The shipped plan shows that the controller wins at every closed door, and at no other vertex.
#[test]
fn shipped_plan_on_the_reduced_game() {
    for vertex in 0..14 {
        let (game, plan) = (path("lift-doors.txt"), path("lift-doors.reduced-plan.txt"));
        let vertex_word = vertex.to_string();
        let line = ["verdict", &game, &plan, "--player=even", "--vertex", &vertex_word];
        let ran = run(&line);
        match vertex % 7 {
            0 => assert!(ran.text().starts_with("wins: "), "{vertex}"),
            _ => assert!(ran.not_shown().starts_with("not shown: "), "{vertex}"),
        }
    }
}

#[test]
fn explain_each_number() {
    for number in (1..=16).chain(21..=24).chain(31..=41) {
        let text = run(&["explain", &number.to_string()]).text();
        let about = if number < 31 { "the " } else { "a later addition\n" };
        assert!(text.starts_with(&format!("refusal {number}, about {about}")), "{text}");
        let heads: Vec<&str> =
            text.lines().skip(1).filter_map(|line| line.split(':').next()).collect();
        assert_eq!(heads, ["meaning", "place", "what to do"]);
    }
}

#[test]
fn help_begins_with_what_a_newcomer_needs() {
    let overview = run(&["--help"]).text();
    let (first, rest) = overview.split_once("\nusage: ").expect("a usage");
    for fact in ["512 vertices and 4,096 edges", "lowest priority seen for ever decides"] {
        assert!(first.replace('\n', " ").contains(fact), "{first}");
        assert!(run(&["reduce", "--help"]).text().replace('\n', " ").contains(fact), "{fact}");
    }
    // The format is said once.
    let format = "The words are: number of vertices, number of edges,";
    assert_eq!(overview.replace('\n', " ").matches(format).count(), 1, "{overview}");
    let of_reduce = run(&["reduce", "--help"]).text().replace('\n', " ");
    assert!(of_reduce.contains("`raskjomi --help` says how a game is given"), "{of_reduce}");
    assert!(!of_reduce.contains(format), "{of_reduce}");
    assert!(rest.contains("docs/CONTRACT.md"), "{rest}");
    assert!(root().join("docs/CONTRACT.md").is_file());
}

#[test]
fn help_of_each_command_has_an_example_that_runs() {
    let overview = run(&["--help"]).text();
    assert_eq!(run(&["help"]).text(), overview);
    let listed: Vec<&str> =
        overview.lines().filter_map(|line| line.strip_prefix("  ")?.split(' ').next()).collect();
    assert_eq!(listed.len(), 28, "{listed:?}");
    for command in listed {
        let help = run(&[command, "--help"]).text();
        assert_eq!(run(&["help", command]).text(), help);
        assert_eq!(run(&[command, "-h", "games/none"]).text(), help);
        assert!(help.starts_with(&format!("usage: raskjomi {command}")), "{help}");
        let example =
            help.lines().find_map(|line| line.strip_prefix("example: ")).expect("an example");
        // Graphviz needn't be installed.
        let example = example.split(" | dot ").next().expect("a command");
        let program = format!("'{}'", env!("CARGO_BIN_EXE_raskjomi"));
        let line = example.replace("./raskjomi ", &format!("{program} "));
        let ran =
            Command::new("sh").args(["-c", &line]).current_dir(root()).output().expect("a shell");
        assert!(ran.status.success() && !ran.stdout.is_empty(), "{example}: {ran:?}");
    }
}
