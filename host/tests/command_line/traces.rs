//! Traces and plans on games whose files name their vertices.

use crate::run::{bytes, file, run, run_on};

/// Ids with gaps, names with all that separates words, and two vertices of one name.
const GAME: &str = "parity 12;\n3 2 0 5,9 \"door open\";\n5 1 1 3 \"b/2 #1\";\n9 0 0 9 \"end\";\n10 0 0 9 \"twin\";\n12 0 0 9 \"twin\";\n";

/// A replay of a trace with --names.
fn named(game: &str, trace: &[u8]) -> crate::run::Run {
    run_on(&["replay", game, "-", "--names"], trace)
}

#[test]
fn a_trace_names_vertices_as_the_file_does() {
    let game = file("named.pg", GAME.as_bytes());
    let numbers = run_on(&["replay", &game, "-"], b"2 / 1 0 / 2 1").text();
    assert_eq!(numbers, GAME.replace("3 2 0 5,9", "3 2 0 9").replace("5 1 1 3", "5 1 1 3,9"));
    let traces: [&[u8]; 5] = [
        b"2 / 5 3 / 9 5",
        b"2 / \"b/2 #1\" \"door open\" / end \"b/2 #1\"",
        b"# ids and names\n2\n5 \"door open\" # sources\n\"end\" 5",
        b"\xef\xbb\xbf2/5/3/end/5\r\n",
        b"2 5 3\t9#targets\n5",
    ];
    for trace in traces {
        assert_eq!(named(&game, trace).text(), numbers, "{}", String::from_utf8_lossy(trace));
    }
    // Without the option, the words are numbers, as the library takes them.
    run_on(&["replay", &game, "-"], b"1 / 5 / 9").fails(1, &[": refused 37 at ", "edge 5 to 9; "]);
    // A game without ids has numbers alone.
    let edited = |words: &[&str]| {
        run(&[&["replay", "games/d.txt", "games/d.trace.txt"], words].concat()).text()
    };
    assert_eq!(edited(&["--names"]), edited(&[]));
    let latin = file("latin.pg", b"parity 1;\n0 0 0 0,1 \"caf\xe9\";\n1 0 0 1;\n");
    let edited = named(&latin, b"1 / caf\xe9 / 1").bytes();
    assert_eq!(edited, b"parity 1;\n0 0 0 0 \"caf\xe9\";\n1 0 0 1;\n");
}

#[test]
fn words_that_name_no_vertex() {
    let game = file("named-errors.pg", GAME.as_bytes());
    let rows: [(&[u8], &str); 7] = [
        (b"1 / 4 / 9", "line 1, word 2: no vertex `4`; write TRACE with an id or a name; its 5 ids are from 3 to 12"),
        (b"1\n5\n door", "line 3, word 1: no vertex `door`; write TRACE with an id or a name"),
        (b"1 5 twin", "word 3: 2 vertices are called twin: those with the ids 10, 12; write TRACE with one of these ids"),
        (b"1 5 \"door\nopen\"", "line 1: a quotation mark without a second one; write a name between two, in one line"),
        (b"end 5 9", "line 1, word 1: `end` is no number from 0 to 65535; write decimal numbers"),
        (b"-1 5 9", "line 1, word 1: `-1` is no number from 0 to 65535; "),
        (&bytes(&[1, 1, 2]), "standard input: binary, where ids or names are wanted; write it as text"),
    ];
    for (trace, told) in rows {
        assert_eq!(named(&game, trace).fails(2, &["standard input: ", told]), "");
    }
    named(&game, b"").fails(1, &["refused 40 at 0: "]);
    named(&game, b"2 5 9").fails(1, &["its count is 2, and it has 3 words", "refused 40 at 0: "]);
}

#[test]
fn refused_entries_have_the_names_of_the_file() {
    let game = file("named-refused.pg", GAME.as_bytes());
    let told = "entry 1 from 0, edge id 5 \"b/2 #1\" to id 3 \"door open\"; ";
    let parts = ["line 1, word 3", told, "1 of 2 entries done): refused 38 at 1: "];
    named(&game, b"2 / 3 5 / 3 3").fails(1, &parts);
    run_on(&["replay", &game, "-"], b"2 / 0 1 / 0 0").fails(1, &parts);
}

#[test]
fn a_plan_is_carried_to_a_name() {
    let mut named = String::new();
    for line in run(&["pgsolver", "games/d.txt"]).text().lines() {
        let id = line.split(' ').next().expect("an id");
        let line =
            if id == "parity" { line.into() } else { line.replace(';', &format!(" \"v{id}\";")) };
        named += &(line + "\n");
    }
    let game = file("carried.pg", named.as_bytes());
    let carry = |vertex: &str| {
        run(&[
            "carry",
            &game,
            "games/c.plan.txt",
            "--player=even",
            "--as=words",
            "--vertex",
            vertex,
        ])
        .bytes()
    };
    assert_eq!(carry("v5"), carry("5"));
}

#[test]
fn the_help_says_what_the_words_are() {
    let help = |command: &str| run(&[command, "--help"]).text().replace('\n', " ");
    let replay = help("replay");
    assert!(
        replay.contains(
            "The words of a trace are numbers of vertices, from 0 by ascending id. With --names,"
        ),
        "{replay}"
    );
    let carry = help("carry");
    assert!(carry.contains("V is a number, or such an id or name."), "{carry}");
}
