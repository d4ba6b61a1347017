//! Files of games and solutions by the library, as a Rust program reads and writes them.

mod common;

use common::root;
use generator::{any_game, Lcg};
use raskjomi::formats::{read_game, read_game_as, to_bytes, Numbers, ReadError, Solution, Unit};
use raskjomi::large::{self, FileErrorKind};
use raskjomi::{Game, Plan, Player, Trace, Verdict};
use std::fs;

const GAPS: &[u8] =
    b"parity 9;\nstart 3;\n3 2 0 5,9 \"door, open\";\n5 1 1 3;\n9 0 0 9 \"clos\xc3\xa9\";\n";

#[test]
fn a_file_is_read_in_two_lines_and_written_back() {
    let file = read_game(GAPS).expect("a game");
    assert_eq!(file.game.reduce().classes, [0, 1, 2]);
    assert_eq!(file.to_pgsolver(false).expect("priorities that fit"), GAPS);
    assert_eq!(file.vertices.start(), Some(0));
    assert_eq!(
        ["3", "door, open", "4"].map(|word| file.vertices.find(word)),
        [Some(0), Some(0), None]
    );
    let text = file.to_text("a door");
    assert_eq!(read_game(text.as_bytes()).expect("a game").game, file.game);
    assert!(file.to_dot().contains("label=\"id 3 \\\"door, open\\\" (class 0)\\npriority 2\""));
    let lowest = read_game_as(GAPS, None, true).expect("a game");
    assert_eq!(lowest.game.priorities(), [2, 1, 0]);
}

#[test]
fn each_format_gives_the_same_game() {
    for name in ["b.txt", "c.txt", "d.txt", "lift-doors.txt"] {
        let text = fs::read(root().join("games").join(name)).expect("a shipped game");
        let file = read_game(&text).expect("a game");
        let again = |bytes: &[u8], lowest| read_game_as(bytes, None, lowest).expect("a game").game;
        assert_eq!(again(&to_bytes(file.game.words()), false), file.game, "{name}");
        assert_eq!(file.game.to_string().parse(), Ok(file.game.clone()), "{name}");
        let written = file.to_pgsolver(true).expect("a game in PGSolver's format");
        assert_eq!(again(&written, true), file.game, "{name}");
    }
}

/// The readers of small and of large games are one: they give the same words, or the same error.
#[test]
fn small_and_large_readers_agree() {
    let mut lcg = Lcg::new(44);
    for most in [1, 4, 9, 20].repeat(5) {
        let game = Game::new(any_game(&mut lcg, most).words()).expect("a game");
        let text = file_of(&game);
        let small = read_game(&text).expect("a game");
        let read = large::read_game(&text[..], None, false).expect("a game");
        assert!(small.game.words().iter().map(|&word| u32::from(word)).eq(read.words));
        assert_eq!(small.vertices.even().map(u64::from), read.even);
    }
    for text in [
        "parity x;",
        "parity 1;\n0 0 0 0",
        "parity 1;\n0 0 2 0;",
        "parity 1;\n0 0 0 0;\n0 0 0 0;",
        "parity 9;\n9 0 0 0;\n0 0 0 9,5;",
        "parity 1;\n0 0 0 0 \"open;",
        "start 2;\n0 0 0 0;",
    ] {
        let small = read_game(text.as_bytes()).expect_err("an error").to_string();
        let read = large::read_game(text.as_bytes(), None, false).expect_err("an error");
        assert_eq!(small, read.to_string(), "{text}");
    }
}

fn file_of(game: &Game) -> Vec<u8> {
    raskjomi::formats::to_pgsolver(game, &Default::default(), false).expect("small priorities")
}

#[test]
fn errors_are_values_with_line_id_and_remedy() {
    let file = |bytes: &[u8]| match read_game(bytes) {
        Err(ReadError::File(error)) => error,
        other => panic!("{other:?}"),
    };
    let error = file(b"parity 1;\n0 70000 0 0;");
    assert_eq!((error.line, error.id, error.kind), (Some(2), Some(0), FileErrorKind::AboveLimits));
    assert_eq!(error.what, "priority 70000 is above 65535");
    assert!(error.remedy.starts_with("number the priorities in use anew"));
    let error = file(b"1 1\n0 70000 0 0");
    assert_eq!((error.line, error.part), (Some(2), Some("word 2".into())));
    assert_eq!(error.kind, FileErrorKind::AboveLimits);
    let error = file(b"1 1 1 1 0 0 \0");
    assert_eq!((error.line, error.kind), (Some(1), FileErrorKind::MaybeBinary));
    let many: String = (0..70_000).map(|id| format!("{id} 0 0 {id};\n")).collect();
    assert_eq!(file(many.as_bytes()).kind, FileErrorKind::AboveLimits);
    assert_eq!(
        file(b"paritysol 0; 0 0 0;").what,
        "a solution in PGSolver's format, where a game is wanted"
    );
    let Err(ReadError::Refused(refused)) = read_game(b"parity 5;\n3 0 0 3;\n5 0 1;") else {
        panic!("5 has no edge out")
    };
    assert_eq!((refused.refusal.number, &*refused.place), (8, "line 3, id 5 (vertex id 5)"));
    let remedy = refused.refusal.explanation().remedy;
    assert!(refused.to_string().ends_with(remedy));
}

#[test]
fn a_solution_becomes_a_plan_and_a_verdict() {
    let game = fs::read(root().join("games/lift-doors.txt")).expect("a game");
    let solution = fs::read(root().join("games/lift-doors.sol")).expect("a solution");
    let file = read_game(&game).expect("a game");
    let (reduced, solution) = (file.reduce(), Solution::parse(&solution).expect("a solution"));
    for (vertex, &class) in (0..).zip(&file.game.classes()) {
        let (winner, plan) =
            solution.plan(&reduced.game, &reduced.vertices, class.into()).expect("a plan");
        assert!(matches!(file.game.verdict(vertex, winner, &plan), Verdict::Wins(_)), "{vertex}");
        let carried = file.game.carry_class(winner, &plan, vertex).expect("a carried plan");
        assert_eq!(carried.start(), Some(vertex as u16));
        assert_eq!(file.game.accept_plan(winner, &carried), Ok(()));
    }
}

#[test]
fn words_that_nobody_judged_are_told_without_a_panic() {
    for words in [vec![], vec![3], vec![3, 9, 1], vec![u16::MAX; 3], vec![0; 9]] {
        let plan = Plan::from_words(words.clone());
        assert!(plan.positions().len() <= words.len() && plan.links().count() <= words.len());
        let trace = Trace::from_words(words);
        let _ = (plan.start(), plan.to_string(), trace.to_string(), trace.edges().count());
    }
    let marks = Numbers::read(b"1 0 0 1", Unit::Mark(1), None).expect("marks");
    assert_eq!((marks.packed(4), marks.is_text()), (vec![0b1001], true));
    assert!(Game::new(vec![1, 1, 0, 0, 0, 0]).expect("a game").owner(0) == Player::Even);
}
