//! Files of large games and solutions, read and written.

use super::{
    read_game, read_solution, write_game, write_game_as, write_solution, FileForm, GameFile,
    Identifiers, Style,
};
use crate::{convert, LargeGame};
use std::io::{self, Read};

fn game(text: &str) -> GameFile {
    read_game(text.as_bytes(), None, false).expect("a game")
}

/// What is wrong with a game.
fn bad(text: &str) -> String {
    read_game(text.as_bytes(), None, false).expect_err("no game").to_string()
}

const GAPS: &str = "% a game\nparity 9;\nstart 5;\n3 2 0 5,9 \"door, open\";\n5 1 1\n  3; // back\n9 0 0 9 \"clos\u{e9}\";\n";

#[test]
fn ids_names_comments_and_a_start() {
    let GameFile { words, vertices, start, even, in_pgsolver, repeats } = game(GAPS);
    // The highest priority is 2, so a priority q becomes 2 - q; ids 3, 5 and 9 are vertices 0, 1 and 2.
    assert_eq!(words, [3, 4, 0, 1, 2, 0, 1, 0, 0, 0, 1, 2, 1, 2, 0, 2]);
    assert_eq!((start, even, in_pgsolver, repeats), (Some(1), Some(2), true, None));
    let labels = [0, 1, 2].map(|vertex| vertices.label(vertex));
    assert_eq!(labels, ["id 3 \"door, open\"", "id 5", "id 9 \"clos\u{e9}\""]);
    assert_eq!((vertices.named("clos\u{e9}"), vertices.named("x")), (Some(2), None));
    assert_eq!([3, 4, 9, 10].map(|id| vertices.vertex(id)), [Some(0), None, Some(2), None]);
    let lowest = read_game(GAPS.as_bytes(), None, true).expect("a game");
    assert_eq!((&lowest.words[2..5], lowest.even), (&[2, 1, 0][..], None));
}

#[test]
fn names_of_some_vertices() {
    let some = game(GAPS).vertices.renumbered(&[1, 2]);
    assert_eq!([0, 1].map(|vertex| some.label(vertex)), ["0", "1 \"clos\u{e9}\""]);
    assert_eq!((some.vertex(1), some.vertex(2)), (Some(1), None));
}

#[test]
fn ids_in_any_sequence() {
    let shuffled = "parity 9; 9 0 0 9 \"c\"; 3 2 0 5,9 \"a\"; 5 1 1 3;";
    let GameFile { words, vertices, .. } = game(shuffled);
    assert_eq!(words, game(GAPS).words);
    assert_eq!(
        [0, 1, 2].map(|vertex| vertices.label(vertex)),
        ["id 3 \"a\"", "id 5", "id 9 \"c\""]
    );
    let dense = game("parity; 2 0 1 0,1; 0 1 0 2; 1 5 1 1;");
    assert_eq!(dense.words, [3, 4, 5, 1, 6, 0, 1, 1, 0, 1, 2, 2, 2, 1, 0, 1]);
    assert!(!dense.vertices.has_gaps());
    let far = game("parity; 4000000000 0 0 7; 7 0 0 4000000000;");
    assert_eq!(&far.words[6..], [0, 1, 1, 0]);
    let from_one = game("parity 2; 1 0 0 2; 2 0 0 1,2;");
    assert_eq!(&from_one.words[6..], [0, 1, 1, 1, 0, 1]);
    assert_eq!(from_one.vertices.label(1), "id 2");
}

#[test]
fn a_successor_that_stands_twice_is_one_edge() {
    let read = game("parity 2;\n1 0 0 2;\n2 0 0 1,1,2,1;\n");
    assert_eq!((read.words[1], &read.words[6..]), (3, &[0, 1, 1, 1, 0, 1][..]));
    let told = read.repeats.expect("two are").to_string();
    assert_eq!(
        told,
        "line 3, id 2: a successor stands there twice, as 2 do in this file; each is read as one edge"
    );
    let all: String = (0..300).map(|id| format!("{},", id % 100)).collect();
    let lines: String = (0..100).map(|id| format!("{id} 0 0 {all}{id};\n")).collect();
    let read = game(&format!("parity 99;\n{lines}"));
    assert_eq!(read.words[..2], [100, 10_000]);
    assert_eq!(read.repeats.map(|repeats| repeats.count), Some(20_100));
}

#[test]
fn copies_of_an_edge_are_written_once() {
    let (mut text, words) = (Vec::new(), [2, 5, 0, 1, 0, 1, 0, 1, 0, 0, 0, 1, 1, 0, 1, 1]);
    write_game(&mut text, &words, &Identifiers::numbers(2), true).expect("memory takes all");
    assert_eq!(text, b"parity 1;\n0 0 0 1,0;\n1 1 1 1;\n");
}

/// Asserts how the message about a game begins.
fn begins(text: &str, message: &str) {
    assert!(bad(text).starts_with(message), "{}", bad(text));
}

#[test]
fn errors_have_line_id_and_remedy() {
    begins("parity;\n", "line 1: no vertex after the first line; write `id priority owner");
    begins(
        "parity x;",
        "line 1: `x` instead of the highest id; write `parity N;`, with N the highest id",
    );
    begins("parity 1", "line 1: the end of the file instead of a semicolon");
    begins(
        "parity 1;\n2 0 0 2;",
        "line 2, id 2: the id is above the highest id that the first line names; write `parity 2;`",
    );
    begins(
        "parity 1;\n0 0 2 0;",
        "line 2, id 0: owner 2; write 0 for Even's vertices and 1 for Odd's",
    );
    begins(
        "parity 1;\n0 0 0 1;\n0 0 0 0;",
        "line 3, id 0: line 2 has this id already; give each vertex an id of its own",
    );
    begins("parity 5;\n5 0 0 5;\n1 0 0 5;\n\n5 0 0 1;", "line 5, id 5: line 2 has this id already");
    begins(
        "parity 1;\n0 0 0 0;\n1 0 0 2,0;",
        "line 3, id 1: successor 2 is no vertex of the file; add a line for 2",
    );
    begins("parity 9;\n9 0 0 0;\n0 0 0 9,5;", "line 3, id 0: successor 5 is no vertex of the file");
    begins("parity 1;\nstart 1;\n0 0 0 0;", "line 2, id 1: the start is no vertex of the file");
    begins("paritysol 1;\n0 0;", "line 1: a solution in PGSolver's format, where a game is wanted");
    begins("parties 1;", "line 1: `parties` instead of a number; write decimal numbers");
}

#[test]
fn errors_of_tokens_and_numbers() {
    begins(
        "parity 1;\n0 0 0 0,;",
        "line 2, id 0: a semicolon instead of a successor after the comma",
    );
    begins("parity 1;\n0 0 0 0\n1 0 0 0;", "line 3, id 0: `1` instead of a semicolon");
    begins(
        "parity 1;\n0 4294967296 0 0;",
        "line 2, id 0: a number from 4294967296 on; write numbers of 32 bits",
    );
    begins("parity 1;\n0 0 0 99999999999999999999;", "line 2, id 0: a number from 9999999999 on");
    begins("parity 1;\n0 12ab 0 0;", "line 2, id 0: `12ab` instead of a priority");
    begins("parity 1;\n0 -1 0 0;", "line 2, id 0: `-1` instead of a priority");
    begins("parity 1;\n0 0 0 0 \"open;", "line 2: a name without its closing quote");
    begins(
        "parity 1;\n0 4294967295 0 0;\n1 0 0 0;",
        "line 3, id 1: priority 0 beside 4294967295, the highest one, needs more than 32 bits",
    );
    assert_eq!(game("parity 1;\n0 4294967295 0 1;\n1 1 0 0;").words[2..4], [1, 4_294_967_295]);
}

#[test]
fn every_cut_of_a_file_is_told_or_harmless() {
    for length in 0..GAPS.len() {
        match read_game(&GAPS.as_bytes()[..length], None, false) {
            // Before the first word there are no words; after the last semicolon nothing is missing.
            Ok(read) => assert!(read.words.is_empty() || length + 1 == GAPS.len(), "{length}"),
            Err(error) => assert!(!error.what.is_empty() && !error.remedy.is_empty()),
        }
    }
}

/// A file that comes byte by byte, and then fails.
struct Slow<'a>(&'a [u8]);

impl Read for Slow<'_> {
    fn read(&mut self, to: &mut [u8]) -> io::Result<usize> {
        let Some((&first, rest)) = self.0.split_first() else {
            return Err(io::ErrorKind::ConnectionReset.into());
        };
        (to[0], self.0) = (first, rest);
        Ok(1)
    }
}

#[test]
fn a_file_that_breaks_off_is_told() {
    let error = read_game(Slow(GAPS.as_bytes()), None, false).expect_err("an error");
    assert_eq!(error.to_string(), "line 8: connection reset; name a file that can be read");
}

#[test]
fn long_names_and_comments_cross_pieces() {
    let (long, n) = ("x".repeat(300_000), 5);
    let line = |v: usize| format!("{v} {v} {} {},0 \"{long}{v}\"; # {long}\n", v % 2, (v + 1) % n);
    let text: String =
        Some("parity 4;\n".to_string()).into_iter().chain((0..n).map(line)).collect();
    let read = game(&text);
    assert_eq!(&read.words[2 + 2 * n..], [0, 0, 1, 1, 2, 2, 3, 3, 4, 1, 0, 2, 0, 3, 0, 4, 0, 0]);
    assert_eq!(read.vertices.named(&format!("{long}4")), Some(4), "a small game keeps all names");
    let without: String = text.replace(&long, "n");
    assert_eq!(game(&without).vertices.named("n4"), Some(4));
}

#[test]
fn names_are_left_out_where_they_take_much_more_memory_than_the_game() {
    let line = |v: usize| format!("{v} 0 0 {v} \"{}\";\n", "x".repeat(2_000));
    let read = |n: usize| game(&(0..n).map(line).collect::<String>()).vertices;
    assert!(!read(512).left_out() && read(512).name(511).is_some(), "1 MB on 512 edges");
    assert!(read(600).left_out() && read(600).name(0).is_none(), "1.2 MB on 600 edges");
}

#[test]
fn priorities_go_through_the_same_map_as_small_games() {
    for n in [1u16, 2, 7, 100, 512] {
        for highest in [0u32, 1, 2, 9, 1000, 65_534] {
            let priority = |v: u16| ((u32::from(v) * 40_503 + highest) % (highest + 1)) as u16;
            let ends: Vec<u16> = (0..n).collect();
            let priorities: Vec<u16> = ends.iter().map(|&v| priority(v)).collect();
            let small = [&[n, n][..], &priorities, &vec![1; n.into()], &ends, &ends].concat();
            let mut converted = vec![0; small.len()];
            convert(&small, &mut converted).expect("a game");
            let large: Vec<u32> = small.iter().map(|&word| word.into()).collect();
            let mut text = Vec::new();
            write_game(&mut text, &large, &Identifiers::numbers(n.into()), true)
                .expect("memory takes all");
            let read = read_game(&*text, None, false).expect("a game");
            assert_eq!(read.words, converted.iter().map(|&word| word.into()).collect::<Vec<u32>>());
        }
    }
}

#[test]
fn words_as_text_and_as_bytes() {
    let words: [u32; 8] = [2, 1, 70_000, 0, 0, 1, 1, 0];
    let read = |bytes: &[u8], form| read_game(bytes, form, false).map(|file| file.words);
    assert_eq!(read(b"# sizes\n2/1 70000 0\r\n0 1 # owners\n1/0", None).expect("words"), words);
    let bytes: Vec<u8> = words.iter().flat_map(|word| word.to_le_bytes()).collect();
    assert_eq!(read(&bytes, None).expect("words"), words);
    assert_eq!(read(&bytes, Some(FileForm::Binary)).expect("words"), words);
    assert!(read(&bytes, Some(FileForm::Text)).is_err());
    let cut = read(&bytes[..31], None).expect_err("cut off").to_string();
    assert_eq!(cut, "cut off: 7 words of 32 bits and 3 bytes; write or copy it again");
    // Words of 16 bits, as small games have them, by their length alone.
    for words in [&[1u16, 1, 3, 1, 0, 0][..], &[1, 2, 3, 1, 0, 0, 0, 0], &[3, 0, 1, 2, 3, 0, 0, 0]]
    {
        let bytes: Vec<u8> = words.iter().flat_map(|word| word.to_le_bytes()).collect();
        assert_eq!(
            read(&bytes, None).expect("words"),
            words.iter().map(|&word| word.into()).collect::<Vec<u32>>()
        );
    }
    assert_eq!(read(b"", None).expect("no words"), []);
}

/// What is wrong with a solution of the game with gaps.
fn bad_solution(text: &str) -> String {
    let GameFile { words, vertices, .. } = game(GAPS);
    read_solution(text.as_bytes(), None, &words, &vertices).expect_err("no solution").to_string()
}

#[test]
fn solutions_name_edges() {
    let GameFile { words, vertices, .. } = game(GAPS);
    let read =
        |text: &str| read_solution(text.as_bytes(), None, &words, &vertices).expect("a solution");
    assert_eq!(read("paritysol 9;\n3 0 9;\n5 0;\n9 0 9;"), [0, 0, 0, 1, 2, 3]);
    assert_eq!(
        read("paritysol;9 0 9 \"x\";5 0 77; # Even's, so no strategy\n3 0 5;"),
        [0, 0, 0, 0, 2, 3]
    );
    assert_eq!(read("0 0 0 1 2 3"), [0, 0, 0, 1, 2, 3]);
    let words: Vec<u8> = [0u32, 0, 0, 1, 2, 3].iter().flat_map(|word| word.to_le_bytes()).collect();
    let game = game(GAPS).words;
    assert_eq!(
        read_solution(&*words, None, &game, &vertices).expect("a solution"),
        [0, 0, 0, 1, 2, 3]
    );
}

#[test]
fn errors_of_solutions() {
    let begins = |text: &str, message: &str| {
        assert!(bad_solution(text).starts_with(message), "{}", bad_solution(text))
    };
    begins("paritysol 9;\n3 2;", "line 2, id 3: winner 2; write 0 where Even wins");
    begins(
        "paritysol 9;\n4 0;",
        "line 2, id 4: no vertex of the game has this id; take the solution of this game",
    );
    begins(
        "paritysol 9;\n3 0 9;\n\n3 0 9;",
        "line 4, id 3: line 2 has this id already; write one line",
    );
    begins("paritysol 9;\n3 0;", "line 2, id 3: no strategy, though the vertex is its winner's");
    begins("paritysol 9;\n3 0 4;", "line 2, id 3: strategy 4 is no vertex of the game");
    begins(
        "paritysol 9;\n5 0;\n9 0 9;\n3 0 3;",
        "line 4, id 3: strategy 3 is no successor of it; name one of its successors: 5, 9",
    );
    begins("paritysol 9;\n3 0 9;\n9 0 9;", "no line for vertex id 5; solve the whole game");
    begins("paritysol 9;\n3 0 9", "line 2, id 3: the end of the file instead of a semicolon");
    begins("paritysol 9;\n3 x", "line 2, id 3: `x` instead of a winner");
    begins("parity 9;\n3 0 9;", "line 1: a game in PGSolver's format, where a solution is wanted");
    let stuck = game("parity 1; 0 0 0 1; 1 0 0;");
    let text = "paritysol 1;\n0 0 1;\n1 0 0;";
    let error =
        read_solution(text.as_bytes(), None, &stuck.words, &stuck.vertices).expect_err("no edge");
    assert!(
        error.to_string().starts_with("line 3, id 1: the game has no edge out of this vertex; "),
        "{error}"
    );
}

#[test]
fn games_and_solutions_come_back() {
    let GameFile { words, vertices, .. } = game(GAPS);
    let mut text = Vec::new();
    write_game(&mut text, &words, &vertices, false).expect("memory takes all");
    let expected = "parity 9;\n3 2 0 5,9 \"door, open\";\n5 1 1 3;\n9 0 0 9 \"clos\u{e9}\";\n";
    assert_eq!(String::from_utf8(text).expect("text"), expected);
    let (mut text, solution) = (Vec::new(), [0, 0, 0, 1, 2, 3]);
    write_solution(&mut text, &words, &solution, &vertices).expect("memory takes all");
    assert_eq!(text, b"paritysol 9;\n3 0 9;\n5 0;\n9 0 9;\n");
    assert_eq!(read_solution(&*text, None, &words, &vertices).expect("a solution"), solution);
}

#[test]
fn without_a_first_line() {
    let with = game("parity 1;\nstart 1;\n0 2 0 0,1;\n1 1 1 0;\n");
    for text in ["start 1;\n0 2 0 0,1;\n1 1 1 0;\n", "0 2 0 # 1\n0,1 \"a;\";\nstart 1;\n1 1 1 0;\n"]
    {
        let read = game(text);
        assert_eq!((read.words, read.start), (with.words.clone(), Some(1)), "{text}");
    }
    begins("0 0 0 0;\nparity 1;\n", "line 2: `parity` instead of an id; ");
    begins("parity 1; parity 1;\n", "line 1: `parity` instead of an id; ");
    begins("1, 1, 0", "line 1: a comma instead of a number; ");
    // More successors than a piece of the file has.
    let all: Vec<String> = (0..60_000).map(|id| id.to_string()).collect();
    let lines: String = (1..60_000).map(|id| format!("{id} 0 0 0;\n")).collect();
    assert_eq!(game(&format!("0 0 0 {};\n{lines}", all.join(","))).words[1], 119_999);
    let GameFile { words, vertices, .. } = with;
    for text in ["0 0 0;\n1 0;\n", "0 0 0;\n1 0 -1;\n", "paritysol 1;\n0 0 0;\n1 0 -1 \"b\";\n"] {
        let solution = read_solution(text.as_bytes(), None, &words, &vertices);
        assert_eq!(solution.expect("a solution"), [0, 0, 0, 2], "{text}");
    }
    let error = read_solution(&b"0 0 -1;\n"[..], None, &words, &vertices).expect_err("no move");
    assert!(error.to_string().starts_with("line 1, id 0: no strategy, though "), "{error}");
}

#[test]
fn names_priorities_and_the_start_come_back() {
    let text =
        b"parity 2;\nstart 2;\n0 6 0 1 \"clos\xe9 \x93\";\n1 9 0 2 \"clos\xc3\xa9\";\n2 4 0 0;\n";
    let GameFile { words, vertices, start, even, .. } =
        read_game(&text[..], None, false).expect("a game");
    let names = [0, 1].map(|vertex| vertices.name(vertex).expect("a name"));
    assert_eq!(names, ["clos\u{e9} ?", "clos\u{e9}"]);
    let mut written = Vec::new();
    let style = Style { lowest: false, even, start };
    write_game_as(&mut written, &words, &vertices, style).expect("memory takes all");
    assert_eq!(written, text);
}

#[test]
fn a_large_game_comes_back() {
    let n: u32 = 50_000;
    let mut words = vec![n, 3 * n];
    words.extend((0..n).map(|v| v % 11));
    words.extend((0..n).map(|v| v % 2));
    words.extend((0..3).flat_map(|_| 0..n));
    words.extend((0..3 * n).map(|edge| (edge.wrapping_mul(2_654_435_761) >> 7) % n));
    let numbers = Identifiers::numbers(n as usize);
    let mut text = Vec::new();
    write_game(&mut text, &words, &numbers, true).expect("memory takes all");
    let read = read_game(&*text, None, true).expect("a game").words;
    let sorted = |words: Vec<u32>| {
        let mut edges: Vec<_> = LargeGame::new(words).expect("a game").edges().collect();
        edges.sort_unstable();
        edges.dedup();
        edges
    };
    assert_eq!(read[..2 + 2 * n as usize], words[..2 + 2 * n as usize]);
    assert_eq!(sorted(read), sorted(words));
}
