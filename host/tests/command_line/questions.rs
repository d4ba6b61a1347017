//! Questions about a game: `check`, `merged`, `why`, and what refusals name.

use crate::run::{bytes, file, run, run_on};
use generator::{any_game, Lcg};
use oracle::{mark_bytes, Memory, Oracle};
use raskjomi::is_marked;

#[test]
fn several_files_have_a_line_each() {
    let ran = run(&["check", "games/b.txt", "games/none", "games/c.plan.txt", "games/d.txt"]);
    assert_eq!(ran.status, 2, "the highest of all");
    let lines = "games/b.txt: accepted, 3 vertices and 3 different edges\ngames/none: unreadable\n\
                 games/c.plan.txt: refused 4 at 11\n\
                 games/d.txt: accepted, 6 vertices and 8 different edges\n";
    assert_eq!(String::from_utf8(ran.out).expect("text"), lines);
    let told: Vec<&str> = ran.err.lines().collect();
    assert_eq!(told.len(), 2, "{told:?}");
    assert!(told[0].starts_with("raskjomi: games/none: no such file or directory; "), "{told:?}");
    assert!(told[1].starts_with("raskjomi: games/c.plan.txt: after line 5, word 3, "), "{told:?}");
    assert_eq!(run(&["check", "games/b.txt", "games/c.plan.txt"]).status, 1);
    let one = run_on(&["check"], b"1 2 / 0 0 / 0 0 / 0 0").text();
    assert_eq!(one, "standard input: accepted, 1 vertex and 1 different edge\n");
}

#[test]
fn answers_as_json() {
    let report = run(&["report", "games/b.txt", "--json"]).text();
    let expected = "{\"game\":{\"vertices\":3,\"edges\":3},\"passes\":1,\"vertices\":[\
        {\"vertex\":0,\"id\":0,\"name\":null,\"class\":0},{\"vertex\":1,\"id\":1,\"name\":null,\"class\":1},\
        {\"vertex\":2,\"id\":2,\"name\":null,\"class\":0}],\"classes\":[\
        {\"class\":0,\"members\":[0,2],\"edges\":1},{\"class\":1,\"members\":[1],\"edges\":1}],\
        \"reduced\":{\"vertices\":2,\"edges\":2}}\n";
    assert_eq!(report, expected);
    let named =
        b"parity 7; 3 0 0 3 \"a\\\\ b\"; 7 0 1 7;"
            .map(|byte| if byte == b' ' { b'\t' } else { byte });
    let classes = run_on(&["classes", "--json"], &named).text();
    let expected = "{\"vertices\":[{\"vertex\":0,\"id\":3,\"name\":\"a\\\\\\\\?b\",\"class\":0},\
        {\"vertex\":1,\"id\":7,\"name\":null,\"class\":0}],\"classes\":[[0,1]]}\n";
    assert_eq!(classes, expected);
    let governed = run(&["governed", "classes", "games/d.txt", "--json"]).text();
    assert!(governed.ends_with("\"classes\":[[0],[1],[2],[3],[4],[5]]}\n"), "{governed}");
    let checked = run(&["check", "--json", "games/b.txt"]).text();
    let expected = "[{\"file\":\"games/b.txt\",\"accepted\":true,\"vertices\":3,\"different_edges\":3,\"edges\":3}]\n";
    assert_eq!(checked, expected);
    let plan = ["check-plan", "games/c.txt", "games/c.plan.txt", "--json", "--player"];
    assert_eq!(run(&[&plan[..], &["even"]].concat()).text(), "{\"accepted\":true}\n");
    let refused = run(&[&plan[..], &["odd"]].concat()).fails(1, &["refused 15 at 0"]);
    let head =
        "{\"accepted\":false,\"refusal\":{\"number\":15,\"place\":0,\"meaning\":\"a position lacks";
    assert!(refused.starts_with(head) && refused.ends_with("\"}\n"), "{refused}");
    let line = ["governed", "check", "games/b.txt", "-", "--json"];
    let refused = run_on(&line, b"1 0 1 / 0 1 0 / 0 0 1").fails(1, &["refused 10 at 2"]);
    assert!(refused.starts_with("{\"accepted\":false,\"refusal\":{\"number\":10,\"place\":2,"));
    let unreadable = run(&["classes", "--json", "games/none"]).fails(2, &["games/none"]);
    assert!(
        unreadable.starts_with("{\"accepted\":false,\"refusal\":null,\"message\":\"games/none: ")
    );
    let several =
        run(&["check", "--json", "games/b.txt", "games/c.plan.txt"]).fails(1, &["refused 4"]);
    assert!(several.contains(
        "},{\"file\":\"games/c.plan.txt\",\"accepted\":false,\"refusal\":{\"number\":4,"
    ));
}

#[test]
fn merged_vertices() {
    let of_d = run(&["merged", "games/d.txt"]).text();
    assert_eq!(of_d, "vertex 5: class 0, represented by vertex 0\n");
    assert_eq!(run(&["merged", "games/c.txt"]).text(), "no vertex is represented by another\n");
    let named = b"parity 3; 0 1 0 1 \"a\"; 1 0 0 1; 2 1 1 1 \"b\"; 3 1 0 1;";
    let text = run_on(&["merged"], named).text();
    let lines = "vertex 2 \"b\": class 0, represented by vertex 0 \"a\"\n\
                 vertex 3: class 0, represented by vertex 0 \"a\"\n";
    assert_eq!(text, lines);
}

#[test]
fn why_in_each_case_of_owners() {
    let why = |game: &str, v: &str, w: &str| run(&["why", game, v, w]).text();
    let sentence = "Vertex 2 isn't below vertex 1.\nPass 1 parts 2 from 1: Even may go from 2 to 4, and from 1 \
                    nowhere as good: 4 isn't below 3 (priorities 4 and 1).\n";
    assert_eq!(why("games/c.txt", "2", "1"), sentence);
    let below = "Vertex 1 is below vertex 2. They have the same priority, and Even has as good a move there \
                 for each one here: 3 is below 3.\n";
    assert_eq!(why("games/c.txt", "1", "2"), below);
    assert_eq!(
        why("games/c.txt", "0", "1"),
        "Vertex 0 isn't below vertex 1.\n0 has priority 2, and 1 has priority 0.\n"
    );
    assert_eq!(
        why("games/c.txt", "3", "3"),
        "Vertex 3 is below vertex 3. Every vertex is below itself.\n"
    );
    // Odd and Odd, Even and Odd, Odd and Even, each pair told once, in this sequence.
    let text = why("games/lift-doors.txt", "6", "5");
    let parts: Vec<&str> =
        text.lines().map(|line| line.split(':').next().unwrap_or_default()).collect();
    let expected = [
        "Vertex 6 isn't below vertex 5.",
        "Pass 4 parts 6 from 5",
        "Pass 3 parts 2 from 1",
        "Pass 2 parts 1 from 3",
        "Pass 1 parts 2 from 5",
        "Pass 1 parts 2 from 6",
        "Pass 1 parts 3 from 5",
        "Pass 1 parts 3 from 6",
    ];
    assert_eq!(parts, expected);
    assert!(text.contains("6 from 5: Odd may go from 5 to 1, and from 6 nowhere as good for Odd: 0 isn't below 1 (priorities 0 and 2), 2 isn't below 1 (pass 3).\n"), "{text}");
    assert!(
        text.contains(
            "2 from 1: Even may go from 2 to 1, and Odd from 1 to 3: 1 isn't below 3 (pass 2).\n"
        ),
        "{text}"
    );
    assert!(text.contains("1 from 3: wherever Odd goes from 1 and Even from 3: 2 isn't below 4 (priorities 2 and 1), "), "{text}");
    run(&["why", "games/c.txt", "5", "1"])
        .fails(2, &["no vertex `5`; write V with a number from 0 to 4"]);
    run(&["why", "games/c.txt", "0", "x"]).fails(2, &["no vertex `x`; write W with"]);
    run(&["why", "games/c.txt", "0"]).fails(2, &["arguments: 2 instead of 3"]);
}

/// The pair that a sentence of `why` is about, and those that it rests on with their pass or priorities.
type Reason = ((usize, usize), Vec<((usize, usize), bool)>);

fn reason(line: &str) -> Option<Reason> {
    let number = |word: &str| word.parse::<usize>().ok();
    let (head, rest) = line.strip_prefix("Pass ")?.split_once(": ")?;
    let (_, pair) = head.split_once(" parts ")?;
    let (v, w) = pair.split_once(" from ")?;
    let below = |part: &str| {
        let (x, rest) = part.rsplit_once(" isn't below ")?;
        let x = number(x.rsplit(' ').next()?)?;
        let (y, why) = rest.split_once(' ')?;
        Some(((x, number(y)?), why.starts_with("(pass")))
    };
    let needed = rest.split("), ").filter_map(below).collect();
    Some(((number(v)?, number(w)?), needed))
}

#[test]
fn why_is_the_order_and_each_reason_is_told() {
    let mut lcg = Lcg::new(7);
    for most in [3, 6, 9].repeat(6) {
        let game = any_game(&mut lcg, most).words();
        let n = game[0] as usize;
        let [marks, spare] = [vec![0; mark_bytes(n)], vec![0; mark_bytes(n)]];
        let mut memory = Memory { marks, spare, ..Memory::default() };
        assert_eq!(Oracle::exact().order(&game, &mut memory).number, 0);
        let path = file("why.bin", &bytes(&game));
        for (v, w) in [(0, n - 1), (n - 1, 0), (n / 2, 0), (0, n / 2)] {
            let text = run(&["why", &path, &v.to_string(), &w.to_string()]).text();
            let is = if is_marked(&memory.marks, n, v, w) { "is" } else { "isn't" };
            assert!(
                text.starts_with(&format!("Vertex {v} {is} below vertex {w}.")),
                "{game:?} {text}"
            );
            let reasons: Vec<Reason> = text.lines().filter_map(reason).collect();
            for (pair, needed) in &reasons {
                assert!(!needed.is_empty(), "{pair:?} in {text}");
                for ((x, y), later) in needed {
                    assert!(!is_marked(&memory.marks, n, *x, *y), "{text}");
                    let equal = game[2 + x] == game[2 + y];
                    assert_eq!(*later, equal, "by a pass where the priorities are equal: {text}");
                    let told = reasons.iter().any(|(pair, _)| pair == &(*x, *y));
                    assert_eq!(told, *later, "each pair is explained: {text}");
                }
            }
        }
    }
}

#[test]
fn refusals_name_what_fails() {
    let relation = |game: &str, marks: &str, part: &str| {
        let marks = file("cause.txt", marks.as_bytes());
        run(&["check-relation", game, &marks])
            .fails(1, &[": refused 10 at ", &format!("; here {part}; the relation is no")]);
    };
    relation(
        "games/b.txt",
        "1 0 0 0 1 0 0 1 1",
        "vertex 2 has priority 0 and vertex 1 has priority 1",
    );
    let zero = "0 ".repeat(25);
    let with = |v: usize, w: usize| {
        let mut marks: Vec<&str> = zero.split(' ').collect();
        marks[v * 5 + w] = "1";
        marks.join(" ")
    };
    relation(
        "games/c.txt",
        &with(2, 1),
        "3, a successor of 2, has no mark with a successor of 1: 3",
    );
    // Vertices 0 and 1 have priority 0 and the successors 2 and 3; owners in each way.
    let owners = |one: u8, other: u8| {
        let game = format!("4 6 / 0 0 1 2 / {one} {other} 0 0 / 0 0 1 1 2 3 / 2 3 2 3 2 3");
        file(&format!("owners-{one}-{other}.txt"), game.as_bytes())
    };
    let only = "0 1 0 0 / 0 0 0 0 / 0 0 0 0 / 0 0 0 0";
    relation(
        &owners(0, 0),
        only,
        "2, a successor of 0, has no mark with a successor of 1: 2 and 3",
    );
    relation(
        &owners(1, 1),
        only,
        "no successor of 0 (2 and 3) has a mark with 2, a successor of 1",
    );
    relation(&owners(0, 1), only, "2, a successor of 0, has no mark with 2, a successor of 1");
    relation(&owners(1, 0), only, "no successor of 0 (2 and 3) has a mark with one of 1 (2 and 3)");
    let marks = file("cause-reverse.txt", b"1 0 1 / 0 1 0 / 0 0 1");
    run(&["governed", "check", "games/b.txt", &marks])
        .fails(1, &["; here its reverse, the pair 2, 0, has no mark; "]);
}

#[test]
fn refusals_of_plans_name_the_link_and_the_walk() {
    let plan = |game: &str, words: &str, player: &str, part: &str| {
        let plan = file("cause-plan.txt", words.as_bytes());
        run(&["check-plan", game, &plan, "--player", player])
            .fails(1, &[&format!("; here {part}; ")]);
    };
    plan("games/c.txt", "1 0 / 2", "even", "it has no link; its vertex leads to 3 and 4");
    plan("games/c.txt", "2 2 / 2 3 / 0 1 / 1 1", "odd", "it has no link to a position at vertex 4");
    plan(
        "games/c.txt",
        "2 2 / 1 3 / 0 1 / 1 1",
        "even",
        "a walk of 1 link by vertices 3 -> 3, with lowest priority 1",
    );
    let ring: Vec<usize> = (0..20).collect();
    let next = ring.iter().map(|v| ((v + 1) % 20).to_string()).collect::<Vec<String>>().join(" ");
    let all = ring.iter().map(usize::to_string).collect::<Vec<String>>().join(" ");
    let game = format!("20 20 {} {} {all} {next}", "3 ".repeat(20), "0 ".repeat(20));
    let game = file("ring.txt", game.as_bytes());
    let walk = "a walk of 20 links by vertices 0 -> 1 -> 2 -> 3 -> 4 -> 5 -> .. -> 15 -> 16 -> 17 -> 18 -> 19 -> 0, with lowest priority 3";
    plan(&game, &format!("20 20 {all} {all} {next}"), "even", walk);
    // On the reduced game, whose vertex 0 leads to 2 alone.
    let plan = file("cause-class.txt", b"2 2 / 0 2 / 0 1 / 1 0");
    let line = ["carry", "games/d.txt", &plan, "--player=even", "--vertex=5", "--class"];
    run(&line).fails(1, &["refused 14 at 1"]);
    let plan = file("cause-class.txt", b"3 2 / 0 2 3 / 0 1 / 1 2");
    let line = ["carry", "games/d.txt", &plan, "--player=even", "--vertex=5", "--class"];
    run(&line).fails(
        1,
        &[
            ", on the reduced game: refused 15 at 2: ",
            "; here it has no link; its vertex leads to 3; ",
        ],
    );
}
