//! `dropped`: the edges to little brothers, each with the edge that serves better.

use crate::games::{C, ODD_C};
use crate::large_reductions::path;
use crate::parsed::Json;
use crate::run::{bytes, file, run, run_on};
use generator::{any_game, large_random, small_games, Lcg};
use oracle::{Classes, Game, Oracle, Relation};

/// A game with what the definitions make of it.
struct Defined {
    order: Relation,
    classes: Classes,
    quotient: Game,
    reduced: Game,
}

impl Defined {
    fn new(words: &[u16]) -> Defined {
        let oracle = Oracle::exact();
        let game = oracle.game(words).expect("a game");
        let (order, _) = oracle.order_of(&game);
        let classes = oracle.classes_of(&game, &order);
        let quotient = oracle.quotient_of(&game, &classes);
        let reduced = oracle.reduced_of(&quotient, &classes, &order);
        Defined { order, classes, quotient, reduced }
    }

    fn dropped(&self) -> Vec<(usize, usize)> {
        let all = self.quotient.listed.iter().copied();
        all.filter(|edge| !self.reduced.listed.contains(edge)).collect()
    }

    /// Whether one class is below another.
    fn below(&self, (c, d): (usize, usize)) -> bool {
        self.order.has(self.classes.members[c][0], self.classes.members[d][0])
    }
}

/// Holds the answers to the definitions; gives the number of dropped edges.
fn hold(words: &[u16]) -> usize {
    let (defined, input) = (Defined::new(words), bytes(words));
    let value = Json::parse(&run_on(&["dropped", "--json"], &input).text());
    let rows = value.get("dropped").list();
    let edges: Vec<(usize, usize)> = rows.iter().map(|row| row.get("edge").pair()).collect();
    assert_eq!(edges, defined.dropped(), "{words:?}");
    let text = run_on(&["dropped"], &input).text();
    if rows.is_empty() {
        assert_eq!(text, "no edge is dropped\n");
        return 0;
    }
    assert_eq!(text.lines().count(), rows.len());
    for (row, line) in rows.iter().zip(text.lines()) {
        let ((c, d), better) = (row.get("edge").pair(), row.get("better").pair());
        assert!(better.0 == c && defined.reduced.listed.contains(&better), "kept: {line}");
        let below = (row.get("lower").number(), row.get("higher").number());
        let evens = row.get("player").text() == "Even";
        assert_eq!(evens, defined.quotient.owner[c] == 0, "{line}");
        assert_eq!(below, if evens { (d, better.1) } else { (better.1, d) }, "{line}");
        assert!(defined.below(below), "{line}");
        let lowest = |class: usize| defined.classes.members[class][0];
        let (v, w) = row.get("reason").get("pair").pair();
        assert_eq!((v, w), (lowest(below.0), lowest(below.1)), "{line}");
        let why = run_on(&["why", "-", &v.to_string(), &w.to_string()], &input).text();
        assert_eq!(format!("{line}\n"), format!("{} {why}", row.get("sentence").text()));
    }
    rows.len()
}

#[test]
fn the_dropped_edges_of_the_worked_games() {
    let reason = "Vertex 1 is below vertex 2. They have the same priority, and Even has as good a move there for each one here: 3 is below 3.\n";
    let evens = "edge 0 -> 1 dropped: 0 -> 2 serves Even at least as well, since class 1 is below class 2. ";
    assert_eq!(run(&["dropped", "games/c.txt"]).text(), format!("{evens}{reason}"));
    let odds =
        "edge 0 -> 2 dropped: 0 -> 1 serves Odd at least as well, since class 1 is below class 2. ";
    assert_eq!(run_on(&["dropped"], &bytes(&ODD_C)).text(), format!("{odds}{reason}"));
    assert_eq!(run(&["dropped", "games/d.txt"]).text(), "no edge is dropped\n");
    let lift = run(&["dropped", "games/lift-doors.txt"]).text();
    assert!(lift.starts_with("edge 3 -> 5 dropped: 3 -> 6 serves Even at least as well, since class 5 is below class 6. Vertex 5 is below"), "{lift}");
    assert_eq!(hold(&C), 1);
}

/// Classes have the names of their lowest members, and the reason has the names of vertices.
#[test]
fn names_of_dropped_edges() {
    let game = b"parity 9; 1 2 0 3,5 \"here\"; 3 4 0 7 \"one way\"; 5 4 0 7,9 \"both ways\"; 7 3 0 7; 9 0 0 9;";
    let told = "edge 0 \"here\" -> 1 \"one way\" dropped: 0 \"here\" -> 2 \"both ways\" serves Even at least as well, since class 1 \"one way\" is \
                below class 2 \"both ways\". Vertex id 3 \"one way\" is below vertex id 5 \"both ways\". They have the same priority, and Even has \
                as good a move there for each one here: id 7 is below id 7.\n";
    assert_eq!(run_on(&["dropped"], game).text(), told);
    let value = Json::parse(&run_on(&["dropped", "--json"], game).text());
    let named = value.get("vertices").list();
    assert_eq!(named.iter().map(|v| v.get("id").number()).collect::<Vec<usize>>(), [3, 5, 7]);
    assert_eq!(named[0].get("name").text(), "one way");
}

/// Of the small games all that drop an edge, and each tenth of the others.
#[test]
fn dropped_edges_of_small_games_are_those_of_the_definition() {
    let total = |words: &[u16]| Oracle::exact().game(words).is_ok();
    let games = (1..=3).flat_map(small_games).map(|table| table.words());
    let mut some = 0;
    for (i, words) in games.filter(|words| total(words)).enumerate() {
        if i % 10 == 0 || !Defined::new(&words).dropped().is_empty() {
            some += usize::from(hold(&words) > 0);
        }
    }
    assert!(some > 50, "{some}");
}

#[test]
fn dropped_edges_of_random_games_are_those_of_the_definition() {
    let mut lcg = Lcg::new(42);
    let dropped: usize = (0..60).map(|i| hold(&any_game(&mut lcg, 4 + i % 12).words())).sum();
    assert!(dropped > 20, "{dropped}");
}

#[test]
fn above_the_limits_no_edge_is_dropped() {
    let game = large_random(&mut Lcg::new(5), 600, 1200, 3);
    let words: Vec<u8> = game.words().iter().flat_map(|word| word.to_le_bytes()).collect();
    let path = file("dropped-large.bin", &words);
    let told = "no edge is dropped: above the limits vertices are merged by their moves alone, which keeps every edge between classes\n";
    assert_eq!(run(&["dropped", &path]).text(), told);
    let value = "{\"by\":\"moves\",\"dropped\":[],\"vertices\":[]}\n";
    assert_eq!(run(&["dropped", &path, "--json"]).text(), value);
}

/// Of copies of game C its vertices are left by moves; the order then drops what it drops of C.
#[test]
fn edges_that_the_order_drops_after_moves() {
    let (n, m) = (usize::from(C[0]), usize::from(C[1]));
    let part = |from: usize, count: usize, more: usize| {
        let copy =
            |i: usize| C[from..from + count].iter().map(move |&word| usize::from(word) + i * more);
        (0..200).flat_map(copy).map(|word| word.to_string()).collect::<Vec<String>>().join(" ")
    };
    let parts =
        [part(2, n, 0), part(2 + n, n, 0), part(2 + 2 * n, m, n), part(2 + 2 * n + m, m, n)];
    let copies = format!("{} {} {}", 200 * n, 200 * m, parts.join(" "));
    let (path, merged) =
        (file("dropped-copies.txt", copies.as_bytes()), path("dropped-merged.txt"));
    run(&["reduce", &path, "-o", &merged])
        .fails(0, &["1000 vertices merged by their moves into 5, with 7 edges"]);
    assert_eq!(run(&["dropped", &merged]).text(), run(&["dropped", "games/c.txt"]).text());
    let value = Json::parse(&run(&["reduce", &path, "--then-order", "--json"]).text());
    assert_eq!(value.get("table").get("edges").pairs(), Defined::new(&C).reduced.listed);
}
