//! The part of a game that a vertex reaches, in place of the game.

use crate::large_reductions::{bytes, path};
use crate::run::{file, numbers, run, run_on};
use generator::{large_random, solve_large, LargeTable, Lcg};
use std::collections::BTreeSet;
use std::fs;

/// A game of 600 vertices, above the limits, whose vertices from 560 on lead to each other alone, with each edge once.
fn game(lcg: &mut Lcg) -> LargeTable {
    let mut game = large_random(lcg, 600, 1500, 9);
    for (source, target) in &mut game.edges {
        if *source >= 560 && *target < 560 {
            *target = 560 + *target % 40;
        }
    }
    game.edges.sort();
    game.edges.dedup();
    game
}

/// The vertices that one reaches: edges add their targets until nothing is added.
fn reached(game: &LargeTable, vertex: u32) -> Vec<u32> {
    let mut reached = BTreeSet::from([vertex]);
    loop {
        let more = game.edges.iter().filter(|edge| reached.contains(&edge.0)).map(|edge| edge.1);
        let more: Vec<u32> = more.filter(|target| !reached.contains(target)).collect();
        if more.is_empty() {
            return reached.into_iter().collect();
        }
        reached.extend(more);
    }
}

/// The part on these vertices, with numbers from 0.
fn part(game: &LargeTable, vertices: &[u32]) -> LargeTable {
    let number = |vertex: &u32| vertices.binary_search(vertex).map(|number| number as u32);
    let column = |all: &[u32]| vertices.iter().map(|&vertex| all[vertex as usize]).collect();
    let edges = game.edges.iter().filter_map(|(v, w)| number(v).ok().zip(number(w).ok()));
    LargeTable {
        priorities: column(&game.priorities),
        owners: column(&game.owners),
        edges: edges.collect(),
    }
}

/// The same game where the highest priority decides.
fn highest(game: &LargeTable) -> LargeTable {
    let priorities = game.priorities.iter().map(|priority| 8 - priority).collect();
    LargeTable { priorities, ..game.clone() }
}

/// The lines of some vertices in PGSolver's format.
fn lines(game: &LargeTable, vertices: &[u32], id: fn(u32) -> u32, named: bool) -> Vec<String> {
    let line = |&v: &u32| {
        let successors = game.edges.iter().filter(|edge| edge.0 == v);
        let successors: Vec<String> = successors.map(|edge| id(edge.1).to_string()).collect();
        let (priority, owner) = (game.priorities[v as usize], game.owners[v as usize]);
        let name = if named { format!(" \"state {v}\"") } else { String::new() };
        format!("{} {priority} {owner} {}{name};", id(v), successors.join(","))
    };
    vertices.iter().map(line).collect()
}

/// The whole game in PGSolver's format, with ids that have gaps.
fn pgsolver(game: &LargeTable, named: bool, first: &str) -> String {
    let all: Vec<u32> = (0..game.n() as u32).collect();
    let lines = lines(&highest(game), &all, wide, named);
    format!("parity {};\n{first}{}\n", wide(599), lines.join("\n"))
}

fn wide(vertex: u32) -> u32 {
    10 + 3 * vertex
}

fn same(vertex: u32) -> u32 {
    vertex
}

fn decimal(words: &[u32]) -> String {
    words.iter().map(|word| format!("{word} ")).collect()
}

/// A file, and the id that a vertex has in it.
type Named = (String, fn(u32) -> u32);

/// The files of a game as text, as binary of 32 and 16 bits, and in PGSolver's format.
fn files(game: &LargeTable, test: &str) -> [Named; 4] {
    let words = game.words();
    let narrow: Vec<u8> = words.iter().flat_map(|&word| (word as u16).to_le_bytes()).collect();
    let file = |form: &str, content: &[u8]| file(&format!("{test}.{form}"), content);
    [
        (file("txt", decimal(&words).as_bytes()), same),
        (file("bin", &bytes(&words)), same),
        (file("narrow.bin", &narrow), same),
        (file("pg", pgsolver(game, false, "").as_bytes()), wide),
    ]
}

#[test]
fn the_part_is_what_a_vertex_reaches_with_its_numbers() {
    let mut lcg = Lcg::new(70);
    for _ in 0..2 {
        let game = game(&mut lcg);
        let vertex = 560 + lcg.below(40) as u32;
        let vertices = reached(&game, vertex);
        let part = part(&game, &vertices);
        assert!(vertices.len() < 41 && reached(&game, 0).len() > 512);
        for (name, id) in files(&game, "part") {
            let reach = id(vertex).to_string();
            let line = run(&["check", &name, "--reachable", &reach]).text();
            let sizes = format!("accepted, {} vertices and {} different", part.n(), part.m());
            assert!(line.starts_with(&format!("{name}: {sizes}")), "{line}");
            let (options, lines): (&[&str], _) = match id(0) {
                0 => (&["--lowest"], lines(&game, &vertices, id, false)),
                _ => (&[], lines(&highest(&game), &vertices, id, false)),
            };
            let words = ["pgsolver", &name, "--reachable", &reach];
            let text = run(&[&words[..], options].concat()).text();
            let (header, rest) = text.split_once('\n').expect("lines");
            assert_eq!(header, format!("parity {};", id(*vertices.last().expect("one"))));
            assert_eq!(rest.lines().collect::<Vec<&str>>(), lines);
        }
    }
}

/// The words of a text table number the part from 0, with a comment for each vertex; so does the part of a game on standard input.
#[test]
fn as_text_comments_tell_the_numbers() {
    let game = game(&mut Lcg::new(71));
    let vertices = reached(&game, 577);
    let part = part(&game, &vertices);
    for (name, id) in files(&game, "comments") {
        let content = fs::read(&name).expect("a file");
        let text = run_on(&["convert", "--reachable", &id(577).to_string()], &content).text();
        for (number, &vertex) in vertices.iter().enumerate() {
            let comment = format!("\n# vertex {number}: id {}\n", id(vertex));
            assert!(text.contains(&comment), "{comment} {text}");
        }
        let words: Vec<u32> = numbers(&text).into_iter().map(u32::from).collect();
        let table = LargeTable::of_words(&words);
        assert_eq!((&table.owners, &table.edges), (&part.owners, &part.edges));
    }
}

/// A game with named vertices, in a file with a start, and in a file of the part that the start reaches; the vertices of this part.
fn whole_and_part(game: &LargeTable, test: &str) -> ([String; 2], Vec<u32>) {
    let start = format!("start {};\n", wide(580));
    let whole = file(&format!("{test}.pg"), pgsolver(game, true, &start).as_bytes());
    let part = path(&format!("{test}.part.pg"));
    run(&["pgsolver", &whole, "--reachable=start", "-o", &part]).text();
    ([whole, part], reached(game, 580))
}

/// A command does on the part what it does on a file of the part alone; its output.
fn same_on_both([whole, part]: &[String; 2], words: &[&str]) -> Vec<u8> {
    let on = |game: &str, more: &[&str]| {
        let words: Vec<&str> =
            words.iter().map(|&word| if word == "GAME" { game } else { word }).collect();
        run(&[&words[..], more].concat())
    };
    let (of_part, of_whole) = (on(part, &[]), on(whole, &["--reachable", "state 580"]));
    assert_eq!(of_part.status, 0, "{words:?} {of_part:?}");
    assert_eq!((of_whole.status, &of_whole.out), (0, &of_part.out), "{words:?} {of_whole:?}");
    of_part.out
}

#[test]
fn every_command_on_one_game_takes_the_part() {
    let (files, vertices) = whole_and_part(&game(&mut Lcg::new(72)), "one-game");
    let [v, w] = [vertices[0], vertices[1]].map(|vertex| wide(vertex).to_string());
    let edge = format!("{w}:{v}");
    let lines: [&[&str]; 22] = [
        &["report", "GAME"],
        &["report", "GAME", "--json"],
        &["report", "GAME", "--vertex", "state 580"],
        &["order", "GAME"],
        &["order", "GAME", "--as=dot"],
        &["classes", "GAME"],
        &["classes", "GAME", "--json"],
        &["quotient", "GAME"],
        &["reduce", "GAME"],
        &["reduce", "GAME", "--as=text", "--with-classes"],
        &["reduce", "GAME", "--as=dot"],
        &["merged", "GAME"],
        &["merged", "GAME", "--large"],
        &["why", "GAME", &v, &w],
        &["why", "GAME", &v, &w, "--large"],
        &["convert", "GAME"],
        &["convert", "GAME", "--as=words"],
        &["pgsolver", "GAME"],
        &["dot", "GAME"],
        &["edit", "GAME", "--preview", "--add", &edge],
        &["governed", "order", "GAME"],
        &["governed", "classes", "GAME"],
    ];
    for words in lines {
        same_on_both(&files, words);
    }
}

#[test]
fn every_command_on_more_files_takes_the_part() {
    let game = game(&mut Lcg::new(76));
    let (files, vertices) = whole_and_part(&game, "more-files");
    let made = |words: &[&str], name: &str| file(name, &same_on_both(&files, words));
    let order = made(&["order", "GAME", "--as=words"], "more-files.order");
    same_on_both(&files, &["check-relation", "GAME", &order]);
    let equal = made(&["governed", "order", "GAME"], "more-files.governed");
    same_on_both(&files, &["governed", "check", "GAME", &equal]);
    let solution = file("more-files.sol", solution(&game, &vertices, wide).as_bytes());
    same_on_both(&files, &["check-solution", "GAME", &solution, "--start"]);
    let plan = made(&["plan", "GAME", &solution], "more-files.plan");
    let winner = ["--player=even", "--player=odd"][solve_large(&game).winners[580] as usize];
    same_on_both(&files, &["check-plan", "GAME", &plan, winner]);
    same_on_both(&files, &["carry", "GAME", &plan, winner]);
    let (reduced, classes) = (path("more-files.reduced.pg"), path("more-files.classes"));
    same_on_both(&files, &["reduce", "GAME", "--large", "-o", &reduced, "--classes", &classes]);
    same_on_both(&files, &["check-reduction", "GAME", &reduced, &classes]);
    let trace = file("more-files.trace", b"1 0 0");
    same_on_both(&files, &["replay", "GAME", &trace, "--as=words"]);
}

/// The solution of a game at some vertices, as a solver writes it.
fn solution(game: &LargeTable, vertices: &[u32], id: fn(u32) -> u32) -> String {
    let solved = solve_large(game);
    let line = |&v: &u32| {
        let winner = solved.winners[v as usize];
        let to = game.edges[solved.choices[v as usize] as usize].1;
        match game.owners[v as usize] == winner {
            true => format!("{} {winner} {};\n", id(v), id(to)),
            false => format!("{} {winner};\n", id(v)),
        }
    };
    let lines: String = vertices.iter().map(line).collect();
    format!("paritysol {};\n{lines}", id(599))
}

/// The solution of the whole game, at the part's vertices, is right there; classes have the winners that their members have in the whole.
#[test]
fn winners_are_those_of_the_whole_game() {
    let mut lcg = Lcg::new(73);
    for _ in 0..3 {
        let game = game(&mut lcg);
        let winners = solve_large(&game).winners;
        let vertex = 560 + lcg.below(40) as u32;
        let vertices = reached(&game, vertex);
        let winners: Vec<u32> = vertices.iter().map(|&v| winners[v as usize]).collect();
        assert_eq!(solve_large(&part(&game, &vertices)).winners, winners);
        for (name, id) in files(&game, "winners") {
            let reach = ["--reachable", &id(vertex).to_string()];
            let words = [&["check-solution", &name, "-"][..], &reach].concat();
            let text = run_on(&words, solution(&game, &vertices, id).as_bytes()).text();
            let even = winners.iter().filter(|&&winner| winner == 0).count();
            assert!(text.starts_with(&format!("right: Even wins at {even} ")), "{text}");
            let words = [&["reduce", &name, "--as=text", "--with-classes"][..], &reach].concat();
            let reduced = run(&words).text();
            let words: Vec<u32> = numbers(&reduced).into_iter().map(u32::from).collect();
            let of_classes = solve_large(&LargeTable::of_words(&words)).winners;
            for (&v, winner) in vertices.iter().zip(&winners) {
                let start = format!("# vertex id {}: class ", id(v));
                let class = reduced.lines().find_map(|line| line.strip_prefix(&start));
                let class: usize = class.and_then(|class| class.parse().ok()).expect("a class");
                assert_eq!(of_classes[class], *winner);
            }
        }
    }
}

/// Where vertices have no names, a class is called by the number that its lowest member has in the whole game.
#[test]
fn classes_are_called_by_numbers_of_the_whole_game() {
    // 600 loops of priority 1, but for 598 and 599 with one move to 597.
    let sources: Vec<u32> = (0..600).collect();
    let mut targets = sources.clone();
    targets[598..].fill(597);
    let head = [vec![600, 600], vec![1; 598], vec![2; 2], vec![0; 600]].concat();
    let words = [head, sources, targets].concat();
    let name = file("called.txt", decimal(&words).as_bytes());
    let reduced = run(&["reduce", &name, "--reachable=599", "--as=pgsolver"]).text();
    assert_eq!(reduced, "parity 1;\n0 1 0 0 \"597\";\n1 0 0 0 \"599\";\n");
    let text = run(&["reduce", &name, "--reachable=599"]).text();
    assert!(text.contains("\n# vertex 0: 0 \"597\"\n# vertex 1: 1 \"599\"\n"), "{text}");
    let large = run(&["reduce", &name, "--reachable=599", "--as=pgsolver", "--large"]);
    assert_eq!(large.out, reduced.as_bytes());
    assert!(large.err.contains("called.txt, the part from vertex 599: 2 vertices merged by"));
}

/// A part above the limits is reduced by moves, and refused by the commands for small games; priorities beyond words don't matter outside.
#[test]
fn parts_above_the_limits_and_words() {
    let mut game = game(&mut Lcg::new(74));
    let large = reached(&game, 0);
    game.priorities[3] = 70_000;
    let name = file("above.txt", decimal(&game.words()).as_bytes());
    run(&["check", &name, "--reachable=570"]).text();
    let sizes = format!("{} vertices and ", large.len());
    let parts = ["above.txt, the part from vertex 0: ", &sizes, "; a game has at most 512 vert"];
    run(&["check", &name, "--reachable=0"]).fails(2, &parts);
    let moves = format!("the part from vertex 0: {} vertices merged by their moves", large.len());
    run(&["reduce", &name, "--reachable=0"]).fails(0, &[&moves]);
    let inside = b"parity 9; 0 70001 0 0; 1 70001 0 2; 2 1 1 1;";
    let problem = "standard input, the part from vertex 1: a priority is above 65535; number";
    run_on(&["report", "--reachable=1"], inside).fails(2, &[problem]);
    // The same above what 16 bits hold, but near each other, is a game of small priorities.
    let report = run_on(&["pgsolver", "--reachable=0"], inside).text();
    assert_eq!(report, "parity 0;\n0 70001 0 0;\n");
    // Where the highest decides, words go down from it: from that of the part.
    let outside = b"parity 1; 0 90000 0 0,1; 1 5 0 1;";
    let part = run_on(&["pgsolver", "--reachable=1"], outside).text();
    assert_eq!(part, "parity 1;\n1 5 0 1;\n");
    let stuck = b"parity 2; 0 0 0 1; 1 0 0; 2 0 0 2;";
    run_on(&["report", "--reachable=2"], stuck).text();
    let told = "the part from vertex 0: word 3 from 0 of its table (vertex 1): refused 8 at 1: ";
    run_on(&["report", "--reachable=0"], stuck).fails(1, &[told]);
}

#[test]
fn vertices_that_are_not_there() {
    let pg = "parity 9; start 5;\n3 2 0 5,9 \"door\"; 5 1 1 5; 9 0 0 9 \"end\";\n";
    let name = file("not-there.pg", pg.as_bytes());
    assert_eq!(
        run(&["pgsolver", &name, "--reachable=door"]).text(),
        "parity 9;\nstart 5;\n3 2 0 5,9 \"door\";\n5 1 1 5;\n9 0 0 9 \"end\";\n"
    );
    let start = run(&["pgsolver", &name, "--reachable=start"]).text();
    assert_eq!(start, "parity 5;\nstart 5;\n5 1 1 5;\n");
    // A start that isn't reached is left out.
    let end = run(&["pgsolver", &name, "--reachable=\"end\""]).text();
    assert_eq!(end, "parity 9;\n9 0 0 9 \"end\";\n");
    let wanted = "write --reachable with a name that one vertex alone has, or one of the ids";
    run(&["report", &name, "--reachable=4"])
        .fails(2, &["not-there.pg: no vertex `4`; ", wanted, "from 3 to 9"]);
    run(&["reduce", "games/b.txt", "--reachable=start"])
        .fails(2, &["games/b.txt: the file names no start; no vertex `start`; ", wanted]);
    let vertex = ["report", &name, "--reachable=9", "--vertex=3"];
    run(&vertex).fails(2, &["no vertex `3`; write --vertex with an id or a name"]);
    run(&["report", &name, "--reachable"]).fails(2, &["report: --reachable needs a vertex"]);
    run(&["seed", "1", "4", "2", "4", "--reachable=1"]).fails(2, &["no option --reachable"]);
}

#[test]
fn check_says_what_the_start_of_an_over_large_game_reaches() {
    let game = game(&mut Lcg::new(75));
    for (start, within) in [(590, true), (0, false)] {
        let first = format!("start {};\n", wide(start));
        let name = file("start.pg", pgsolver(&game, false, &first).as_bytes());
        let part = part(&game, &reached(&game, start));
        let id = wide(start);
        let sizes = format!("{} vertices and {} edges", part.n(), part.m());
        let remedy = match within {
            true => format!(": raskjomi check {name} --reachable {id}"),
            false => ", which are above the limits as well".into(),
        };
        let line = run(&["check", &name]).fails(1, &["refused 2 at 0"]);
        assert_eq!(
            line,
            format!("{name}: refused 2 at 0; its start {id} reaches {sizes}{remedy}\n")
        );
        let (n, m) = (part.n(), part.m());
        let field = format!(
            ",\"start\":{{\"id\":{id},\"reaches_vertices\":{n},\"reaches_edges\":{m},\"within_limits\":{within}}}}}]\n"
        );
        let json = run(&["check", &name, "--json"]).fails(1, &["refused 2 at 0"]);
        assert!(json.ends_with(&field), "{json}");
    }
    // Games without a start, or within the limits, or wrong otherwise, have no more than before.
    let name = file("no-start.pg", pgsolver(&game, false, "").as_bytes());
    let line = run(&["check", &name]).fails(1, &["refused 2 at 0"]);
    assert_eq!(line, format!("{name}: refused 2 at 0\n"));
    let name = file("stuck-start.pg", b"parity 1; start 0; 0 0 0 1; 1 0 0;");
    let line = run(&["check", &name]).fails(1, &["refused 8 at 1"]);
    assert_eq!(line, format!("{name}: refused 8 at 1\n"));
}
