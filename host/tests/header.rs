//! A C program that is compiled against the header gives the answers that Rust gets, and leaves the same
//! memory.

mod common;

use common::root;
use generator::{
    any_game, bent_plan, damaged, edge_to_edit, solve, strategy_plan, trace, trace_words, Lcg,
    REFUSALS,
};
use raskjomi::exports::{self, RaskjomiAnswer};
use std::collections::BTreeSet;
use std::fmt::Write as _;
use std::io::Write as _;
use std::path::PathBuf;
use std::process::{Command, Stdio};

/// What the calls get.
struct Case {
    game: Vec<u16>,
    player: u32,
    plan: Vec<u16>,
    vertex: u32,
    edge: (u32, u32),
    trace: Vec<u16>,
    /// A large game, a solution and a certificate.
    large: [Vec<u32>; 3],
    /// A large game, a reduced game, classes and a certificate.
    merged: [Vec<u32>; 4],
}

fn cases() -> Vec<Case> {
    let mut lcg = Lcg::new(8);
    let mut cases = Vec::new();
    for most in [1, 4, 9, 30].repeat(12) {
        let table = any_game(&mut lcg, most);
        let (start, solution) = (lcg.below(table.n()), solve(&table));
        let player = solution.winner[start];
        let plan = strategy_plan(&table, player, start, &solution.choice);
        let bent = bent_plan(&mut lcg, &plan, table.n());
        let words = if lcg.once_in(6) {
            let number = REFUSALS[lcg.below(REFUSALS.len())];
            damaged(&mut lcg, &table, number)
        } else {
            table.words()
        };
        let there = lcg.once_in(2);
        let edge = edge_to_edit(&mut lcg, &table, there);
        let entries = trace(&mut lcg, &table);
        cases.push(Case {
            game: words,
            player: player.into(),
            plan: if lcg.once_in(3) { bent } else { plan.words() },
            vertex: if lcg.once_in(3) { lcg.below(table.n() + 1) } else { start } as u32,
            edge,
            trace: trace_words(&entries[..entries.len().min(20)]),
            large: large(&mut lcg),
            merged: merged(&mut lcg),
        });
    }
    cases
}

/// A large game with a right solution and its certificate, or with one word changed or left out.
fn large(lcg: &mut Lcg) -> [Vec<u32>; 3] {
    let game = vec![3, 4, 1, 0, 70_000, 0, 1, 1, 0, 0, 1, 2, 0, 1, 0, 2];
    spoilt(lcg, [game, vec![0, 0, 0, 1, 2, 3], vec![1, 0, 2, 1, 0, 2, 2, 2, 2]])
}

/// A large game with a right reduction and its certificate, or with one word changed or left out.
fn merged(lcg: &mut Lcg) -> [Vec<u32>; 4] {
    let game = vec![4, 6, 2, 2, 0, 70_000, 0, 0, 0, 1, 0, 0, 1, 1, 2, 3, 2, 3, 3, 2, 2, 3];
    let reduced = vec![3, 4, 2, 0, 70_000, 0, 0, 1, 0, 0, 1, 2, 1, 2, 1, 2];
    let certificate = vec![0, 3, 4, 5, 0, 2, 3, 0, 1, 1, 0, 2, 3, 1, 0, 0, 2, 0, 0];
    spoilt(lcg, [game, reduced, vec![0, 0, 1, 2], certificate])
}

/// The lists, mostly with one word changed or left out.
fn spoilt<const N: usize>(lcg: &mut Lcg, mut lists: [Vec<u32>; N]) -> [Vec<u32>; N] {
    let list = &mut lists[lcg.below(N)];
    let place = lcg.below(list.len());
    match lcg.below(8) {
        0 | 1 => {}
        2 => drop(list.remove(place)),
        value => list[place] = value as u32 - 3,
    }
    lists
}

/// The memory that the C program lends, filled anew for each call.
struct Lent {
    marks: Vec<u8>,
    spare: Vec<u8>,
    classes: Vec<u16>,
    reduction: Vec<u16>,
    output: Vec<u16>,
    table: Vec<u16>,
}

impl Lent {
    fn refill(&mut self, game: &[u16]) {
        self.marks.fill(7);
        self.spare.fill(7);
        for words in [&mut self.classes, &mut self.reduction, &mut self.output, &mut self.table] {
            words.fill(0x707);
        }
        self.table[..game.len()].copy_from_slice(game);
    }

    fn told(&self, call: &str, a: RaskjomiAnswer) -> String {
        let bytes =
            |words: &[u16]| words.iter().flat_map(|word| word.to_le_bytes()).collect::<Vec<u8>>();
        let words = [&self.classes, &self.reduction, &self.output, &self.table].map(|w| bytes(w));
        let all = [self.marks.clone(), self.spare.clone(), words.concat()].concat();
        let hash = all.iter().fold(14_695_981_039_346_656_037_u64, |hash, byte| {
            (hash ^ u64::from(*byte)).wrapping_mul(1_099_511_628_211)
        });
        format!(
            "{call} {} {} {} {} {} {} {} {} {} {} {} {hash}\n",
            a.number,
            a.passes,
            a.classes,
            a.vertices,
            a.edges,
            a.different,
            a.positions,
            a.links,
            a.entries,
            a.place,
            a.shown
        )
    }
}

/// What Rust gets for a case, in the program's lines.
fn expected(case: &Case) -> String {
    let Case { game, player, plan, vertex, edge: (source, target), trace, large, merged } = case;
    let (player, vertex, source, target) = (*player, *vertex, *source, *target);
    let size = raskjomi::read(game);
    let (marks, n) = size.map_or((1, 1), |size| (size.marks(), size.vertices));
    let table = vec![0; game.len() + 2];
    let mut lent = Lent {
        marks: vec![0; marks],
        spare: vec![0; marks],
        classes: vec![0; n],
        reduction: table.clone(),
        output: vec![0; raskjomi::MOST_PLAN_WORDS],
        table,
    };
    let mut text = format!("marks {marks}\n");
    let mut call = |name: &str, fresh: bool, make: &dyn Fn(&mut Lent) -> RaskjomiAnswer| {
        if fresh {
            lent.refill(game);
        }
        let answer = make(&mut lent);
        text += &lent.told(name, answer);
        if name == "order" {
            let mark =
                |i| if raskjomi::is_marked(&lent.marks, n, i / n, i % n) { '1' } else { '0' };
            text.extend((0..n * n).map(mark));
            text += "\n";
        }
    };
    use exports as e;
    call("read", true, &|_| e::read(game));
    call("order", true, &|l| e::order(game, &mut l.marks, &mut l.spare));
    call("accept_relation", false, &|l| e::accept_relation(game, &l.marks));
    call("classes", true, &|l| e::classes(game, &mut l.marks, &mut l.spare, &mut l.classes));
    call("quotient", true, &|l| {
        e::quotient(game, &mut l.marks, &mut l.spare, &mut l.classes, &mut l.output)
    });
    call("reduce", true, &|l| {
        e::reduce(game, &mut l.marks, &mut l.spare, &mut l.classes, &mut l.output)
    });
    call("accept_plan", true, &|_| e::accept_plan(game, player, plan));
    call("carry", true, &|l| {
        e::carry(game, player, plan, vertex, &mut l.marks, &mut l.spare, &mut l.output)
    });
    call("carry_class", true, &|l| {
        let (classes, reduction) = (&mut l.classes, &mut l.reduction);
        e::carry_class(
            game,
            player,
            plan,
            vertex,
            &mut l.marks,
            &mut l.spare,
            classes,
            reduction,
            &mut l.output,
        )
    });
    call("verdict", true, &|l| {
        let (marks, spare) = (&mut l.marks, &mut l.spare);
        e::verdict(game, vertex, player, plan, marks, spare, &mut l.classes, &mut l.reduction)
    });
    call("seed", true, &|l| e::seed(vertex, source, target, player + 1, &mut l.output));
    call("convert", true, &|l| e::convert(game, &mut l.output));
    call("add_edge", true, &|l| {
        e::add_edge(&mut l.table, source, target, &mut l.marks, &mut l.spare, &mut l.classes)
    });
    call("remove_edge", true, &|l| {
        e::remove_edge(&mut l.table, source, target, &mut l.marks, &mut l.spare, &mut l.classes)
    });
    call("preview_add", true, &|l| {
        let (table, marks, spare) = (&mut l.table, &mut l.marks, &mut l.spare);
        e::preview_add(game, source, target, table, marks, spare, &mut l.classes)
    });
    call("preview_remove", true, &|l| {
        let (table, marks, spare) = (&mut l.table, &mut l.marks, &mut l.spare);
        e::preview_remove(game, source, target, table, marks, spare, &mut l.classes)
    });
    call("replay", true, &|l| {
        e::replay(&mut l.table, trace, &mut l.marks, &mut l.spare, &mut l.classes)
    });
    call("governed_order", true, &|l| e::governed_order(game, &mut l.marks, &mut l.spare));
    call("accept_governed", false, &|l| e::accept_governed(game, &l.marks));
    call("governed_classes", true, &|l| {
        e::governed_classes(game, &mut l.marks, &mut l.spare, &mut l.classes)
    });
    let [large, solution, certificate] = large;
    call("large_read", true, &|_| e::large_read(large));
    call("large_solution", true, &|_| e::large_solution(large, solution, certificate));
    let [game, reduced, classes, images] = merged;
    call("large_reduction", true, &|_| e::large_reduction(game, reduced, classes, images));
    text
}

/// The limits and the kinds as Rust has them, in the program's lines.
fn constants() -> String {
    use raskjomi as r;
    let size = r::large_read(&[1, 0, 0, 0]).expect("a large game");
    let four = r::large_read(&[4, 6].into_iter().chain([0; 20]).collect::<Vec<u32>>());
    let three = r::large_read(&[3, 0, 0, 0, 0, 0, 0, 0]).expect("a large game");
    let mut text = format!(
        "limits {} {} {} {} {} {} {} {} {} {} {} {} {} {}\n",
        r::MOST_VERTICES,
        r::MOST_EDGES,
        r::MOST_POSITIONS,
        r::MOST_LINKS,
        r::MOST_ENTRIES,
        r::LEAST_STACK,
        r::EVEN,
        r::ODD,
        r::MOST_TABLE_WORDS,
        r::MOST_PLAN_WORDS,
        size.solution_words(),
        size.certificate_words(),
        four.expect("a large game").reduction_words(three),
        size_of::<RaskjomiAnswer>()
    );
    (0..108).for_each(|i| writeln!(text, "kind {}", exports::kind(i)).expect("a string takes all"));
    text
}

/// The C program, compiled as strictly as the compiler can.
fn program() -> PathBuf {
    let path = PathBuf::from(env!("CARGO_TARGET_TMPDIR")).join("answers");
    let (host, archives) = (root().join("host"), root().join("target/staticlib"));
    let mut cc = Command::new("cc");
    cc.args(["-std=c99", "-Wall", "-Wextra", "-Werror", "-pedantic", "-O1", "-o"]).arg(&path);
    cc.arg("-I").arg(host.join("include")).arg(host.join("tests/c/answers.c"));
    let names = ["abi", "abi_carry", "abi_governed", "abi_edit", "abi_verdict", "abi_large"];
    cc.args(names.map(|name| archives.join(format!("lib{name}.a"))));
    let ran = cc.output().expect("a C compiler");
    assert!(ran.status.success(), "{}", String::from_utf8_lossy(&ran.stderr));
    path
}

/// A list as the program reads it: its length and its words.
fn listed<T: ToString>(words: &[T]) -> String {
    let words: Vec<String> = words.iter().map(T::to_string).collect();
    format!("{} {}", words.len(), words.join(" "))
}

#[test]
fn a_c_program_gets_the_answers_that_rust_gets() {
    let cases = cases();
    let input: String = cases
        .iter()
        .map(|case| {
            let (game, plan, trace) = (listed(&case.game), listed(&case.plan), listed(&case.trace));
            let (player, vertex, (source, target)) = (case.player, case.vertex, case.edge);
            let large = case.large.iter().chain(&case.merged);
            let large: String = large.map(|words| listed(words) + " ").collect();
            format!("{game} {player} {plan} {vertex} {source} {target} {trace} {large}\n")
        })
        .collect();
    let mut child = Command::new(program())
        .stdin(Stdio::piped())
        .stdout(Stdio::piped())
        .spawn()
        .expect("the program starts");
    let mut stdin = child.stdin.take().expect("piped");
    let writer = std::thread::spawn(move || stdin.write_all(input.as_bytes()));
    let output = child.wait_with_output().expect("the program ends");
    writer.join().expect("a thread").expect("the input is read");
    assert!(output.status.success(), "{:?}", output.status);
    let told = String::from_utf8(output.stdout).expect("text");
    let expected = constants() + &cases.iter().map(expected).collect::<String>();
    for (line, (told, expected)) in told.lines().zip(expected.lines()).enumerate() {
        assert_eq!(told, expected, "line {line}");
    }
    assert_eq!(told.lines().count(), expected.lines().count());
    let accepted =
        |call: &str| expected.lines().any(|line| line.starts_with(&format!("{call} 0 ")));
    let calls = [
        "carry",
        "carry_class",
        "verdict",
        "add_edge",
        "remove_edge",
        "preview_add",
        "replay",
        "seed",
        "large_read",
        "large_solution",
        "large_reduction",
    ];
    for call in calls {
        assert!(accepted(call), "no case accepts {call}");
    }
    for call in ["large_solution ", "large_reduction "] {
        let answers = expected.lines().filter_map(|line| line.strip_prefix(call));
        let numbers: BTreeSet<&str> = answers.filter_map(|line| line.split(' ').next()).collect();
        assert!(numbers.len() > 6, "{call}{numbers:?}");
    }
    // The answer's last number but the hash.
    let verdicts = expected.lines().filter(|line| line.starts_with("verdict 0 "));
    let shown: Vec<&str> = verdicts.filter_map(|line| line.rsplit(' ').nth(1)).collect();
    assert!(shown.contains(&"0") && shown.contains(&"1"), "{shown:?}");
}

#[test]
fn the_header_serves_cpp() {
    let header = root().join("host/include/raskjomi.h");
    let mut cc = Command::new("cc");
    cc.args(["-x", "c++", "-Wall", "-Wextra", "-Werror", "-pedantic", "-fsyntax-only"]).arg(header);
    let ran = cc.output().expect("a compiler of C++");
    let told = String::from_utf8_lossy(&ran.stderr);
    assert!(ran.status.success(), "{told}");
}
