//! The least stack of a thread that makes each call at the largest sizes. A call that has too little ends
//! its process, so the program runs itself once for each size that it tries.
#![forbid(unsafe_code)]

use generator::{forced_ring, largest_plan, random, round_of_loops, round_ring, Lcg, Table};
use raskjomi::exports;
use std::os::unix::process::ExitStatusExt;
use std::process::{Command, ExitStatus, Stdio};
use std::thread;

const CALLS: [&str; 28] = [
    "no call",
    "kind",
    "read",
    "order",
    "accept_relation",
    "accept_plan",
    "classes",
    "quotient",
    "reduce",
    "carry",
    "carry_class",
    "verdict",
    "seed",
    "convert",
    "add_edge",
    "remove_edge",
    "preview_add",
    "preview_remove",
    "replay",
    "governed_order",
    "accept_governed",
    "governed_classes",
    "large_read",
    "large_solution",
    "large_reduction",
    "order of 64",
    "classes of 64",
    "reduce of 64",
];

/// One vertex with a loop. The calls on large games have no arrays, so their stack doesn't go by the sizes.
const LOOP: [u32; 6] = [1, 1, 0, 0, 0, 0];

/// The sizes tried, in KiB: a page, the least that Rust gives a thread, and what it gives by default.
const PAGE: usize = 4;
const LEAST: usize = 16;
const DEFAULT: usize = 2048;

/// A call on a game of 512 vertices and 4,096 edges, or of 64 and 512; its answer's number.
fn call(name: &str) -> impl FnOnce() -> u32 + Send + 'static {
    let name = name.to_string();
    let game = random(&mut Lcg::new(1), 512, 4096, 2).words();
    let small = random(&mut Lcg::new(1), 64, 512, 2).words();
    let bytes = raskjomi::mark_bytes(512);
    let (mut marks, mut spare) = (vec![0; bytes], vec![0; bytes]);
    let (mut classes, mut output) = (vec![0; 512], vec![0; game.len()]);
    let (plan_game, plan) = plan();
    let (carry_game, carried, of_classes) = plans_to_carry();
    let mut written = vec![0; raskjomi::MOST_PLAN_WORDS];
    let (edited, absent) = game_to_edit();
    let (source, target) = (edited.edges[0].0 as u32, edited.edges[0].1 as u32);
    let mut table = [edited.words(), vec![0; 2]].concat();
    let edited = edited.words();
    move || {
        let (m, s, c, o) = (&mut marks, &mut spare, &mut classes, &mut output);
        let answer = match name.as_str() {
            "no call" => return 0,
            "kind" => return exports::kind(0),
            "read" => exports::read(&game),
            "order" => exports::order(&game, m, s),
            "accept_relation" => exports::accept_relation(&game, m),
            "accept_plan" => exports::accept_plan(&plan_game, raskjomi::EVEN, &plan),
            "classes" => exports::classes(&game, m, s, c),
            "quotient" => exports::quotient(&game, m, s, c, o),
            "carry" => exports::carry(&carry_game, raskjomi::EVEN, &carried, 0, m, s, &mut written),
            "carry_class" => exports::carry_class(
                &carry_game,
                raskjomi::EVEN,
                &of_classes,
                0,
                m,
                s,
                c,
                o,
                &mut written,
            ),
            "verdict" => exports::verdict(&carry_game, 0, raskjomi::EVEN, &of_classes, m, s, c, o),
            "seed" => exports::seed(1, 512, 8, 8, o),
            "convert" => exports::convert(&game, o),
            "add_edge" => exports::add_edge(&mut table, 0, absent, m, s, c),
            "remove_edge" => exports::remove_edge(&mut table, source, target, m, s, c),
            "preview_add" => exports::preview_add(&edited, 0, absent, &mut table, m, s, c),
            "preview_remove" => {
                exports::preview_remove(&edited, source, target, &mut table, m, s, c)
            }
            "replay" => {
                let trace = [2, source as u16, 0, target as u16, absent as u16];
                exports::replay(&mut table, &trace, m, s, c)
            }
            "governed_order" => exports::governed_order(&game, m, s),
            "accept_governed" => exports::accept_governed(&game, m),
            "governed_classes" => exports::governed_classes(&game, m, s, c),
            "large_read" => exports::large_read(&LOOP),
            "large_solution" => exports::large_solution(&LOOP, &[0; 2], &[0; 3]),
            "large_reduction" => exports::large_reduction(&LOOP, &LOOP, &[0], &[0; 4]),
            "order of 64" => exports::order(&small, m, s),
            "classes of 64" => exports::classes(&small, m, s, c),
            "reduce of 64" => exports::reduce(&small, m, s, c, o),
            _ => exports::reduce(&game, m, s, c, o),
        };
        answer.number
    }
}

/// A game one edge below the limit, and a vertex to which there is no edge from 0.
fn game_to_edit() -> (Table, u32) {
    let game = random(&mut Lcg::new(1), 512, 4095, 2);
    let absent = (0..512).find(|&target| !game.edges.contains(&(0, target)));
    (game, absent.expect("a vertex without an edge from 0") as u32)
}

/// Even's plan of 4,096 positions and 16,384 links, and a game of 4,096 edges in which it wins: where
/// all vertices are Even's, edges that no link follows are harmless.
fn plan() -> (Vec<u16>, Vec<u16>) {
    let (ring, plan) = largest_plan(&mut Lcg::new(1), 512);
    let mut game = forced_ring(512, 8);
    game.priorities = ring.priorities;
    (game.words(), plan.words())
}

/// A game of 4,096 edges, each of its vertices below each, and Even's plans on it and on its classes, which
/// are one. Both go round through four positions by loops; carried, they have 16,384 links.
fn plans_to_carry() -> (Vec<u16>, Vec<u16>, Vec<u16>) {
    let (game, plan) = round_ring(512, 8, 4, 0);
    (game.words(), plan.words(), round_of_loops(4, 0..4).words())
}

/// Makes the call on a thread with this stack, in KiB, and panics where it refuses.
fn make(name: &str, size: usize) {
    let thread = thread::Builder::new().stack_size(size * 1024).spawn(call(name));
    let number = thread.expect("a thread starts").join().expect("the call returns");
    assert_eq!(number, 0, "{name} refuses");
}

/// How a process of this program ends that makes the call with this stack.
fn tried(name: &str, size: usize) -> ExitStatus {
    let program = std::env::current_exe().expect("the program has a path");
    let mut run = Command::new(program);
    run.args([name, &size.to_string()]).stderr(Stdio::null());
    run.status().expect("the program starts")
}

/// The least size that suffices, and the signal that ends a process with a page less.
fn least(name: &str) -> (usize, Option<i32>) {
    assert!(tried(name, DEFAULT).success(), "{name} fails with {DEFAULT} KiB");
    let (mut short, mut enough) = (LEAST - PAGE, DEFAULT);
    while enough - short > PAGE {
        let middle = (short + enough) / 2 / PAGE * PAGE;
        if tried(name, middle).success() {
            enough = middle;
        } else {
            short = middle;
        }
    }
    (enough, tried(name, short).signal())
}

fn main() {
    let arguments: Vec<String> = std::env::args().skip(1).collect();
    if let [name, size] = &arguments[..] {
        return make(name, size.parse().expect("a size in KiB"));
    }
    println!("{:16} {:>6}  a page less", "call", "KiB");
    for name in CALLS {
        let (size, signal) = least(name);
        let end = signal.map_or("returns too".into(), |signal| format!("signal {signal}"));
        println!("{name:16} {size:>6}  {end}");
    }
}
