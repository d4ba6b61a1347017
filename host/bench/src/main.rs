//! The library beside a baseline: safe Rust of the same algorithms, in one run, on buffers of the same
//! lengths, which neither clears first. Up to 256 vertices the order stands beside plain passes, too. The checks of
//! solutions and of reductions have rows of their own, which the argument `large` asks for, and so have all winners of
//! a game, by the argument `winners`. The argument `best` asks for the order's calls beside the best program known, `plans`
//! for the calls on plans and traces beside the best.
#![forbid(unsafe_code)]

mod baseline;
mod best;
mod calls;
mod edits;
mod families;
mod governed;
mod large;
mod large_reduction;
mod measure;
mod order_calls;
mod packing;
mod plan_calls;
mod plan_families;
#[cfg(test)]
mod plan_tests;
mod rows;
mod winners;

use calls::{Given, Memory, ACCEPT_PLAN, CONVERT, LIBRARY, SEED};
use measure::First;
use raskjomi::exports::{self, RaskjomiAnswer};
use rows::{Row, Work, WATCHED};
use std::array::from_fn;
use std::collections::BTreeMap;
use std::process::ExitCode;
use std::time::Duration;

/// What all sides answer, their best times, and the library's stack.
struct Sides<const N: usize> {
    answer: RaskjomiAnswer,
    times: [Duration; N],
    stack: Option<usize>,
}

/// The first calls of the sides, each with its copy of the memory. All answer and leave the same.
fn first_calls<const N: usize, M: Clone + PartialEq + Send>(
    memory: M,
    call: &(impl Fn(usize, &mut M) -> RaskjomiAnswer + Sync),
) -> ([M; N], [First; N]) {
    let mut memory: [M; N] = from_fn(|_| memory.clone());
    let first: [First; N] = from_fn(|side| measure::first(|| call(side, &mut memory[side])));
    for side in 1..N {
        assert_eq!(first[side].answer, first[LIBRARY].answer, "the answer of side {side} differs");
        assert!(memory[side] == memory[LIBRARY], "the buffers of side {side} differ");
    }
    (memory, first)
}

impl<const N: usize> Sides<N> {
    /// Measures a call, after the first ones.
    fn of<M: Clone + PartialEq + Send>(
        memory: M,
        call: impl Fn(usize, &mut M) -> RaskjomiAnswer + Sync,
    ) -> Sides<N> {
        let (mut memory, first) = first_calls(memory, &call);
        let times = first.each_ref().map(|first| first.time);
        let times = measure::best_times(times, |side| call(side, &mut memory[side]));
        Sides { answer: first[LIBRARY].answer, times, stack: first[LIBRARY].stack }
    }
}

/// What a row shows.
struct Figures {
    passes: Option<u32>,
    library: Duration,
    /// By plain passes.
    plain: Option<Duration>,
    baseline: Duration,
    stack: Option<usize>,
}

fn reduce_figures(game: &[u16]) -> Figures {
    let mut memory = Memory::for_game(game);
    let passes = exports::order(game, &mut memory.marks, &mut memory.spare).passes;
    // The library's reduction doesn't tell the passes.
    let call = |side: usize, memory: &mut Memory| match side {
        LIBRARY => RaskjomiAnswer { passes, ..memory.reduce(side, game) },
        _ => memory.reduce(side, game),
    };
    if game[0] as usize > baseline::MOST_BY_PASSES {
        let (figures, _) = figures(Memory::for_game(game), call);
        return Figures { passes: Some(passes), ..figures };
    }
    let Sides { times: [library, baseline, plain], stack, .. } =
        Sides::of(Memory::for_game(game), call);
    Figures { passes: Some(passes), library, plain: Some(plain), baseline, stack }
}

/// The figures of a call that has one baseline, and its answer.
fn figures<M: Clone + PartialEq + Send>(
    memory: M,
    call: impl Fn(usize, &mut M) -> RaskjomiAnswer + Sync,
) -> (Figures, RaskjomiAnswer) {
    let Sides { answer, times: [library, baseline], stack } = Sides::of(memory, call);
    (Figures { passes: None, library, plain: None, baseline, stack }, answer)
}

fn plan_figures(game: &[u16], plan: &[u16]) -> Figures {
    figures((), |side, _| ACCEPT_PLAN[side](game, raskjomi::EVEN, plan)).0
}

/// Even's plan for vertex 0.
fn given(plan: &[u16]) -> Given<'_> {
    Given { player: raskjomi::EVEN, plan, vertex: 0 }
}

fn carry_figures(game: &[u16], plan: &[u16], class: bool) -> Figures {
    let call = |side: usize, memory: &mut Memory| match class {
        true => memory.carry_class(side, game, given(plan)),
        false => memory.carry(side, game, given(plan)),
    };
    let (figures, answer) = figures(Memory::for_game(game), call);
    assert_eq!((answer.number, answer.links), (0, 16_384), "as many links as there may be");
    figures
}

fn verdict_figures(game: &[u16], plan: &[u16]) -> Figures {
    let call = |side: usize, memory: &mut Memory| memory.verdict(side, game, given(plan));
    let (figures, answer) = figures(Memory::for_game(game), call);
    assert_eq!((answer.number, answer.shown), (0, 1), "Even wins");
    figures
}

fn seed_figures([seed, n, degree, priorities]: [u32; 4], words: usize) -> Figures {
    figures(vec![7; words], |side, output| SEED[side](seed, n, degree, priorities, output)).0
}

fn convert_figures(game: &[u16]) -> Figures {
    figures(vec![7; game.len()], |side, output| CONVERT[side](game, output)).0
}

/// A line of the table.
fn line(cells: [&str; 10]) -> String {
    let [name, n, m, passes, library, plain, to_plain, baseline, ratio, stack] = cells;
    format!(
        "{name:23} {n:>4} {m:>5} {passes:>6} {library:>11} {plain:>11} {to_plain:>6} \
         {baseline:>11} {ratio:>6} {stack:>6}"
    )
}

/// What is kept of a row that is shown: the library's time, and its ratios to the baseline and to plain passes.
struct Shown {
    library: Duration,
    ratio: f64,
    to_plain: Option<f64>,
}

/// Measures a row and prints its line.
fn show(Row { name, game, work, .. }: &Row) -> Shown {
    let Figures { passes, library, plain, baseline, stack } = match work {
        Work::Reduce => reduce_figures(game),
        Work::AcceptPlan(plan) => plan_figures(game, plan),
        Work::Carry(plan) => carry_figures(game, plan, false),
        Work::CarryClass(plan) => carry_figures(game, plan, true),
        Work::Verdict(plan) => verdict_figures(game, plan),
        Work::Seed(numbers) => seed_figures(*numbers, game.len()),
        Work::Convert => convert_figures(game),
        Work::Edit(change) => edits::figures(game, *change),
        Work::Preview(change) => edits::preview_figures(game, *change),
        Work::Replay(trace) => edits::replay_figures(game, trace),
    };
    let micros = |time: Duration| format!("{:.1}", time.as_secs_f64() * 1e6);
    let ratio_to = |time: Duration| library.as_secs_f64() / time.as_secs_f64();
    let (ratio, to_plain) = (ratio_to(baseline), plain.map(ratio_to));
    let shown = |cell: Option<String>| cell.unwrap_or("-".into());
    let cells = [
        name.clone(),
        game[0].to_string(),
        game[1].to_string(),
        shown(passes.map(|passes| passes.to_string())),
        micros(library),
        shown(plain.map(micros)),
        shown(to_plain.map(|ratio| format!("{ratio:.4}"))),
        micros(baseline),
        format!("{ratio:.2}"),
        shown(stack.map(|size| size.to_string())),
    ];
    println!("{}", line(cells.each_ref().map(|cell| cell.as_str())));
    Shown { library, ratio, to_plain }
}

/// A line for each family that has a row at 256 and one at 512 vertices, and the largest growth.
fn show_growth(times: &BTreeMap<(&str, u16), Duration>) {
    println!("\nfamily                             256 µs      512 µs  times");
    let mut largest = 0f64;
    for (&(family, n), &small) in times {
        if let (256, Some(large)) = (n, times.get(&(family, 512))) {
            let [small, large] = [small, *large].map(|time| time.as_secs_f64() * 1e6);
            println!("{family:30} {small:>11.1} {large:>11.1} {:>6.2}", large / small);
            largest = largest.max(large / small);
        }
    }
    println!("time at n 512 over the time at n 256, at most 10 asked: {largest:.2}");
}

/// The rows of the calls that have limits.
fn show_calls() {
    let [library, plain, baseline] = ["library µs", "plain µs", "bit rows µs"];
    let heads = ["game", "n", "m", "passes", library, plain, "ratio", baseline, "ratio", "KiB"];
    println!("{}", line(heads));
    let (mut largest_to_plain, mut watched) = (0f64, 0f64);
    let mut largest: BTreeMap<u16, f64> = BTreeMap::new();
    let mut times = BTreeMap::new();
    let rows = rows::rows();
    for row in &rows {
        let Shown { library, ratio, to_plain } = show(row);
        let n = row.game[0];
        let of_size = largest.entry(n).or_default();
        *of_size = of_size.max(ratio);
        times.extend(row.family.as_deref().map(|family| ((family, n), library)));
        let to_plain = to_plain.unwrap_or(0.0);
        largest_to_plain = largest_to_plain.max(to_plain);
        if row.name.starts_with(WATCHED) {
            watched = watched.max(to_plain);
        }
    }
    for n in [256, 512] {
        println!("largest ratio to the bit rows at n {n}, at most 1.5 asked: {:.2}", largest[&n]);
    }
    println!("largest ratio to plain passes: {largest_to_plain:.2}");
    println!("{WATCHED}: at least {:.1} times as fast as plain passes", 1.0 / watched);
    show_growth(&times);
    packing::show(&rows);
    governed::show(&rows);
}

/// Shows the rows of the calls that have limits; with the argument `large`, those of the checks of solutions and of
/// reductions, with `reductions` the latter alone; with `winners` those of all winners of a game; with `best` those of the
/// order's calls beside the best program known, with `plans` those of the calls on plans and traces; with `read` or `reduce`
/// and a file, the memory that this takes.
fn main() -> ExitCode {
    let arguments: Vec<String> = std::env::args().skip(1).collect();
    let words: Vec<&str> = arguments.iter().map(String::as_str).collect();
    let of_file = |error| format!("the file of a game: {error}");
    let shown = match words[..] {
        [] => {
            show_calls();
            Ok(())
        }
        ["large"] => large::show().and_then(|()| large_reduction::show()).map_err(of_file),
        ["reductions"] => large_reduction::show().map_err(of_file),
        ["winners"] => {
            winners::show();
            Ok(())
        }
        ["best"] => {
            order_calls::show();
            Ok(())
        }
        ["plans"] => {
            plan_calls::show();
            Ok(())
        }
        ["read", file] => large::tell_memory(file).map_err(of_file),
        ["reduce", file] => large_reduction::tell_memory(file).map_err(of_file),
        _ => {
            Err("give no argument, `best`, `large`, `plans`, `reductions`, `winners`, `read FILE` or `reduce FILE`"
                .into())
        }
    };
    match shown {
        Ok(()) => ExitCode::SUCCESS,
        Err(what) => {
            eprintln!("bench: {what}");
            ExitCode::FAILURE
        }
    }
}
