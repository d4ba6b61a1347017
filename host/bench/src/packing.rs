//! What it costs to pack the marks, beside all else that the order's call does.
//!
//! Packing goes by the number of vertices alone. The baseline's is timed by itself. The library's can't be called
//! alone; what a ring's order takes after reading, whose one pass loses nothing, bounds it, and holds the rows too.

use crate::rows::{Row, Work};
use crate::{baseline, measure};
use generator::ring;
use raskjomi::exports::{self, RaskjomiAnswer};
use raskjomi::mark_bytes;
use std::collections::BTreeMap;
use std::time::Duration;

/// The library's best times for the order of a game, and for reading it.
fn library_times(game: &[u16]) -> [Duration; 2] {
    let bytes = mark_bytes(game[0] as usize);
    let (mut marks, mut spare) = (vec![7; bytes], vec![7; bytes]);
    let mut call = |side: usize| match side {
        0 => exports::order(game, &mut marks, &mut spare),
        _ => exports::read(game),
    };
    let first = [0, 1].map(|side| measure::timed(|| call(side)).1);
    measure::best_times(first, call)
}

/// The baseline's best times for reading a game, for the rows of its order, and for packing them.
fn baseline_times(game: &[u16]) -> [Duration; 3] {
    let bytes = mark_bytes(game[0] as usize);
    let (mut marks, mut spare) = (vec![7; bytes], vec![7; bytes]);
    let mut best = [Duration::MAX; 3];
    let call = |_: usize| {
        let times = baseline::timed_order(game, &mut marks, &mut spare);
        for (best, time) in best.iter_mut().zip(times) {
            *best = (*best).min(time);
        }
        RaskjomiAnswer::default()
    };
    measure::best_times([Duration::ZERO], call);
    best
}

/// A bound of what the library takes to pack the marks of n vertices.
fn packing_bound(n: u16) -> Duration {
    let [order, read] = library_times(&ring(n as usize).words());
    order.saturating_sub(read)
}

/// A line for each game whose reduction is measured and that has 256 vertices or more, and the largest ratio.
pub fn show(rows: &[Row]) {
    println!(
        "\n{:23} {:>4} {:>5} {:>11} {:>11} {:>6} {:>11} {:>11} {:>6}",
        "packing",
        "n",
        "m",
        "library µs",
        "at most µs",
        "share",
        "bit rows µs",
        "packing µs",
        "ratio"
    );
    let (mut bounds, mut largest) = (BTreeMap::new(), 0f64);
    let reduced = rows.iter().filter(|row| matches!(row.work, Work::Reduce) && row.game[0] >= 256);
    for Row { name, game, .. } in reduced {
        let n = game[0];
        let bound = *bounds.entry(n).or_insert_with(|| packing_bound(n));
        let [read, rows, packing] = baseline_times(game);
        let times = [library_times(game)[0], bound, read + rows, packing];
        let [order, bound, rest, packing] = times.map(|time| time.as_secs_f64() * 1e6);
        let (share, ratio) = (bound / order, packing / rest);
        println!(
            "{name:23} {n:>4} {:>5} {order:>11.1} {bound:>11.1} {share:>6.2} {rest:>11.1} {packing:>11.1} {ratio:>6.2}",
            game[1]
        );
        largest = largest.max(ratio);
    }
    println!("packing to the rest of the order in the bit rows, less than 1 asked: {largest:.2}");
}
