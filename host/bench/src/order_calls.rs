//! The order's calls, by family and size: the library beside the best program known, and beside the same algorithm.

use crate::calls::{self, Reduce, BEST, LIBRARY, SAME, SIDES};
use crate::edits::{Change, Memory};
use crate::families::{FAMILIES, SIZES};
use crate::{baseline, best, first_calls, measure};
use generator::Table;
use raskjomi::exports::{self, RaskjomiAnswer};
use std::time::Duration;

/// How long the calls of a side take in all, at the least, for each game.
pub const A_SIDE: Duration = Duration::from_millis(20);

/// A call that writes a relation.
type Relate = fn(&[u16], &mut [u8], &mut [u8]) -> RaskjomiAnswer;
/// A call that writes the order and its classes.
type Classes = fn(&[u16], &mut [u8], &mut [u8], &mut [u16]) -> RaskjomiAnswer;

const ORDER: [Relate; SIDES] =
    [exports::order, baseline::order, best::order::<false>, best::order::<true>];
const GOVERNED: [Relate; SIDES] = [
    exports::governed_order,
    baseline::governed_order,
    best::governed_order::<false>,
    best::governed_order::<true>,
];
const CLASSES: [Classes; SIDES] =
    [exports::classes, baseline::classes, best::classes::<false>, best::classes::<true>];
const REDUCE: [Reduce; SIDES] =
    [calls::REDUCE[LIBRARY], calls::REDUCE[SAME], best::reduce::<false>, best::reduce::<true>];

/// A call's name, and the call by a side, which may make a change.
pub type Call = (&'static str, fn(usize, &[u16], Change, &mut Memory) -> RaskjomiAnswer);

pub const CALLS: [Call; 6] = [
    ("order", |side, game, _, memory| ORDER[side](game, &mut memory.marks, &mut memory.spare)),
    ("governed_order", |side, game, _, memory| {
        GOVERNED[side](game, &mut memory.marks, &mut memory.spare)
    }),
    ("classes", |side, game, _, memory| {
        CLASSES[side](game, &mut memory.marks, &mut memory.spare, &mut memory.classes)
    }),
    ("reduce", |side, game, _, memory| reduce(side, game, memory)),
    ("edit", |side, game, change, memory| memory.edit(side, game, change)),
    ("preview", |side, game, change, memory| memory.preview(side, game, change)),
];

/// The reduced game goes into the memory's table. The baseline tells the passes too, which the call doesn't.
fn reduce(side: usize, game: &[u16], memory: &mut Memory) -> RaskjomiAnswer {
    let Memory { table, marks, spare, classes } = memory;
    RaskjomiAnswer { passes: 0, ..REDUCE[side](game, marks, spare, classes, table) }
}

/// An edge that may leave, since its source has another; where there is none, one that may arrive.
fn change_of(game: &Table) -> Change {
    let successors = game.successors();
    let leaves = game.edges.iter().find(|edge| successors[edge.0 as usize].len() > 1);
    let absent = || (0..game.n() as u16).find(|v| !successors[0].contains(&(*v as usize)));
    let (source, target) = leaves.copied().unwrap_or_else(|| (0, absent().unwrap_or(0)));
    Change { source: source.into(), target: target.into(), add: leaves.is_none() }
}

/// The best time of each side, whose answers and buffers are compared first.
fn times((_, call): &Call, game: &Table) -> [Duration; SIDES] {
    let (words, change) = (game.words(), change_of(game));
    let call = |side: usize, memory: &mut Memory| call(side, &words, change, memory);
    let (mut memory, first) = first_calls::<SIDES, _>(Memory::for_game(&words), &call);
    assert_eq!(first[LIBRARY].answer.number, 0, "the call is accepted");
    measure::best_of_batches(A_SIDE, |side| call(side, &mut memory[side]))
}

/// The library's time over that of the better of the best programs, and over that of the same algorithm.
pub fn ratios(times: [Duration; SIDES]) -> [f64; 2] {
    let best = times[BEST[0]].min(times[BEST[1]]);
    [best, times[SAME]].map(|time| times[LIBRARY].as_secs_f64() / time.as_secs_f64())
}

/// The least and the largest ratio to the best, at sizes in a range.
struct Range {
    sizes: [usize; 2],
    ratios: [f64; 2],
}

impl Range {
    fn of(sizes: [usize; 2]) -> Range {
        Range { sizes, ratios: [f64::MAX, 0.0] }
    }

    fn add(&mut self, n: usize, ratio: f64) {
        if (self.sizes[0]..=self.sizes[1]).contains(&n) {
            self.ratios = [self.ratios[0].min(ratio), self.ratios[1].max(ratio)];
        }
    }
}

/// The lines of a call, one for each family, and the range of its ratios at small, middle and large sizes.
fn show_call(call: &Call) {
    let mut ranges = [[8, 64], [128, 256], [512, 512]].map(Range::of);
    for (family, game_of) in FAMILIES {
        print!("{:15} {family:30}", call.0);
        for n in SIZES {
            let Some(game) = game_of(n) else {
                print!(" {:>11}", "-");
                continue;
            };
            let [to_best, to_same] = ratios(times(call, &game));
            print!(" {to_best:>6.2} {to_same:>4.2}");
            ranges.iter_mut().for_each(|range| range.add(n, to_best));
        }
        println!();
    }
    for Range { sizes: [first, last], ratios: [least, largest] } in ranges {
        println!("{}: n {first} to {last}, to the best {least:.2} to {largest:.2}", call.0);
    }
}

/// A line for each call and family: at each size the ratio to the best, and to the same algorithm.
pub fn show() {
    print!("{:15} {:30}", "call", "family");
    SIZES.iter().for_each(|n| print!(" {:>6} same", format!("n {n}")));
    println!();
    CALLS.iter().for_each(show_call);
}
