//! The governed classes beside their baseline, and beside the order's classes.

use crate::rows::{Row, Work};
use crate::{baseline, measure, Sides};
use raskjomi::exports::{self, RaskjomiAnswer};
use raskjomi::mark_bytes;
use std::time::Duration;

/// A call that writes a relation and its classes.
type Classes = fn(&[u16], &mut [u8], &mut [u8], &mut [u16]) -> RaskjomiAnswer;

const CLASSES: [Classes; 2] = [exports::governed_classes, baseline::governed_classes];

/// The memory that a side works in.
#[derive(Clone, PartialEq, Eq)]
struct Memory {
    marks: Vec<u8>,
    spare: Vec<u8>,
    classes: Vec<u16>,
}

impl Memory {
    fn for_game(game: &[u16]) -> Memory {
        let n = game[0] as usize;
        let marks = vec![7; mark_bytes(n)];
        Memory { spare: marks.clone(), marks, classes: vec![7; n] }
    }

    fn write(&mut self, call: Classes, game: &[u16]) -> RaskjomiAnswer {
        call(game, &mut self.marks, &mut self.spare, &mut self.classes)
    }
}

/// The best time of the order's classes.
fn order_time(game: &[u16]) -> Duration {
    let mut memory = Memory::for_game(game);
    let first = measure::first(|| memory.write(exports::classes, game)).time;
    measure::best_times([first], |_| memory.write(exports::classes, game))[0]
}

/// A line for each game whose reduction is measured, and the largest ratios.
pub fn show(rows: &[Row]) {
    println!("\ngoverned classes           n     m passes  library µs bit rows µs  ratio    order µs  ratio");
    let (mut to_rows, mut to_order) = (0f64, 0f64);
    for Row { name, game, .. } in rows.iter().filter(|row| matches!(row.work, Work::Reduce)) {
        let mut memory = Memory::for_game(game);
        let passes = exports::governed_order(game, &mut memory.marks, &mut memory.spare).passes;
        let call = |side: usize, memory: &mut Memory| memory.write(CLASSES[side], game);
        let Sides { times: [library, rows], .. } = Sides::of(Memory::for_game(game), call);
        let order = order_time(game);
        let ratio = |time: Duration| library.as_secs_f64() / time.as_secs_f64();
        let micros = |time: Duration| time.as_secs_f64() * 1e6;
        println!(
            "{name:23} {:>4} {:>5} {passes:>6} {:>11.1} {:>11.1} {:>6.2} {:>11.1} {:>6.2}",
            game[0],
            game[1],
            micros(library),
            micros(rows),
            ratio(rows),
            micros(order),
            ratio(order)
        );
        (to_rows, to_order) = (to_rows.max(ratio(rows)), to_order.max(ratio(order)));
    }
    println!("governed: at most {to_rows:.2} times the bit rows, {to_order:.2} times the order");
}
