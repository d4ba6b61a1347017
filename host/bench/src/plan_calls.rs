//! The calls on plans and traces, by family and size: the library beside the best program known, and beside the same
//! algorithm.

use crate::baseline::EDGES;
use crate::calls::{self, ACCEPT_PLAN, BEST, LIBRARY, SIDES};
use crate::edits;
use crate::order_calls::{ratios, A_SIDE};
use crate::plan_families::{Call, Case, Family, FAMILIES};
use crate::{first_calls, measure};
use raskjomi::exports::RaskjomiAnswer;
use std::time::Duration;

/// The memory that a side works in: that of an edit for a trace, in a buffer for as many edges as there may be.
#[derive(Clone, PartialEq, Eq)]
pub struct Memory {
    pub plan: calls::Memory,
    pub edit: edits::Memory,
}

impl Memory {
    pub fn for_game(game: &[u16]) -> Memory {
        let (plan, mut edit) = (calls::Memory::for_game(game), edits::Memory::for_game(game));
        edit.table.resize(2 + 2 * game[0] as usize + 2 * EDGES, 7);
        Memory { plan, edit }
    }

    /// The call by a side.
    pub fn call(&mut self, side: usize, call: Call, case: &Case) -> RaskjomiAnswer {
        let Case { game, words, player, .. } = case;
        match call {
            Call::AcceptPlan => ACCEPT_PLAN[side](game, *player, words),
            Call::Carry => self.plan.carry(side, game, case.given()),
            Call::CarryClass => self.plan.carry_class(side, game, case.given()),
            Call::Replay => self.edit.replay(side, game, words),
            Call::Verdict => self.plan.verdict(side, game, case.given()),
        }
    }
}

/// The first calls of all sides, which answer and leave the same; their memory, and the answer.
pub fn agreed(call: Call, memory: Memory, case: &Case) -> ([Memory; SIDES], RaskjomiAnswer) {
    let by = |side: usize, memory: &mut Memory| memory.call(side, call, case);
    let (memory, first) = first_calls(memory, &by);
    (memory, first[LIBRARY].answer)
}

/// Whether the answer is what the family is made for.
pub fn expected(call: Call, case: &Case, answer: &RaskjomiAnswer) -> bool {
    let told = match call {
        Call::Replay => answer.entries == case.words[0].into(),
        Call::Verdict => answer.shown == 1,
        _ => true,
    };
    told && (answer.number, answer.place) == case.refusal
}

/// The best time of each side.
fn times(call: Call, case: &Case) -> [Duration; SIDES] {
    let (mut memory, answer) = agreed(call, Memory::for_game(&case.game), case);
    assert!(expected(call, case, &answer), "{call:?} answers {answer:?}");
    measure::best_of_batches(A_SIDE, |side| memory[side].call(side, call, case))
}

/// The lines of a family, one for each size. How the times of library and best grow is told from the second on.
fn show_family(family: &Family) -> f64 {
    let (call, mut before, mut largest) = (format!("{:?}", family.call), None, 0f64);
    for case in family.sizes.map(family.case) {
        let times = times(family.call, &case);
        let [to_best, to_same] = ratios(times);
        let best = times[BEST[0]].min(times[BEST[1]]);
        let now = [times[LIBRARY], best].map(|time| time.as_secs_f64() * 1e6);
        let ([n, m], [p, l]) = ([case.game[0], case.game[1]], [case.words[0], case.words[1]]);
        let l = if family.call == Call::Replay { "-".into() } else { l.to_string() };
        print!("{call:10} {:30} {n:>4} {m:>5} {p:>5} {l:>6}", family.name);
        print!(" {:>11.1} {:>11.1} {to_best:>7.2} {to_same:>6.2}", now[0], now[1]);
        match before.replace(now) {
            Some([library, best]) => println!(" {:>7.1} {:>7.1}", now[0] / library, now[1] / best),
            None => println!(" {:>7} {:>7}", "-", "-"),
        }
        largest = largest.max(to_best);
    }
    largest
}

/// A line for each family and size, and the largest ratio to the best of each call. The words of a trace are its entries.
pub fn show() {
    print!("{:10} {:30} {:>4} {:>5} {:>5} {:>6}", "call", "family", "n", "m", "p", "l");
    print!(" {:>11} {:>11} {:>7} {:>6}", "library µs", "best µs", "ratio", "same");
    println!(" {:>7} {:>7}", "grows", "best");
    for call in [Call::AcceptPlan, Call::Carry, Call::CarryClass, Call::Replay, Call::Verdict] {
        let families = FAMILIES.iter().filter(|family| family.call == call);
        let largest = families.map(show_family).fold(0.0, f64::max);
        println!("{call:?}: at most {largest:.2} times as long as the best");
    }
}
