//! The calls by each side, and the memory that a side works in. The first side is the library, the second the baseline. The
//! reduction has a third, whose order goes by plain passes. The others have the two best programs.

use crate::baseline::carry::{carry, carry_class, Same};
use crate::{baseline, best};
use raskjomi::exports::{self, RaskjomiAnswer};

/// The memory that a side works in.
#[derive(Clone, PartialEq, Eq)]
pub struct Memory {
    pub marks: Vec<u8>,
    pub spare: Vec<u8>,
    classes: Vec<u16>,
    /// The reduced game.
    output: Vec<u16>,
    /// The plan that is carried.
    plan: Vec<u16>,
}

/// A call that writes the reduced game.
pub type Reduce = fn(&[u16], &mut [u8], &mut [u8], &mut [u16], &mut [u16]) -> RaskjomiAnswer;
/// A call that judges a plan.
type AcceptPlan = fn(&[u16], u32, &[u16]) -> RaskjomiAnswer;
/// A call that carries a plan.
type Carry = fn(&[u16], u32, &[u16], u32, &mut [u8], &mut [u8], &mut [u16]) -> RaskjomiAnswer;
/// A call that carries a plan from the reduced game.
type CarryClass = fn(
    &[u16],
    u32,
    &[u16],
    u32,
    &mut [u8],
    &mut [u8],
    &mut [u16],
    &mut [u16],
    &mut [u16],
) -> RaskjomiAnswer;
/// A call that gives a verdict.
type Verdict =
    fn(&[u16], u32, u32, &[u16], &mut [u8], &mut [u8], &mut [u16], &mut [u16]) -> RaskjomiAnswer;
/// A call that draws a game.
type Seed = fn(u32, u32, u32, u32, &mut [u16]) -> RaskjomiAnswer;
/// A call that converts a game.
type Convert = fn(&[u16], &mut [u16]) -> RaskjomiAnswer;

/// The first two sides.
pub const LIBRARY: usize = 0;
pub const SAME: usize = 1;
/// The best programs' sides, and the number of sides.
pub const BEST: [usize; 2] = [2, 3];
pub const SIDES: usize = 4;

pub const REDUCE: [Reduce; 3] = [
    exports::reduce,
    |game, marks, spare, classes, output| {
        baseline::reduce(baseline::by_rows, game, marks, spare, classes, output)
    },
    |game, marks, spare, classes, output| {
        baseline::reduce(baseline::by_passes, game, marks, spare, classes, output)
    },
];
pub const ACCEPT_PLAN: [AcceptPlan; SIDES] = [
    exports::accept_plan,
    baseline::accept_plan,
    best::accept_plan::<false>,
    best::accept_plan::<true>,
];
const CARRY: [Carry; SIDES] =
    [exports::carry, carry::<Same>, carry::<best::Best<false>>, carry::<best::Best<true>>];
const CARRY_CLASS: [CarryClass; SIDES] = [
    exports::carry_class,
    carry_class::<Same>,
    carry_class::<best::Best<false>>,
    carry_class::<best::Best<true>>,
];
const VERDICT: [Verdict; SIDES] =
    [exports::verdict, baseline::verdict, best::verdict::<false>, best::verdict::<true>];
pub const SEED: [Seed; 2] = [exports::seed, baseline::seed];
pub const CONVERT: [Convert; 2] = [exports::convert, baseline::convert];

/// A player's plan, and a vertex.
#[derive(Clone, Copy)]
pub struct Given<'a> {
    pub player: u32,
    pub plan: &'a [u16],
    pub vertex: u32,
}

impl Memory {
    pub fn for_game(game: &[u16]) -> Memory {
        let n = game[0] as usize;
        let (marks, classes) = (vec![7; raskjomi::mark_bytes(n)], vec![7; n]);
        let (output, plan) = (vec![7; game.len()], vec![7; raskjomi::MOST_PLAN_WORDS]);
        Memory { spare: marks.clone(), marks, classes, output, plan }
    }

    pub fn reduce(&mut self, side: usize, game: &[u16]) -> RaskjomiAnswer {
        REDUCE[side](game, &mut self.marks, &mut self.spare, &mut self.classes, &mut self.output)
    }

    /// Whether a plan on the reduced game shows that its player wins at the vertex.
    pub fn verdict(&mut self, side: usize, game: &[u16], given: Given) -> RaskjomiAnswer {
        let Memory { marks, spare, classes, output, .. } = self;
        let Given { player, plan, vertex } = given;
        VERDICT[side](game, vertex, player, plan, marks, spare, classes, output)
    }

    /// Carries a plan to the vertex, within the game.
    pub fn carry(&mut self, side: usize, game: &[u16], given: Given) -> RaskjomiAnswer {
        let Given { player, plan, vertex } = given;
        CARRY[side](game, player, plan, vertex, &mut self.marks, &mut self.spare, &mut self.plan)
    }

    /// The same from the reduced game.
    pub fn carry_class(&mut self, side: usize, game: &[u16], given: Given) -> RaskjomiAnswer {
        let Memory { marks, spare, classes, output, plan: carried } = self;
        let Given { player, plan, vertex } = given;
        CARRY_CLASS[side](game, player, plan, vertex, marks, spare, classes, output, carried)
    }
}
