//! Games by the seed. The numbers here have so many bits that no product is cut.

use crate::calls::{refuse_if, Answer, Memory};
use crate::{Game, Oracle, Refusal, Trap};

const MODULUS: u128 = 4_294_967_296;
const MOST_VERTICES: u128 = 512;
const MOST_DEGREE: u128 = 16;
const MOST_PRIORITIES: u128 = 65_535;
const MOST_EDGES: u128 = 4_096;

impl Oracle {
    /// The call: a seed, and the numbers of vertices, of edges out of each, and of priorities.
    pub fn seed(&self, numbers: [u32; 4], memory: &mut Memory) -> Answer {
        let verdict = self.seeded(numbers, memory.output.len());
        self.answer(verdict.map(|game| {
            self.write(&mut memory.output, &game.table());
            self.table_counts(&game)
        }))
    }

    /// The game, or refusal 31 or 32 for an output of so many words.
    fn seeded(&self, numbers: [u32; 4], output: usize) -> Result<Game, Refusal> {
        let [seed, n, degree, priorities] = numbers.map(u128::from);
        let outside = |number: u128, most: u128| !(1..=most).contains(&number);
        let unfit = outside(n, MOST_VERTICES)
            || outside(degree, MOST_DEGREE)
            || outside(priorities, MOST_PRIORITIES)
            || n * degree > MOST_EDGES && !self.falls_for(Trap::DrawnEdgesUnlimited);
        let words = (2 + 2 * n + 2 * n * degree) as usize;
        if self.falls_for(Trap::LengthBeforeRange) {
            refuse_if(output < words, 32, words)?;
        }
        refuse_if(unfit, 31, 0)?;
        refuse_if(output < words, 32, words)?;
        Ok(self.drawn(seed, n, degree, priorities))
    }

    /// Each vertex in turn draws its priority, its owner, and the targets of its edges.
    fn drawn(&self, seed: u128, n: u128, degree: u128, priorities: u128) -> Game {
        let mut draws = self.draws(seed);
        let mut below = |limit: u128| draws.next().expect("there is always a draw") % limit;
        let (mut priority, mut owner, mut edges) = (vec![], vec![], vec![]);
        for v in 0..n as usize {
            if self.falls_for(Trap::OwnerBeforePriority) {
                owner.push(below(2) as u16);
                priority.push(below(priorities) as u16);
            } else {
                priority.push(below(priorities) as u16);
                owner.push(below(2) as u16);
            }
            let targets = if self.falls_for(Trap::LastVertexNoTarget) { 1.max(n - 1) } else { n };
            edges.extend((0..degree).map(|_| (v, below(targets) as usize)));
        }
        Game::new(priority, owner, edges)
    }

    /// The draws of a seed.
    fn draws(&self, seed: u128) -> impl Iterator<Item = u128> {
        let oracle = *self;
        let mut state = seed;
        std::iter::repeat_with(move || {
            let old = state;
            state = (old * 1_664_525 + 1_013_904_223) % MODULUS;
            match oracle.trap {
                Some(Trap::OldStateDrawn) => old / 65_536,
                Some(Trap::LowHalfDrawn) => state % 65_536,
                _ => state / 65_536,
            }
        })
    }
}
