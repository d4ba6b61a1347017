//! Games where the highest priority decides.

use crate::calls::{refuse_at, refuse_if, Answer, Memory};
use crate::{Game, Oracle, Refusal, Trap};

const MOST_PRIORITY: u32 = 65_535;

impl Oracle {
    /// The call: the same game with the lowest priority deciding.
    pub fn convert(&self, game: &[u16], memory: &mut Memory) -> Answer {
        let verdict = self.game(game).and_then(|game| self.converted(&game, memory.output.len()));
        self.answer(verdict.map(|game| {
            self.write(&mut memory.output, &game.table());
            self.table_counts(&game)
        }))
    }

    /// The game, or refusal 24 or 36 for an output of so many words.
    fn converted(&self, game: &Game, output: usize) -> Result<Game, Refusal> {
        let short = refuse_if(output < game.words(), 24, game.words());
        let oversize = refuse_at(self.oversize(game), 36);
        if self.falls_for(Trap::OversizeBeforeLength) {
            oversize.and(short)?;
        } else {
            short.and(oversize)?;
        }
        let even = self.even(game);
        let turned = |&priority: &u16| (even - u32::from(priority)) as u16;
        let mut owner = game.owner.clone();
        if self.falls_for(Trap::OwnersTurned) {
            owner.iter_mut().for_each(|owner| *owner = 1 - *owner);
        }
        let mut listed = game.listed.clone();
        if self.falls_for(Trap::RepeatsDropped) {
            listed = game.edges.iter().copied().collect();
        }
        Ok(Game::new(game.priority.iter().map(turned).collect(), owner, listed))
    }

    /// The smallest even number not below the highest priority.
    fn even(&self, game: &Game) -> u32 {
        let highest = highest(game);
        match self.trap {
            Some(Trap::HighestItself) => highest,
            Some(Trap::EvenTooLarge) => highest + highest % 2 + 2,
            _ => (highest..).find(|number| number % 2 == 0).expect("every second number is even"),
        }
    }

    /// The word of the first priority that would become 65,536.
    fn oversize(&self, game: &Game) -> Option<usize> {
        if highest(game) < MOST_PRIORITY {
            return None;
        }
        if self.falls_for(Trap::AnyOversize) {
            return Some(2);
        }
        let vertex = game.priority.iter().position(|&priority| priority == 0)?;
        Some(if self.falls_for(Trap::OversizeAsVertex) { vertex } else { 2 + vertex })
    }
}

fn highest(game: &Game) -> u32 {
    game.priority.iter().copied().max().map_or(0, u32::from)
}
