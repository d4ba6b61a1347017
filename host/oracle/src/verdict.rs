//! The verdict call: whether a plan on the reduced game shows that a player wins at a vertex of the game.

use crate::calls::{refuse_if, Answer, Memory, Tabulated};
use crate::{Oracle, Refusal, Trap};

impl Oracle {
    /// The verdict on a player and a vertex by a plan on the reduced game.
    pub fn verdict(
        &self,
        game: &[u16],
        vertex: u32,
        player: u32,
        plan: &[u16],
        memory: &mut Memory,
    ) -> Answer {
        self.answer(self.given(game, vertex as usize, player, plan, memory))
    }

    fn given(
        &self,
        game: &[u16],
        vertex: usize,
        player: u32,
        plan: &[u16],
        memory: &mut Memory,
    ) -> Result<Answer, Refusal> {
        let game = self.game(game)?;
        if self.falls_for(Trap::VertexAfterLengths) {
            self.write_reduction(&game, &mut memory.clone())?;
        }
        if self.falls_for(Trap::WrittenBeforeVertex) {
            // Where the memory is too short, nothing is written.
            let _ = self.write_reduction(&game, memory);
        }
        refuse_if(vertex >= game.n(), 33, vertex)?;
        let old = memory.clone();
        let reduced = self.write_reduction(&game, memory)?;
        let judged_on_game = self.falls_for(Trap::JudgedOnTheGame);
        let on = if judged_on_game { &game } else { &reduced.table };
        let plan = self.judge_plan(on, player, plan);
        if plan.is_err() && self.falls_for(Trap::OldAfterPlan) {
            *memory = old;
        }
        let shown = self.shows(&reduced, plan?.vertex[0], vertex);
        let counts = match (shown, self.trap) {
            (false, Some(Trap::NotShownUncounted)) => Answer::default(),
            _ => reduced.counts,
        };
        Ok(Answer { shown: shown as u32, ..counts })
    }

    /// Whether a plan that passes and starts at the class `start` shows that its player wins at the vertex.
    fn shows(&self, reduced: &Tabulated, start: usize, vertex: usize) -> bool {
        match self.trap {
            Some(Trap::WinsByAnyPlan) => true,
            Some(Trap::WinsFromBelow) => reduced.order.has(reduced.classes.lowest(start), vertex),
            Some(Trap::StartAtTheVertex) => start == vertex,
            _ => start == reduced.classes.of[vertex],
        }
    }
}
