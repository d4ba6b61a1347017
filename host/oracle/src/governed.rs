//! Governed bisimulations: direct simulations that hold the reverse of each of their pairs.

use crate::calls::{Answer, Memory};
use crate::{Game, Oracle, Relation, Trap};

impl Oracle {
    /// The call that writes the largest one.
    pub fn governed_order(&self, game: &[u16], memory: &mut Memory) -> Answer {
        let counts = self.checked(game, memory, 2).map(|game| {
            let (relation, passes) = self.governed_of(&game);
            self.write_relation(&relation, memory);
            Answer { passes, ..Answer::default() }
        });
        self.answer(counts)
    }

    /// The call that judges one, which reads the marks and writes nothing.
    pub fn accept_governed(&self, game: &[u16], memory: &Memory) -> Answer {
        let game = self.checked(game, &mut memory.clone(), 1);
        let verdict = game.and_then(|game| {
            self.judge_marks(&game, &memory.marks, |h| self.first_ungoverned(&game, h))
        });
        self.answer(verdict.map(|()| Answer::default()))
    }

    /// The call that writes its classes.
    pub fn governed_classes(&self, game: &[u16], memory: &mut Memory) -> Answer {
        let counts = self.checked(game, memory, 3).map(|game| {
            let (relation, _) = self.governed_of(&game);
            self.write_relation(&relation, memory);
            let of_order = self.falls_for(Trap::ClassesOfTheOrder);
            let numbered = if of_order { self.order_of(&game).0 } else { relation };
            self.write_class_words(&game, &numbered, memory)
        });
        self.answer(counts)
    }

    /// The largest governed bisimulation, and the number of its passes.
    pub fn governed_of(&self, game: &Game) -> (Relation, u32) {
        if self.falls_for(Trap::MutualPairsOfTheOrder) {
            let (order, passes) = self.order_of(game);
            let mutual = |v: usize, w: usize| order.has(v, w) && order.has(w, v);
            return (Relation::of(game.n(), game.n(), mutual), passes);
        }
        self.settled(game, game, |marks| self.governed_pass(game, marks))
    }

    /// The marks without those pairs that fail the test under them, or whose reverse does.
    fn governed_pass(&self, game: &Game, marks: &Relation) -> Relation {
        let mut next = marks.clone();
        for (v, w) in marks.pairs() {
            let later = self.falls_for(Trap::ReverseUnderLaterMarks);
            let passes = self.test(game, game, v, w, marks);
            let reverse = self.test(game, game, w, v, if later { &next } else { marks });
            if !passes || !reverse {
                next.unmark(v, w);
            }
        }
        next
    }

    /// The first pair with unequal priorities, a failing test or an unmarked reverse.
    fn first_ungoverned(&self, game: &Game, h: &Relation) -> Option<(usize, usize)> {
        let fails = |v: usize, w: usize| self.pair_fails(game, v, w, h);
        let find = |bad: &dyn Fn(usize, usize) -> bool| h.pairs().find(|&(v, w)| bad(v, w));
        match self.trap {
            Some(Trap::ReverseUnasked) => find(&fails),
            Some(Trap::ReversesAfterTests) => find(&fails).or_else(|| find(&|v, w| !h.has(w, v))),
            Some(Trap::ReverseTestedToo) => {
                find(&|v, w| fails(v, w) || !h.has(w, v) || fails(w, v))
            }
            _ => find(&|v, w| fails(v, w) || !h.has(w, v)),
        }
    }
}
