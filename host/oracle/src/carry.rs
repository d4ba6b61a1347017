//! Plans carried to another vertex. A position of the plan that is written is a pair of a position of the
//! plan that is carried and a vertex.

use crate::calls::{refuse_if, Answer, Memory};
use crate::plan::{Plan, MOST_LINKS, MOST_POSITIONS};
use crate::{Game, Oracle, Refusal, Relation, Trap};
use std::collections::HashMap;

/// The pairs in the sequence in which they are found, and the links in that in which they are followed.
struct Found {
    pairs: Vec<(usize, usize)>,
    links: Vec<(usize, usize)>,
}

/// A plan of a player on one game, to be carried to another, or within the same.
struct Carrying<'a> {
    oracle: &'a Oracle,
    player: u16,
    plan: &'a Plan,
    from: &'a Game,
    to: &'a Game,
    order: &'a Relation,
    /// The vertex of `to` as which each vertex of `from` compares.
    stands_for: Vec<usize>,
}

impl Oracle {
    /// Carries a plan on the game to another vertex.
    pub fn carry(
        &self,
        game: &[u16],
        player: u32,
        plan: &[u16],
        vertex: u32,
        memory: &mut Memory,
    ) -> Answer {
        self.answer(self.carried(game, player, plan, vertex, memory))
    }

    /// Carries a plan on the reduced game to a vertex of the game.
    pub fn carry_class(
        &self,
        game: &[u16],
        player: u32,
        plan: &[u16],
        vertex: u32,
        memory: &mut Memory,
    ) -> Answer {
        self.answer(self.carried_class(game, player, plan, vertex, memory))
    }

    fn carried(
        &self,
        game: &[u16],
        player: u32,
        plan: &[u16],
        vertex: u32,
        memory: &mut Memory,
    ) -> Result<Answer, Refusal> {
        if self.falls_for(Trap::PlanBeforeLengths) {
            self.judge_plan(&self.game(game)?, player, plan)?;
        }
        let game = self.checked(game, memory, 2)?;
        if self.falls_for(Trap::OrderBeforePlan) {
            self.write_order(&game, memory);
        }
        let plan = self.judge_plan(&game, player, plan)?;
        let old = memory.clone();
        let order = self.write_order(&game, memory).0;
        let carrying = Carrying {
            oracle: self,
            player: player as u16,
            plan: &plan,
            from: &game,
            to: &game,
            order: &order,
            stands_for: (0..game.n()).collect(),
        };
        let answer = carrying.write(vertex as usize, game.n(), &mut memory.output);
        if answer.is_err() && self.falls_for(Trap::OldAfterCarrying) {
            *memory = old;
        }
        answer
    }

    fn carried_class(
        &self,
        game: &[u16],
        player: u32,
        plan: &[u16],
        vertex: u32,
        memory: &mut Memory,
    ) -> Result<Answer, Refusal> {
        let game = self.game(game)?;
        let reduced = self.write_reduction(&game, memory)?;
        let quotient = self.quotient_of(&game, &reduced.classes);
        let from = if self.falls_for(Trap::PlanOnQuotient) { &quotient } else { &reduced.table };
        let plan = self.judge_plan(from, player, plan)?;
        let classes = reduced.classes.count();
        let carrying = Carrying {
            oracle: self,
            player: player as u16,
            plan: &plan,
            from,
            to: &game,
            order: &reduced.order,
            stands_for: (0..classes).map(|class| reduced.classes.lowest(class)).collect(),
        };
        let vertices = if self.falls_for(Trap::VertexAmongClasses) { classes } else { game.n() };
        let Answer { positions, links, .. } =
            carrying.write(vertex as usize, vertices, &mut memory.output)?;
        Ok(Answer { positions, links, ..reduced.counts })
    }
}

impl Carrying<'_> {
    /// Writes the plan that starts at a vertex, which has to be below `vertices`: refusals 33 to 35.
    fn write(&self, vertex: usize, vertices: usize, output: &mut [u16]) -> Result<Answer, Refusal> {
        let fits = vertex < vertices && self.keep(0, vertex);
        refuse_if(!fits, 33, vertex)?;
        let found = self.found(vertex)?;
        let words = found.words();
        if self.oracle.falls_for(Trap::OutputBeforeLength) && output.len() < words.len() {
            output.copy_from_slice(&words[..output.len()]);
        }
        refuse_if(output.len() < words.len(), 35, words.len())?;
        self.oracle.write(output, &words);
        let (positions, links) = (found.pairs.len() as u32, found.links.len() as u32);
        Ok(Answer { positions, links, ..Answer::default() })
    }

    /// All pairs from the start on, breadth first, or refusal 34. What is found only grows, so the
    /// search needn't go on where it is above a limit.
    fn found(&self, vertex: usize) -> Result<Found, Refusal> {
        let start = (0, vertex);
        let mut found = Found { pairs: vec![start], links: vec![] };
        let mut number = HashMap::from([(start, 0)]);
        let mut open = Vec::from([0]);
        while !open.is_empty() {
            let depth_first = self.oracle.falls_for(Trap::DepthFirst);
            let at = open.remove(if depth_first { open.len() - 1 } else { 0 });
            for pair in self.moves(found.pairs[at].0, found.pairs[at].1) {
                let to = *number.entry(pair).or_insert_with(|| {
                    found.pairs.push(pair);
                    open.push(found.pairs.len() - 1);
                    found.pairs.len() - 1
                });
                found.links.push((at, to));
            }
            let unlimited = self.oracle.falls_for(Trap::LinksUnlimited);
            let many_links = found.links.len() > MOST_LINKS && !unlimited;
            refuse_if(found.pairs.len() > MOST_POSITIONS || many_links, 34, 0)?;
        }
        Ok(found)
    }

    /// The pairs that follow (i, u), by who owns the two vertices.
    fn moves(&self, i: usize, u: usize) -> Vec<(usize, usize)> {
        let successors = self.successors(u);
        let links = &self.plan.next[i];
        let last_own = self.oracle.falls_for(Trap::LastOwnLink);
        let first = || if last_own { links[links.len() - 1] } else { links[0] };
        let lowest = |keeping: Vec<(usize, usize)>| match self.oracle.trap {
            Some(Trap::HighestSuccessor) => keeping.into_iter().last(),
            _ => keeping.into_iter().next(),
        };
        match (self.mine(self.from, self.plan.vertex[i]), self.mine(self.to, u)) {
            (true, true) => {
                let to = |&x: &usize| (first(), x);
                let keeping = successors.iter().filter(|&&x| self.keep(first(), x)).map(to);
                lowest(keeping.collect()).into_iter().collect()
            }
            (true, false) => successors.iter().map(|&x| (first(), x)).collect(),
            (false, true) if self.oracle.falls_for(Trap::LinksBeforeVertices) => {
                let answer =
                    |&j: &usize| Some((j, *successors.iter().find(|&&x| self.keep(j, x))?));
                links.iter().find_map(answer).into_iter().collect()
            }
            (false, true) => lowest(self.answers(links, &successors)).into_iter().collect(),
            (false, false) => self.answers(links, &successors),
        }
    }

    /// Each successor that some link keeps, with the first such link's target.
    fn answers(&self, links: &[usize], successors: &[usize]) -> Vec<(usize, usize)> {
        let last = self.oracle.falls_for(Trap::LastKeepingLink);
        let first = |x: usize| {
            let mut keeping = links.iter().filter(|&&j| self.keep(j, x));
            if last {
                keeping.next_back()
            } else {
                keeping.next()
            }
        };
        successors.iter().filter_map(|&x| Some((*first(x)?, x))).collect()
    }

    /// The successors of a vertex, ascending.
    fn successors(&self, u: usize) -> Vec<usize> {
        let successors = self.to.successors[u].iter().copied();
        if self.oracle.falls_for(Trap::RepeatGivesLinks) {
            return successors.flat_map(|x| vec![x; self.to.times((u, x))]).collect();
        }
        successors.collect()
    }

    /// Whether a position's vertex and a vertex are in the needed order.
    fn keep(&self, position: usize, vertex: usize) -> bool {
        let old = self.stands_for[self.plan.vertex[position]];
        let even = self.player == 0 || self.oracle.falls_for(Trap::OrderNotTurnedForOdd);
        if even {
            self.order.has(old, vertex)
        } else {
            self.order.has(vertex, old)
        }
    }

    fn mine(&self, game: &Game, vertex: usize) -> bool {
        let exchanged = self.oracle.falls_for(Trap::OwnExchangedForOdd);
        game.owner[vertex] == if exchanged { 0 } else { self.player }
    }
}

impl Found {
    fn words(&self) -> Vec<u16> {
        let mut words = vec![self.pairs.len(), self.links.len()];
        words.extend(self.pairs.iter().map(|pair| pair.1));
        words.extend(self.links.iter().map(|link| link.0));
        words.extend(self.links.iter().map(|link| link.1));
        words.into_iter().map(|word| word as u16).collect()
    }
}
