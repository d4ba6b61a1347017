//! Plans on which each step of the plan acceptor decides. It searches from each position of the wrong parity. Whenever the
//! searches have looked at many links, it takes out positions that lie on no closed walk of the wrong parity, and goes on.

use crate::calls::Case;
use crate::limits::agree;
use generator::{
    falling_steps, largest_plan, nested_loops, one_step, renumbered, rising_steps,
    sources_into_core, stairs, Lcg, Plan, Table,
};
use std::collections::BTreeSet;

/// What decides a plan: searches of all positions; a refinement, behind which no search is in vain; searches of what it leaves.
#[derive(Clone, Copy, Debug, PartialEq, Eq, PartialOrd, Ord)]
enum Step {
    Search,
    Refinement,
    LaterSearch,
}

/// The acceptor's searches, by the links they look at and by the block of each position that they may still meet.
struct Model {
    player: u16,
    priorities: Vec<u16>,
    next: Vec<Vec<usize>>,
    previous: Vec<Vec<usize>>,
    blocks: Vec<Option<usize>>,
}

/// The lowest position that returns, how often the blocks were refined, and how many searches since were in vain.
struct Decision {
    place: Option<usize>,
    refinements: usize,
    vain: usize,
}

impl Decision {
    fn step(&self) -> Step {
        match (self.refinements, self.vain) {
            (0, _) => Step::Search,
            (_, 0) => Step::Refinement,
            _ => Step::LaterSearch,
        }
    }
}

impl Model {
    fn new(game: &Table, player: u16, plan: &Plan) -> Model {
        let p = plan.vertices.len();
        let (mut next, mut previous) = (vec![vec![]; p], vec![vec![]; p]);
        for &(from, to) in &plan.links {
            next[from as usize].push(to as usize);
            previous[to as usize].push(from as usize);
        }
        let priorities = plan.vertices.iter().map(|&v| game.priorities[v as usize]).collect();
        Model { player, priorities, next, previous, blocks: vec![Some(0); p] }
    }

    fn is_wrong(&self, i: usize) -> bool {
        self.priorities[i] % 2 != self.player
    }

    /// Whether position i returns inside its block through priorities no lower than its own, and how many positions and links
    /// the search looks at, if it doesn't.
    fn search(&self, i: usize) -> (bool, usize) {
        let within =
            |j: usize| self.blocks[j] == self.blocks[i] && self.priorities[j] >= self.priorities[i];
        let met = reached(&self.next, i, within);
        let looks = |j: usize| if j == i || met[j] { self.next[j].len() + 1 } else { 0 };
        (met[i], (0..met.len()).map(looks).sum())
    }

    /// The strongly connected components inside blocks.
    fn components(&self) -> Vec<Option<usize>> {
        let mut components = vec![None; self.blocks.len()];
        for v in (0..components.len()).rev() {
            if self.blocks[v].is_none() || components[v].is_some() {
                continue;
            }
            let open = |w: usize| self.blocks[w] == self.blocks[v] && components[w].is_none();
            let ahead = reached(&self.next, v, open);
            let both = reached(&self.previous, v, |w| ahead[w]);
            components[v] = Some(v);
            (0..both.len()).filter(|&w| both[w]).for_each(|w| components[w] = Some(v));
        }
        components
    }

    /// Components become blocks. Those leave that have the right parity and their block's lowest priority, or no link inside it.
    fn refine(&mut self) {
        self.blocks = self.components();
        let mut lowest = vec![u16::MAX; self.blocks.len()];
        for (block, &priority) in self.blocks.iter().zip(&self.priorities) {
            block.iter().for_each(|&block| lowest[block] = lowest[block].min(priority));
        }
        for v in 0..self.blocks.len() {
            let Some(block) = self.blocks[v] else { continue };
            let right = !self.is_wrong(v) && self.priorities[v] == lowest[block];
            let inside = self.next[v].iter().any(|&w| self.blocks[w] == Some(block));
            if right || !inside {
                self.blocks[v] = None;
            }
        }
    }

    /// The searches in turn, with two refinements whenever the budget is spent.
    fn decide(mut self) -> Decision {
        let (p, l) = (self.next.len(), self.next.iter().map(Vec::len).sum::<usize>());
        let budget = 8 * (p + l + 1024);
        let mut left = budget;
        let mut decision = Decision { place: None, refinements: 0, vain: 0 };
        for i in 0..p {
            if !self.is_wrong(i) || self.blocks[i].is_none() {
                continue;
            }
            let (returns, looks) = self.search(i);
            if returns {
                return Decision { place: Some(i), ..decision };
            }
            decision.vain += 1;
            left = left.saturating_sub(looks);
            if left == 0 {
                self.refine();
                self.refine();
                decision = Decision { refinements: decision.refinements + 1, vain: 0, ..decision };
                left = budget;
            }
        }
        decision
    }
}

/// The positions that one link or more lead to from i through positions `within`.
fn reached(links: &[Vec<usize>], i: usize, within: impl Fn(usize) -> bool) -> Vec<bool> {
    let (mut reached, mut open) = (vec![false; links.len()], vec![i]);
    while let Some(from) = open.pop() {
        for &to in &links[from] {
            if !reached[to] && within(to) {
                reached[to] = true;
                open.push(to);
            }
        }
    }
    reached
}

/// Even's plans of p positions, and the largest on a game of n vertices: accepted, and refused.
fn plans(p: usize, n: usize) -> Vec<(Table, Plan)> {
    let mut plans = Vec::new();
    for steps in [one_step, rising_steps, falling_steps] {
        plans.extend([false, true].map(|refused| stairs(p, steps(p), refused)));
    }
    // The right priority of a vertex: the core's, the last loop's, or one of four that every closed walk meets.
    let in_loop = p / 16 * 2 - 2;
    let accepted = [
        (sources_into_core(p), p / 8 - 1),
        (nested_loops(p, 0), in_loop),
        (nested_loops(p, 15), in_loop),
        (largest_plan(&mut Lcg::new(n as u64), n), 3),
    ];
    for ((game, plan), right) in accepted {
        let mut spoilt = game.clone();
        spoilt.priorities[right] += 1;
        plans.extend([(game, plan.clone()), (spoilt, plan)]);
    }
    plans
}

/// Library, oracle and model agree on the plan, as Even's and as Odd's; what decides each.
fn decisions((game, plan): &(Table, Plan)) -> [Decision; 2] {
    [(0, game.clone()), (1, game.clone().exchanged())].map(|(player, game)| {
        let case = Case::of_plan(&game.words(), player.into(), plan.words());
        let (number, answer) = (agree(&case), case.actual().answer);
        let decision = Model::new(&game, player, plan).decide();
        let refusal = decision.place.map_or((0, 0), |place| (16, place));
        assert_eq!((number, answer.place), refusal);
        decision
    })
}

#[test]
fn each_step_accepts_and_refuses_plans_of_each_player() {
    let mut decided = BTreeSet::new();
    for (p, n) in [(16, 8), (256, 64), (4096, 512)] {
        for plan in plans(p, n) {
            for (player, decision) in decisions(&plan).into_iter().enumerate() {
                let several = decision.refinements > 1;
                decided.insert((player, decision.step(), decision.place.is_some(), several));
            }
        }
    }
    for player in [0, 1] {
        for refused in [false, true] {
            for step in [Step::Search, Step::Refinement, Step::LaterSearch] {
                let several = step == Step::LaterSearch;
                assert!(decided.contains(&(player, step, refused, several)), "{decided:?}");
            }
        }
    }
}

#[test]
fn positions_in_any_sequence() {
    let (mut lcg, mut refinements) = (Lcg::new(80), 0);
    for (game, plan) in plans(256, 16) {
        for _ in 0..3 {
            let plan = renumbered(&mut lcg, &plan);
            for decision in decisions(&(game.clone(), plan)) {
                refinements = refinements.max(decision.refinements);
            }
        }
    }
    assert!(refinements > 1, "the budget is spent {refinements} times");
}
