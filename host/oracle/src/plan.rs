//! The judge of winning plans. A plan is a finite-memory strategy of one player, given as a graph:
//! positions at vertices, and links between positions.

use crate::calls::{refuse_at, refuse_if};
use crate::{Game, Oracle, Refusal, Trap};

pub(crate) const MOST_POSITIONS: usize = 4096;
pub(crate) const MOST_LINKS: usize = 16384;

/// A plan whose words are in range.
pub(crate) struct Plan {
    /// The vertex of each position.
    pub vertex: Vec<usize>,
    links: Vec<(usize, usize)>,
    /// The targets of the links of each position, in the sequence of the table.
    pub next: Vec<Vec<usize>>,
}

impl Oracle {
    /// The plan, if it wins for the player: refusals 11 to 16, in order.
    pub(crate) fn judge_plan(
        &self,
        game: &Game,
        player: u32,
        words: &[u16],
    ) -> Result<Plan, Refusal> {
        refuse_if(player > 1 && !self.falls_for(Trap::OthersAsOdd), 11, 0)?;
        let plan = self.plan(game, words)?;
        let along =
            |&(i, j): &(usize, usize)| game.successors[plan.vertex[i]].contains(&plan.vertex[j]);
        refuse_at(plan.links.iter().position(|link| !along(link)), 14)?;
        let player = if self.falls_for(Trap::PlayerFixed) { 0 } else { player.min(1) as u16 };
        let judged = self.judged_positions(&plan);
        let lacking = |i: &usize| judged[*i] && self.lacks_link(game, player, &plan, *i);
        refuse_at((0..plan.vertex.len()).find(lacking), 15)?;
        let bad = |i: &usize| judged[*i] && self.starts_bad_walk(game, player, &plan, *i);
        refuse_at((0..plan.vertex.len()).find(bad), 16)?;
        Ok(plan)
    }

    /// Refusals 12 and 13.
    fn plan(&self, game: &Game, words: &[u16]) -> Result<Plan, Refusal> {
        refuse_if(words.len() < 2, 12, 0)?;
        let (p, l) = (words[0] as usize, words[1] as usize);
        let beyond = p > MOST_POSITIONS || l > MOST_LINKS;
        refuse_if(p == 0 || (beyond && !self.falls_for(Trap::PlanUnlimited)), 12, 0)?;
        refuse_if(words.len() != 2 + p + 2 * l, 12, 0)?;
        let numbers: Vec<usize> = words[2..].iter().map(|&word| word as usize).collect();
        let (vertex, ends) = numbers.split_at(p);
        let (sources, targets) = ends.split_at(l);
        let links: Vec<(usize, usize)> =
            sources.iter().copied().zip(targets.iter().copied()).collect();
        let bad_vertex = vertex.iter().position(|&v| v >= game.n()).map(|i| 2 + i);
        let bad_end = self.bad_link_end(ends, &links, p).map(|i| 2 + p + i);
        let ends_first = self.falls_for(Trap::LinkEndsFirst);
        refuse_at(if ends_first { bad_end.or(bad_vertex) } else { bad_vertex.or(bad_end) }, 13)?;
        let mut next = vec![Vec::new(); p];
        links.iter().for_each(|&(i, j)| next[i].push(j));
        Ok(Plan { vertex: vertex.to_vec(), links, next })
    }

    /// The first link end that is no position, counted from the first source.
    fn bad_link_end(&self, ends: &[usize], links: &[(usize, usize)], p: usize) -> Option<usize> {
        if self.falls_for(Trap::LinkEndsTogether) {
            let link = links.iter().position(|&(i, j)| i >= p || j >= p)?;
            return Some(if links[link].0 >= p { link } else { links.len() + link });
        }
        ends.iter().position(|&end| end >= p)
    }

    /// All positions, reachable from position 0 or not.
    fn judged_positions(&self, plan: &Plan) -> Vec<bool> {
        if self.falls_for(Trap::ReachableOnly) {
            let mut reached = reached(plan, 0, |_| true);
            reached[0] = true;
            return reached;
        }
        vec![true; plan.vertex.len()]
    }

    /// The player's positions need a link, the opponent's one to each successor.
    fn lacks_link(&self, game: &Game, player: u16, plan: &Plan, i: usize) -> bool {
        let next = &plan.next[i];
        let v = plan.vertex[i];
        if game.owner[v] == player || self.falls_for(Trap::OneAnswerEnough) {
            return next.is_empty();
        }
        let answers = |x: usize| next.iter().filter(|&&j| plan.vertex[j] == x).count();
        let asked =
            |x: usize| if self.falls_for(Trap::RepeatAsksTwice) { game.times((v, x)) } else { 1 };
        !game.successors[v].iter().all(|&x| answers(x) >= asked(x))
    }

    /// Whether the position lies on a closed walk whose lowest priority it has and which is of the
    /// wrong parity: it then returns to itself through positions of no lower priority.
    fn starts_bad_walk(&self, game: &Game, player: u16, plan: &Plan, i: usize) -> bool {
        if self.falls_for(Trap::LowestOnWalk) {
            return self.lies_on_bad_walk(game, player, plan, i);
        }
        let priority = |j: usize| game.priority[plan.vertex[j]];
        let highest = self.falls_for(Trap::HighestDecides);
        let within = |j: usize| {
            if highest {
                priority(j) <= priority(i)
            } else {
                priority(j) >= priority(i)
            }
        };
        let returns = if self.falls_for(Trap::SelfLoopsOnly) {
            plan.next[i].contains(&i)
        } else {
            reached(plan, i, within)[i]
        };
        priority(i) % 2 != player && returns
    }

    /// Whether the position lies on any closed walk whose lowest priority is of the wrong parity.
    fn lies_on_bad_walk(&self, game: &Game, player: u16, plan: &Plan, i: usize) -> bool {
        let priority = |j: usize| game.priority[plan.vertex[j]];
        let bad = |&j: &usize| {
            let from_j = reached(plan, j, |k| priority(k) >= priority(j));
            priority(j) % 2 != player
                && priority(i) >= priority(j)
                && from_j[j]
                && from_j[i]
                && reached(plan, i, |k| priority(k) >= priority(j))[j]
        };
        (0..plan.vertex.len()).any(|j| bad(&j))
    }
}

/// The positions that can be reached from i by one link or more through positions `within`.
fn reached(plan: &Plan, i: usize, within: impl Fn(usize) -> bool) -> Vec<bool> {
    let mut reached = vec![false; plan.vertex.len()];
    let mut open = vec![i];
    while let Some(from) = open.pop() {
        for &to in &plan.next[from] {
            if within(to) && !reached[to] {
                reached[to] = true;
                open.push(to);
            }
        }
    }
    reached
}
