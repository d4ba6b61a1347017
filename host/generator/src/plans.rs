//! Plans: strategies given as graphs of positions and links.

use crate::families::forced_ring;
use crate::{Lcg, Solution, Table};
use std::collections::HashMap;

/// The vertex of each position, and the links between positions.
#[derive(Clone, Debug, PartialEq, Eq)]
pub struct Plan {
    pub vertices: Vec<u16>,
    pub links: Vec<(u16, u16)>,
}

impl Plan {
    /// The words of the plan.
    pub fn words(&self) -> Vec<u16> {
        let mut words = vec![self.vertices.len() as u16, self.links.len() as u16];
        words.extend(&self.vertices);
        words.extend(self.links.iter().map(|link| link.0));
        words.extend(self.links.iter().map(|link| link.1));
        words
    }
}

/// The plan of a positional strategy for the player from `start`: at own vertices one link, to
/// `choice`, and at the opponent's one for each successor.
pub fn strategy_plan(game: &Table, player: u16, start: usize, choice: &[usize]) -> Plan {
    let successors = game.successors();
    let mut position = HashMap::from([(start, 0)]);
    let mut plan = Plan { vertices: vec![start as u16], links: vec![] };
    let mut at = 0;
    while at < plan.vertices.len() {
        let v = plan.vertices[at] as usize;
        let own = [choice[v]];
        let moves = if game.owners[v] == player { &own[..] } else { &successors[v][..] };
        for &next in moves {
            let to = *position.entry(next).or_insert_with(|| {
                plan.vertices.push(next as u16);
                plan.vertices.len() - 1
            });
            plan.links.push((at as u16, to as u16));
        }
        at += 1;
    }
    plan
}

/// The plan with `count` copies of each position; each copy's links lead to copies drawn at
/// random. Closed walks run over the same vertices as before, so it wins exactly if the plan does.
pub fn unfolded(lcg: &mut Lcg, plan: &Plan, count: usize) -> Plan {
    let p = plan.vertices.len();
    let mut links = Vec::new();
    for copy in 0..count {
        for &(from, to) in &plan.links {
            let target = lcg.below(count) * p + to as usize;
            links.push(((copy * p) as u16 + from, target as u16));
        }
    }
    lcg.shuffle(&mut links);
    Plan { vertices: plan.vertices.repeat(count), links }
}

/// The same plan with other position numbers and another sequence of links.
pub fn renumbered(lcg: &mut Lcg, plan: &Plan) -> Plan {
    let mut number: Vec<u16> = (0..plan.vertices.len() as u16).collect();
    lcg.shuffle(&mut number);
    let mut renumbered = plan.clone();
    for (&place, &vertex) in number.iter().zip(&plan.vertices) {
        renumbered.vertices[place as usize] = vertex;
    }
    for link in &mut renumbered.links {
        *link = (number[link.0 as usize], number[link.1 as usize]);
    }
    lcg.shuffle(&mut renumbered.links);
    renumbered
}

/// A game of n vertices, all Odd's, and Even's plan of 4,096 positions and 16,384 links for it. n divides
/// 4,096. All positions but a few have the wrong parity and none lies on a bad walk.
pub fn largest_plan(lcg: &mut Lcg, n: usize) -> (Table, Plan) {
    let mut game = forced_ring(n, 4);
    game.owners.fill(1);
    game.priorities[4..].fill(1);
    let all = strategy_plan(&game, 0, 0, &vec![0; n]);
    let plan = unfolded(lcg, &all, 4_096 / n);
    (game, plan)
}

/// A game of one vertex with a loop, the player's and of the player's parity, and plans for it at the limits
/// of positions and links and one beyond, with whether the plan is within both. But for the limits each
/// wins: every position has a link to itself, and further links are repeats.
pub fn plans_at_limits(player: u16) -> (Table, Vec<(Plan, bool)>) {
    let game = Table { priorities: vec![player], owners: vec![player], edges: vec![(0, 0)] };
    let loops = |p: u16, l: u16| Plan {
        vertices: vec![0; p.into()],
        links: (0..l).map(|j| (j % p, j % p)).collect(),
    };
    let within = [(4_096, 4_096), (1, 16_384), (4_096, 16_384)];
    let beyond = [(4_097, 4_097), (1, 16_385), (4_097, 16_384), (4_096, 16_385)];
    let within = within.map(|(p, l)| (loops(p, l), true));
    let beyond = beyond.map(|(p, l)| (loops(p, l), false));
    (game, within.into_iter().chain(beyond).collect())
}

impl Solution {
    /// The winner's plan from a vertex.
    pub fn plan(&self, game: &Table, vertex: usize) -> Plan {
        strategy_plan(game, self.winner[vertex], vertex, &self.choice)
    }
}
