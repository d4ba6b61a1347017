//! Plans to be carried to other vertices.

use crate::families::{complete, forced_ring};
use crate::{Lcg, Plan, Table};
use std::ops::Range;

/// The plan with `count` copies of each position and one or two links for each link, to copies drawn at
/// random. It wins exactly if the plan does.
pub fn branching(lcg: &mut Lcg, plan: &Plan, count: usize) -> Plan {
    let p = plan.vertices.len();
    let mut links = Vec::new();
    for copy in 0..count {
        for &(from, to) in &plan.links {
            for _ in 0..lcg.between(1, 2) {
                let target = lcg.below(count) * p + to as usize;
                links.push(((copy * p) as u16 + from, target as u16));
            }
        }
    }
    lcg.shuffle(&mut links);
    Plan { vertices: plan.vertices.repeat(count), links }
}

/// The game with all vertices the opponent's and of one priority, of the player's parity. There each
/// vertex is below each, and every plan that answers all moves wins.
pub fn opponents(mut game: Table, player: u16) -> Table {
    game.priorities.fill(player);
    game.owned_by(1 - player)
}

/// A plan of the opponent's game with these vertices. The first links lead from each position to the next
/// and, from the last in `round`, to the first in it; further links go to the lowest position at each
/// other successor. Where all vertices are alike, first links alone are followed.
pub fn round_plan(game: &Table, vertices: Vec<u16>, round: Range<usize>) -> Plan {
    let successors = game.successors();
    let mut links: Vec<(u16, u16)> = Vec::new();
    for (i, &vertex) in vertices.iter().enumerate() {
        let next = if i + 1 == round.end { round.start } else { i + 1 };
        let first = (i < round.end).then_some(next);
        links.extend(first.map(|next| (i as u16, next as u16)));
        for &w in &successors[vertex as usize] {
            if first.is_none_or(|next| vertices[next] as usize != w) {
                let lowest = vertices.iter().position(|&other| other as usize == w);
                links.push((i as u16, lowest.expect("each successor has a position") as u16));
            }
        }
    }
    Plan { vertices, links }
}

/// The plan that goes round through the vertices of a complete game, with so many positions.
pub fn round_complete(
    n: usize,
    positions: usize,
    round: Range<usize>,
    player: u16,
) -> (Table, Plan) {
    let game = opponents(complete(n), player);
    let vertices = (0..positions).map(|i| (i % n) as u16).collect();
    let plan = round_plan(&game, vertices, round);
    (game, plan)
}

/// A game of n vertices of the opponent's, each with edges to itself and to the next `degree - 1`, and a plan
/// that goes round through so many positions by the loop at 0. Carried, it has n times as many positions, and
/// `degree` links from each.
pub fn round_ring(n: usize, degree: usize, round: usize, player: u16) -> (Table, Plan) {
    let mut game = opponents(forced_ring(n, degree), player);
    game.edges.iter_mut().for_each(|edge| edge.1 = (edge.1 + n as u16 - 1) % n as u16);
    let vertices = [vec![0; round - 1], (0..n as u16).collect()].concat();
    let plan = round_plan(&game, vertices, 0..round);
    (game, plan)
}

/// The plan that goes round through so many positions on a game of one vertex with a loop.
pub fn round_of_loops(positions: usize, round: Range<usize>) -> Plan {
    round_plan(&complete(1), vec![0; positions], round)
}

/// A complete game of a few of the opponent's vertices, and how many positions a round has that, carried,
/// comes near the limits, or above one of them.
pub fn crowded(lcg: &mut Lcg, player: u16) -> (Table, usize) {
    let n = lcg.pick(&[3, 6, 8, 12, 16]);
    let most = (4_096 / n).min(16_384 / (n * n));
    (opponents(complete(n), player), lcg.between(most - most / 10, most + most / 5))
}
