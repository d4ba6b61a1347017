//! Plans by what searches for closed walks of the wrong parity look at. All are Even's, as are all vertices.

use crate::{Lcg, Plan, Table};

/// One wrong priority; or one for each eight of p positions but eight, ascending, or descending.
pub fn one_step(_: usize) -> Vec<u16> {
    vec![1]
}

pub fn rising_steps(p: usize) -> Vec<u16> {
    (0..p as u16 / 8 - 1).map(|step| 2 * step + 1).collect()
}

pub fn falling_steps(p: usize) -> Vec<u16> {
    rising_steps(p).into_iter().rev().collect()
}

/// A plan of p positions whose links lead on to the next four. The steps have these priorities, and as many positions each.
/// The last position has a loop, and priority 0, or else the last step's, which is wrong: then it alone refuses the plan.
pub fn stairs(p: usize, steps: Vec<u16>, refused: bool) -> (Table, Plan) {
    let (count, last) = (steps.len() as u16, p as u16 - 1);
    let mut game = Table { priorities: steps, owners: vec![0; count as usize + 1], edges: vec![] };
    game.priorities.push(0);
    for step in 0..count {
        game.edges.extend([(step, step), (step, step + 1)]);
    }
    game.edges.push((count, count));
    let step = |i: usize| (i * count as usize / (p - 1)) as u16;
    let mut plan = Plan { vertices: (0..p).map(step).collect(), links: vec![(last, last)] };
    plan.vertices[p - 1] -= refused as u16;
    plan.links.extend((0..last).flat_map(|i| (1..=4).map(move |k| (i, last.min(i + k)))));
    (game, plan)
}

/// A plan of p positions, of which the first half have a link each, one wrong priority for each eight of p in turn, and
/// the others seven links among themselves and a higher, right one, that of the last vertex.
pub fn sources_into_core(p: usize) -> (Table, Plan) {
    let (mut lcg, mut priorities) = (Lcg::new(p as u64), rising_steps(p));
    let (core, half) = (priorities.len() as u16, p / 2);
    priorities.push(2 * core);
    let edges = (0..=core).map(|v| (v, core)).collect();
    let game = Table { priorities, owners: vec![0; core as usize + 1], edges };
    let vertex = |i: usize| if i < half { i as u16 % core } else { core };
    let links = |i: usize| if i < half { 1 } else { 7 };
    let mut plan = Plan { vertices: (0..p).map(vertex).collect(), links: vec![] };
    for i in 0..p {
        let to = |_| (i as u16, (half + lcg.below(p - half)) as u16);
        plan.links.extend((0..links(i)).map(to));
    }
    (game, plan)
}

/// A loop for each 16 of p positions: the first has a right priority, the others the next, which is wrong, and links to the
/// next and the first. The position `exit` of a loop leads into the next loop as well, and the last back to the loop before.
pub fn nested_loops(p: usize, exit: u16) -> (Table, Plan) {
    let loops = p as u16 / 16;
    let mut game = Table { priorities: (0..2 * loops).collect(), owners: vec![], edges: vec![] };
    game.owners = vec![0; game.n()];
    let vertex = |i: u16| i / 16 * 2 + (i % 16).min(1);
    let mut plan = Plan { vertices: (0..16 * loops).map(vertex).collect(), links: vec![] };
    for inner in 0..loops {
        let (first, right, wrong) = (16 * inner, 2 * inner, 2 * inner + 1);
        game.edges.extend([(right, wrong), (wrong, wrong), (wrong, right)]);
        plan.links.extend((first..first + 15).map(|i| (i, i + 1)));
        plan.links.extend((first + 1..first + 16).map(|i| (i, first)));
        if inner > 0 {
            let from = first - 16 + exit;
            game.edges.extend([(vertex(from), right), (wrong, right - 2)]);
            plan.links.extend([(from, first), (first + 15, first - 16)]);
        }
    }
    (game, plan)
}
