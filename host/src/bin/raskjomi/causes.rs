//! Why a relation or a plan is refused, in words: the failing successor, the missing one, the walk.

use crate::graph::{Cause, Graph};
use raskjomi::formats::Vertices;
use raskjomi::{is_marked, Game, Plan};
use std::collections::VecDeque;

/// The most positions of a walk that a message shows.
const SHOWN: usize = 12;

/// Why a pair of the relation fails: refusal 10.
pub fn of_pair(game: &Game, vertices: &Vertices, marks: &[u8], v: usize, w: usize) -> String {
    let (graph, n) = (Graph::new(game), game.size().vertices);
    let related = |x, y| is_marked(marks, n, x, y);
    let [v_is, w_is] = [v, w].map(|vertex| vertices.label(vertex));
    match graph.cause(v, w, related) {
        Some(Cause::Priorities) => {
            let [p, q] = [v, w].map(|vertex| vertices.priority(graph.priorities[vertex]));
            format!("vertex {v_is} has priority {p} and vertex {w_is} has priority {q}")
        }
        Some(Cause::Source(x)) => {
            let (x, others) = (vertices.label(x), vertices.listed(&graph.successors[w]));
            format!("{x}, a successor of {v_is}, has no mark with a successor of {w_is}: {others}")
        }
        Some(Cause::Target(y)) => {
            let (y, others) = (vertices.label(y), vertices.listed(&graph.successors[v]));
            format!("no successor of {v_is} ({others}) has a mark with {y}, a successor of {w_is}")
        }
        Some(Cause::Both(x, y)) => {
            let [x, y] = [x, y].map(|vertex| vertices.label(vertex));
            format!("{x}, a successor of {v_is}, has no mark with {y}, a successor of {w_is}")
        }
        Some(Cause::Each) => {
            let [of_v, of_w] = [v, w].map(|vertex| vertices.listed(&graph.successors[vertex]));
            format!("no successor of {v_is} ({of_v}) has a mark with one of {w_is} ({of_w})")
        }
        None => format!("its reverse, the pair {w_is}, {v_is}, has no mark"),
    }
}

/// The vertex of a position.
fn vertex(plan: &Plan, position: usize) -> usize {
    plan.positions()[position].into()
}

/// The positions that a position's links lead to.
fn next(plan: &Plan, position: usize) -> impl Iterator<Item = usize> + '_ {
    let links = plan.links().filter(move |&(source, _)| usize::from(source) == position);
    links.map(|(_, target)| target.into())
}

/// The link that a position lacks: refusal 15.
pub fn of_missing(game: &Game, vertices: &Vertices, plan: &Plan, position: usize) -> String {
    let graph = Graph::new(game);
    let successors = &graph.successors[vertex(plan, position)];
    let reached: Vec<usize> = next(plan, position).map(|to| vertex(plan, to)).collect();
    match successors.iter().find(|vertex| !reached.contains(vertex)) {
        Some(&missing) if !reached.is_empty() => {
            format!("it has no link to a position at vertex {}", vertices.label(missing))
        }
        _ => format!("it has no link; its vertex leads to {}", vertices.listed(successors)),
    }
}

/// A closed walk through the position that never goes below its priority: refusal 16.
pub fn of_walk(game: &Game, vertices: &Vertices, plan: &Plan, start: usize) -> String {
    let priority = |position: usize| game.priority(vertex(plan, position));
    let mut from = vec![None; plan.positions().len()];
    let mut found = VecDeque::from([start]);
    while let Some(position) = found.pop_front() {
        for next in next(plan, position) {
            if from[next].is_none() && priority(next) >= priority(start) {
                from[next] = Some(position);
                found.push_back(next);
            }
        }
    }
    let mut walk = vec![start];
    while let Some(before) = from[walk[walk.len() - 1]] {
        walk.push(before);
        if before == start {
            break;
        }
    }
    walk.reverse();
    let mut steps: Vec<String> =
        walk.iter().map(|&position| vertices.label(vertex(plan, position))).collect();
    let (links, lowest) = (steps.len() - 1, vertices.priority(priority(start)));
    if steps.len() > SHOWN {
        steps.drain(SHOWN / 2..steps.len() - SHOWN / 2);
        steps.insert(SHOWN / 2, "..".into());
    }
    let links = if links == 1 { "1 link".into() } else { format!("{links} links") };
    let decides = match vertices.even() {
        Some(_) => format!("highest priority {lowest} in the file"),
        None => format!("lowest priority {lowest}"),
    };
    format!("a walk of {links} by vertices {}, with {decides}", steps.join(" -> "))
}
