//! Whether a vertex is below another and why: the passes are worked out here again, and held to the marks
//! and the pass count that the library gives.

use crate::commands::order_of;
use crate::failure::Failure;
use crate::graph::Graph;
use crate::progress::watch;
use crate::reason::{Ground, Reason};
use raskjomi::formats::Vertices;
use raskjomi::{Game, Order};
use std::collections::HashSet;

/// The pass of a pair that no pass unmarks.
const KEPT: u32 = u32::MAX;

/// The pass in which each pair falls: 0 for unequal priorities.
pub struct Passes {
    n: usize,
    fell: Vec<u32>,
    count: u32,
}

impl Passes {
    /// The passes over a game. A pass tests only the pairs of which a pair of successors fell in the one
    /// before: no other can fail.
    pub fn of(graph: &Graph) -> Passes {
        let n = graph.n();
        let mut predecessors = vec![Vec::new(); n];
        for (v, list) in graph.successors.iter().enumerate() {
            list.iter().for_each(|&w| predecessors[w].push(v));
        }
        let equal = |i: usize| graph.priorities[i / n] == graph.priorities[i % n];
        let fell = (0..n * n).map(|i| if equal(i) { KEPT } else { 0 }).collect();
        let mut passes = Passes { n, fell, count: 0 };
        let mut near: Vec<usize> = (0..n * n).filter(|&i| equal(i)).collect();
        let mut tested = vec![0; n * n];
        loop {
            passes.count += 1;
            let pass = passes.count;
            let kept = |v: usize, w: usize| passes.fell[v * n + w] == KEPT;
            near.retain(|&i| kept(i / n, i % n) && graph.cause(i / n, i % n, kept).is_some());
            if near.is_empty() {
                return passes;
            }
            let mut next = Vec::new();
            for i in near {
                passes.fell[i] = pass;
                for &v in &predecessors[i / n] {
                    for &w in &predecessors[i % n] {
                        if std::mem::replace(&mut tested[v * n + w], pass) != pass {
                            next.push(v * n + w);
                        }
                    }
                }
            }
            near = next;
        }
    }

    /// The pass in which a pair falls, if it does.
    pub fn pass(&self, v: usize, w: usize) -> Option<u32> {
        Some(self.fell[v * self.n + w]).filter(|&pass| pass != KEPT)
    }

    /// Whether they are those of the order that the library wrote.
    pub fn agree(&self, order: &Order) -> bool {
        let pairs = (0..self.n).flat_map(|v| (0..self.n).map(move |w| (v, w)));
        let mut pairs = pairs.map(|(v, w)| (self.pass(v, w).is_none(), order.has(v, w)));
        self.count == order.passes && pairs.all(|(kept, marked)| kept == marked)
    }
}

/// A game's vertices with the passes over it, which are those of the proved order.
pub struct Explained {
    graph: Graph,
    passes: Passes,
}

impl Explained {
    /// Works the passes out, and holds them to the order.
    pub fn new(game: &Game) -> Result<Explained, Failure> {
        let (graph, order) = (Graph::new(game), order_of(game));
        let _watch = watch("the explanation");
        let passes = Passes::of(&graph);
        match passes.agree(&order) {
            true => Ok(Explained { graph, passes }),
            false => Err(Failure::usage(
                "the passes that are worked out here aren't those of the proved order, so nothing is \
                 explained; the order stands, and this program has a fault: please report it with the game",
            )),
        }
    }

    /// What may be asked, of vertices that are called so.
    pub fn question<'a>(&'a self, vertices: &'a Vertices) -> Question<'a> {
        Question { graph: &self.graph, passes: &self.passes, vertices }
    }
}

/// What is asked: a pair, in a game with its passes.
#[derive(Clone, Copy)]
pub struct Question<'a> {
    pub graph: &'a Graph,
    pub passes: &'a Passes,
    pub vertices: &'a Vertices,
}

impl Question<'_> {
    /// Whether v is below w.
    pub fn is_below(&self, v: usize, w: usize) -> bool {
        self.passes.pass(v, w).is_none()
    }

    /// A vertex's priority as the file has it.
    pub fn priority(&self, vertex: usize) -> u32 {
        self.vertices.priority(self.graph.priorities[vertex])
    }

    /// Why v is below w, or isn't.
    pub fn reason(&self, v: usize, w: usize) -> Reason {
        let Some(pass) = self.passes.pass(v, w) else {
            let same = v == w;
            let below = |x: usize, y: usize| self.is_below(x, y);
            let rests_on = if same { Vec::new() } else { self.graph.matches(v, w, below) };
            let ground = if same { Ground::Same } else { Ground::Matched };
            return Reason { v, w, ground, rests_on };
        };
        let not_yet = |x: usize, y: usize| {
            self.passes.pass(x, y).is_none_or(|earlier| earlier >= pass.max(1))
        };
        let cause = self.graph.cause(v, w, not_yet).expect("a pair that fell has a cause");
        let rests_on = self.graph.unrelated(v, w, cause);
        Reason { v, w, ground: Ground::Parted { pass, cause }, rests_on }
    }

    /// Why v is below w; or why it isn't, with the reason of each pair that this rests on, down to unequal priorities.
    pub fn reasons(&self, v: usize, w: usize) -> Vec<Reason> {
        let mut reasons = vec![self.reason(v, w)];
        let (mut told, mut next) = (HashSet::from([(v, w)]), 0);
        while !self.is_below(v, w) && next < reasons.len() {
            let pairs = reasons[next].rests_on.iter().copied();
            let open = pairs.filter(|&(x, y)| self.passes.pass(x, y) != Some(0));
            let open: Vec<(usize, usize)> = open.filter(|&pair| told.insert(pair)).collect();
            reasons.extend(open.into_iter().map(|(x, y)| self.reason(x, y)));
            next += 1;
        }
        reasons
    }

    /// Whether a pair that a reason rests on is in the order, in words; where it isn't, with its pass or its priorities.
    pub fn said(&self, x: usize, y: usize) -> String {
        let [x_is, y_is] = [x, y].map(|vertex| self.vertices.label(vertex));
        match self.passes.pass(x, y) {
            None => format!("{x_is} is below {y_is}"),
            Some(0) => {
                let [p, q] = [x, y].map(|vertex| self.priority(vertex));
                format!("{x_is} isn't below {y_is} (priorities {p} and {q})")
            }
            Some(pass) => format!("{x_is} isn't below {y_is} (pass {pass})"),
        }
    }

    /// Whether v is below w, as a sentence.
    pub fn claim(&self, v: usize, w: usize) -> String {
        let [v_is, w_is] = [v, w].map(|vertex| self.vertices.label(vertex));
        let is = if self.is_below(v, w) { "is" } else { "isn't" };
        format!("Vertex {v_is} {is} below vertex {w_is}.")
    }

    /// Whether v is below w, and why, as sentences.
    pub fn answer(&self, v: usize, w: usize) -> String {
        let sentences = self.reasons(v, w).into_iter().map(|reason| reason.sentence(self) + "\n");
        let sentences: String = sentences.collect();
        let behind = if self.is_below(v, w) { " " } else { "\n" };
        format!("{}{behind}{sentences}", self.claim(v, w))
    }
}
