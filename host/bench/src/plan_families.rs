//! The families of plans and traces on which the calls are measured that judge plans, carry them or replay traces.

use crate::baseline::EDGES;
use crate::calls::Given;
use generator::{
    falling_steps, largest_plan, lift, nested_loops, one_step, random, rising_steps,
    round_of_loops, round_ring, solve, sources_into_core, stairs, trace_words, Lcg, Plan, Table,
};
use raskjomi::Game;

/// A call with a plan or a trace.
#[derive(Clone, Copy, Debug, PartialEq, Eq)]
pub enum Call {
    AcceptPlan,
    Carry,
    CarryClass,
    Replay,
    Verdict,
}

/// A game, the words of a plan or of a trace, whose plan it is, the vertex that is asked about, and the refusal.
pub struct Case {
    pub game: Vec<u16>,
    pub words: Vec<u16>,
    pub player: u32,
    pub vertex: u32,
    pub refusal: (u32, usize),
}

/// A family's call and name, its sizes, and its case of a size.
pub struct Family {
    pub call: Call,
    pub name: &'static str,
    pub sizes: [usize; 3],
    pub case: fn(usize) -> Case,
}

const fn family(
    call: Call,
    name: &'static str,
    sizes: [usize; 3],
    case: fn(usize) -> Case,
) -> Family {
    Family { call, name, sizes, case }
}

/// Sizes of plans by positions.
const POSITIONS: [usize; 3] = [256, 1024, 4096];
const ENTRIES: [usize; 3] = [16, 256, 4096];

pub const FAMILIES: [Family; 28] = [
    family(Call::AcceptPlan, "one wrong priority", POSITIONS, |p| steps(p, one_step, false)),
    family(Call::AcceptPlan, "the same, refused at the last", POSITIONS, |p| {
        steps(p, one_step, true)
    }),
    family(Call::AcceptPlan, "wrong priorities ascend", POSITIONS, |p| {
        steps(p, rising_steps, false)
    }),
    family(Call::AcceptPlan, "the same, refused at the last", POSITIONS, |p| {
        steps(p, rising_steps, true)
    }),
    family(Call::AcceptPlan, "wrong priorities descend", POSITIONS, |p| {
        steps(p, falling_steps, false)
    }),
    family(Call::AcceptPlan, "the same, refused at the last", POSITIONS, |p| {
        steps(p, falling_steps, true)
    }),
    family(Call::AcceptPlan, "sources into a core", POSITIONS, |p| of(sources_into_core(p))),
    family(Call::AcceptPlan, "nested loops", [256, 1024, 4000], |p| of(nested_loops(p, 0))),
    family(Call::AcceptPlan, "nearly all wrong, random links", [16, 128, 512], largest),
    family(Call::AcceptPlan, "positional, random", [8, 64, 512], |n| positional(random_game(n))),
    family(Call::AcceptPlan, "positional, lift", [8, 64, 512], |n| positional(lift(n))),
    family(Call::Carry, "round, n 4", [16, 256, 4096], |p| carried(4, p)),
    family(Call::Carry, "round, n 64", [64, 256, 4096], |p| carried(64, p)),
    family(Call::Carry, "round, n 512", [512, 1024, 4096], |p| carried(512, p)),
    family(Call::Carry, "positional, random", [4, 64, 512], |n| positional(random_game(n))),
    family(Call::Carry, "positional, lift", [8, 64, 512], |n| positional(lift(n))),
    family(Call::CarryClass, "round, n 4", [16, 256, 4096], |p| carried_loops(4, p)),
    family(Call::CarryClass, "round, n 64", [64, 256, 4096], |p| carried_loops(64, p)),
    family(Call::CarryClass, "round, n 512", [512, 1024, 4096], |p| carried_loops(512, p)),
    family(Call::CarryClass, "positional, random", [4, 64, 512], |n| of_reduced(random_game(n))),
    family(Call::CarryClass, "positional, lift", [8, 64, 512], |n| of_reduced(lift(n))),
    family(Call::Replay, "64 edges", ENTRIES, |entries| mixed(16, 64, entries)),
    family(Call::Replay, "1,024 edges", ENTRIES, |entries| mixed(128, 1024, entries)),
    family(Call::Replay, "4,096 edges", ENTRIES, |entries| mixed(512, 4096, entries)),
    family(Call::Verdict, "one class, 8 n loops", [8, 64, 512], |n| carried_loops(n, 8 * n * n)),
    family(Call::Verdict, "one wrong priority", POSITIONS, |p| steps(p, one_step, false)),
    family(Call::Verdict, "positional, random", [8, 64, 512], |n| of_reduced(random_game(n))),
    family(Call::Verdict, "positional, lift", [8, 64, 512], |n| of_reduced(lift(n))),
];

impl Case {
    /// Even's accepted case at vertex 0.
    fn even(game: &Table, plan: &Plan) -> Case {
        let (game, words, player) = (game.words(), plan.words(), raskjomi::EVEN);
        Case { game, words, player, vertex: 0, refusal: (0, 0) }
    }

    pub fn given(&self) -> Given<'_> {
        Given { player: self.player, plan: &self.words, vertex: self.vertex }
    }
}

/// The plan whose steps have these priorities, accepted or refused at the last position.
fn steps(p: usize, priorities: fn(usize) -> Vec<u16>, refused: bool) -> Case {
    let (game, plan) = stairs(p, priorities(p), refused);
    let refusal = if refused { (16, p - 1) } else { (0, 0) };
    Case { refusal, ..Case::even(&game, &plan) }
}

/// Even's accepted plan.
fn of((game, plan): (Table, Plan)) -> Case {
    Case::even(&game, &plan)
}

/// The largest plan on a game of n vertices.
fn largest(n: usize) -> Case {
    of(largest_plan(&mut Lcg::new(n as u64), n))
}

/// A random game of n vertices with two edges out of each on average.
fn random_game(n: usize) -> Table {
    random(&mut Lcg::new(n as u64), n, 2 * n, 8)
}

/// The largest plan, by its links, of a positional strategy on a game, and whose it is.
fn strategy(game: &Table) -> (Plan, u16) {
    let solution = solve(game);
    let plan = |vertex: usize| (solution.plan(game, vertex), solution.winner[vertex]);
    let plans = (0..game.n()).map(plan);
    plans.max_by_key(|(plan, _)| plan.links.len()).expect("a game has a vertex")
}

/// A positional strategy on a game, carried to where it starts.
fn positional(game: Table) -> Case {
    let (plan, player) = strategy(&game);
    let (player, vertex) = (player.into(), plan.vertices[0].into());
    Case { player, vertex, ..Case::even(&game, &plan) }
}

/// A positional strategy on the reduced game, at a vertex of the class where it starts.
fn of_reduced(game: Table) -> Case {
    let reduced = Game::new(game.words()).expect("the reader accepts the game").reduce();
    let (plan, player) = strategy(&Table::from_words(reduced.game.words()));
    let vertex = reduced.classes.iter().position(|&class| class == plan.vertices[0]);
    let vertex = vertex.expect("a class has a member") as u32;
    Case { player: player.into(), vertex, ..Case::even(&game, &plan) }
}

/// A plan on n vertices of Odd's, all alike, that has p positions once it is carried; and the same on the one class.
fn carried(n: usize, p: usize) -> Case {
    let (game, plan) = round_ring(n, 4, p / n, 0);
    Case::even(&game, &plan)
}

fn carried_loops(n: usize, p: usize) -> Case {
    let (game, _) = round_ring(n, 4, p / n, 0);
    Case::even(&game, &round_of_loops(p / n, 0..p / n))
}

/// A trace of so many entries on a random game: edges leave that may, and others arrive, in any sequence.
fn mixed(n: usize, m: usize, entries: usize) -> Case {
    let mut lcg = Lcg::new(entries as u64);
    let game = random(&mut lcg, n, m, 8);
    let (mut edges, mut trace) = (game.edges.clone(), vec![]);
    let mut degrees: Vec<usize> = game.successors().iter().map(Vec::len).collect();
    while trace.len() < entries {
        let edge = (lcg.below(n) as u16, lcg.below(n) as u16);
        let at = lcg.below(edges.len());
        let leaves = lcg.once_in(2) && degrees[edges[at].0 as usize] > 1;
        if leaves {
            degrees[edges[at].0 as usize] -= 1;
            trace.push(edges.swap_remove(at));
        } else if edges.len() < EDGES && !edges.contains(&edge) {
            degrees[edge.0 as usize] += 1;
            edges.push(edge);
            trace.push(edge);
        }
    }
    let words = trace_words(&trace);
    Case { game: game.words(), words, player: 0, vertex: 0, refusal: (0, 0) }
}
