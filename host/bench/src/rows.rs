//! The benchmark's games.

use crate::edits::Change;
use generator::{
    chain, largest_plan, random, rings, round_complete, round_of_loops, round_ring, tailed_rings,
    trace_words, watched_rings, Lcg, Plan, Table,
};

/// How the names of the rows begin that are compared with plain passes at the end.
pub const WATCHED: &str = "two rings watched";

/// What a row calls.
pub enum Work {
    /// The reduced game.
    Reduce,
    /// Even's plan.
    AcceptPlan(Vec<u16>),
    /// Even's plan, carried to vertex 0.
    Carry(Vec<u16>),
    /// The same from the reduced game.
    CarryClass(Vec<u16>),
    /// Even's plan on the reduced game, for vertex 0.
    Verdict(Vec<u16>),
    /// The game, converted.
    Convert,
    /// The game by a seed, of so many vertices, edges out of each, and priorities.
    Seed([u32; 4]),
    /// An edge added to the game or removed from it.
    Edit(Change),
    /// The same on a copy.
    Preview(Change),
    /// A trace replayed in it.
    Replay(Vec<u16>),
}

/// A row of the table.
pub struct Row {
    pub name: String,
    pub game: Vec<u16>,
    pub work: Work,
    /// The family of which there is a game of 256 vertices and one of 512.
    pub family: Option<String>,
}

impl Row {
    fn new(name: &str, game: &Table, work: Work) -> Row {
        Row { name: name.to_string(), game: game.words(), work, family: None }
    }

    fn reduce(name: &str, game: Table) -> Row {
        Row::new(name, &game, Work::Reduce)
    }

    /// The row as one of a family that has its name.
    fn in_family(self) -> Row {
        Row { family: Some(self.name.clone()), ..self }
    }

    fn seed(numbers: [u32; 4]) -> Row {
        let [seed, n, degree, priorities] = numbers;
        let mut game = vec![0; 2 + 2 * n as usize + 2 * (n * degree) as usize];
        raskjomi::seed(seed, n, degree, priorities, &mut game).expect("numbers within the limits");
        let name = format!("seed, priorities {priorities}");
        Row { name, game, work: Work::Seed(numbers), family: None }
    }
}

/// Both ways to carry a plan on Odd's complete game of n vertices that goes round through so many
/// positions. The classes are one, so there the round is of loops.
fn carried(n: usize, round: usize) -> [Row; 2] {
    let (game, plan) = round_complete(n, round.max(n), 0..round, 0);
    both_ways(&game, &plan, round)
}

/// Both ways to carry a plan on Odd's game that goes round through so many positions, to all vertices.
fn both_ways(game: &Table, plan: &Plan, round: usize) -> [Row; 2] {
    let (p, loops) = (game.n() * round, round_of_loops(round, 0..round));
    [
        Row::new(&format!("carry, p {p}"), game, Work::Carry(plan.words())),
        Row::new(&format!("carry_class, p {p}"), game, Work::CarryClass(loops.words())),
    ]
}

/// The largest plan on a game of n vertices.
fn largest(lcg: &mut Lcg, n: usize) -> Row {
    let (game, plan) = largest_plan(lcg, n);
    Row::new("largest plan", &game, Work::AcceptPlan(plan.words())).in_family()
}

/// The largest carry to a game of n vertices: 4,096 positions and 16,384 links.
fn largest_carry(n: usize) -> [Row; 2] {
    let round = 4096 / n;
    let (game, plan) = round_ring(n, 4, round, 0);
    both_ways(&game, &plan, round).map(Row::in_family)
}

/// The verdict on a game of n vertices that are one class, by a plan of 4,096 positions.
fn verdict(n: usize) -> Row {
    let (game, _) = round_ring(n, 4, 4096 / n, 0);
    let plan = round_of_loops(4096, 0..4096);
    Row::new("verdict, p 4096", &game, Work::Verdict(plan.words())).in_family()
}

/// Random games of n vertices, with so many edges out of each on average, and 1, 2 and 8 priorities.
fn randoms(lcg: &mut Lcg, n: usize, degree: usize) -> [Row; 3] {
    [1, 2, 8].map(|priorities| {
        let name = format!("random, priorities {priorities}");
        let row = Row::reduce(&name, random(lcg, n, n * degree, priorities));
        Row { family: Some(format!("{name}, degree {degree}")), ..row }
    })
}

/// Two rings that are watched, as each player's.
fn watched(p: usize, q: usize, watchers: usize) -> [Row; 2] {
    [(0, "Even"), (1, "Odd")].map(|(player, owner)| {
        let game = watched_rings(p, q, watchers).owned_by(player);
        Row::reduce(&format!("{WATCHED}, {owner}"), game).in_family()
    })
}

/// An edge that arrives in a random game, and one that leaves it; and the previews of both.
fn edited(lcg: &mut Lcg, n: usize, m: usize) -> [Row; 4] {
    let game = random(lcg, n, m, 8);
    let absent = (0..n as u16).find(|&target| !game.edges.contains(&(0, target)));
    let absent = absent.expect("a vertex without an edge from 0") as u32;
    let (source, target) = (game.edges[m / 2].0 as u32, game.edges[m / 2].1 as u32);
    let arrives = Change { source: 0, target: absent, add: true };
    let leaves = Change { source, target, add: false };
    let row = |name: &str, work| Row::new(name, &game, work);
    [
        row("add_edge", Work::Edit(arrives)),
        row("remove_edge", Work::Edit(leaves)),
        row("preview_add", Work::Preview(arrives)),
        row("preview_remove", Work::Preview(leaves)),
    ]
}

/// As many entries as there may be, on a table of as many edges: an edge goes and comes back, and so the next.
fn replayed(lcg: &mut Lcg) -> Row {
    let game = random(lcg, 256, 4096, 8);
    let stays = |edge: &&(u16, u16)| {
        let others = game.edges.iter().filter(|other| other.0 == edge.0);
        others.filter(|other| other.1 != edge.1).count() > 0
    };
    let once = |edge: &&(u16, u16)| game.edges.iter().filter(|other| other == edge).count() == 1;
    let edges: Vec<(u16, u16)> = game.edges.iter().filter(stays).filter(once).copied().collect();
    let entries: Vec<(u16, u16)> = (0..4096).map(|i| edges[i / 2 % edges.len()]).collect();
    Row::new("replay, 4,096 entries", &game, Work::Replay(trace_words(&entries)))
}

/// All rows: those of at most 256 vertices, then those of 512.
pub fn rows() -> Vec<Row> {
    let mut lcg = Lcg::new(2024);
    let mut rows = at_most_256(&mut lcg);
    rows.extend(of_512(&mut lcg));
    rows
}

/// Random games, a chain, the largest plan, plans carried to the limits, the largest game by a seed, the largest
/// game converted, edits of one below the limit and their previews, a trace replayed at the limits, and rings of
/// coprime lengths.
fn at_most_256(lcg: &mut Lcg) -> Vec<Row> {
    let mut rows = Vec::new();
    for (n, degree) in [(64, 2), (64, 16), (64, 64), (256, 2), (256, 4), (256, 16)] {
        rows.extend(randoms(lcg, n, degree));
    }
    rows.push(Row::reduce("chain", chain(256)).in_family());
    rows.push(largest(lcg, 256));
    rows.extend([carried(4, 1024), carried(64, 4)].into_iter().flatten());
    rows.push(Row::seed([1, 256, 16, 8]));
    rows.push(Row::new("convert", &random(lcg, 256, 4096, 8), Work::Convert));
    rows.extend(edited(lcg, 256, 4095));
    rows.push(replayed(&mut Lcg::new(9)));
    rows.push(Row::reduce("two rings", rings(&[127, 128])).in_family());
    rows.push(Row::reduce("four rings", rings(&[59, 61, 62, 63])));
    rows.push(Row::reduce("five rings", tailed_rings(&[23, 25, 26, 27, 29], 256)).in_family());
    rows.extend(watched(109, 113, 16));
    // Beside the rows of 512 vertices and 4,096 edges.
    rows.extend(randoms(lcg, 256, 8));
    rows.extend(largest_carry(256));
    rows.push(verdict(256));
    rows
}

/// The same families at 512 vertices.
fn of_512(lcg: &mut Lcg) -> Vec<Row> {
    let mut rows = Vec::new();
    for degree in [2, 4, 8] {
        rows.extend(randoms(lcg, 512, degree));
    }
    rows.push(Row::reduce("chain", chain(512)).in_family());
    rows.push(largest(lcg, 512));
    rows.extend(largest_carry(512));
    rows.push(verdict(512));
    rows.push(Row::reduce("two rings", rings(&[255, 256])).in_family());
    rows.push(Row::reduce("five rings", tailed_rings(&[49, 51, 52, 53, 55], 512)).in_family());
    rows.extend(watched(247, 251, 6));
    rows
}
