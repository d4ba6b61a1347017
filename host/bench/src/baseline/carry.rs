//! Plans carried to another vertex: a search through pairs of a position and a vertex.

use super::bits::Pairs;
use super::found::Found;
use super::game::Game;
use super::index::Index;
use super::reduction::{lengths, reduce};
use super::rounds::write_order;
use super::{plan, reader, refused, EDGES, STARTS, VERTICES};
use raskjomi::exports::RaskjomiAnswer;
use raskjomi::{is_marked, mark_bytes};

/// Lists the successors of each vertex, ascending, each once.
pub type List = fn(&[u16], &mut [u16; STARTS], &mut [u16; EDGES]);

/// How the carrying is done.
pub trait Ways {
    /// Writes the order of a game, once its plan is accepted.
    fn order(
        game: &[u16],
        player: u32,
        plan: &[u16],
        marks: &mut [u8],
        spare: &mut [u8],
    ) -> Result<(), RaskjomiAnswer>;

    fn reduce(
        game: &[u16],
        marks: &mut [u8],
        spare: &mut [u8],
        classes: &mut [u16],
        output: &mut [u16],
    ) -> RaskjomiAnswer;

    /// Judges a plan of a game of so many vertices and edges, which is accepted.
    fn judge(
        game: &[u16],
        sizes: (usize, usize),
        player: u32,
        plan: &[u16],
    ) -> Result<(), RaskjomiAnswer>;

    /// Writes the plan of one game, carried to a vertex of another.
    fn write(carrying: &Carrying, output: &mut [u16]) -> Result<RaskjomiAnswer, RaskjomiAnswer>;
}

/// The library's ways.
pub struct Same;

impl Ways for Same {
    fn order(
        game: &[u16],
        player: u32,
        plan: &[u16],
        marks: &mut [u8],
        spare: &mut [u8],
    ) -> Result<(), RaskjomiAnswer> {
        let (n, m) = reader::read(game)?;
        let bytes = mark_bytes(n);
        lengths(&[marks.len(), spare.len()], &[bytes; 2])?;
        plan::judge(game, (n, m), player, plan)?;
        let (mut starts, mut places) = ([0; STARTS], [0; EDGES]);
        let parts = Game::new(game, n, m, &mut starts, &mut places);
        write_order(&parts, &mut marks[..bytes], &mut spare[..bytes]);
        Ok(())
    }

    fn reduce(
        game: &[u16],
        marks: &mut [u8],
        spare: &mut [u8],
        classes: &mut [u16],
        output: &mut [u16],
    ) -> RaskjomiAnswer {
        reduce(write_order, game, marks, spare, classes, output)
    }

    fn judge(
        game: &[u16],
        sizes: (usize, usize),
        player: u32,
        plan: &[u16],
    ) -> Result<(), RaskjomiAnswer> {
        plan::judge(game, sizes, player, plan)
    }

    fn write(carrying: &Carrying, output: &mut [u16]) -> Result<RaskjomiAnswer, RaskjomiAnswer> {
        carrying.write::<4096, 16384, 4097, false>(ascending, output)
    }
}

/// The carrying within a game, as the library's call of this name.
pub fn carry<W: Ways>(
    game: &[u16],
    player: u32,
    plan: &[u16],
    vertex: u32,
    marks: &mut [u8],
    spare: &mut [u8],
    output: &mut [u16],
) -> RaskjomiAnswer {
    if let Err(refusal) = W::order(game, player, plan, marks, spare) {
        return refusal;
    }
    let mut same = [0; VERTICES];
    (0..game[0]).for_each(|v| same[v as usize] = v);
    let n = game[0].into();
    let order = Order { marks, n, stands_for: &same, turned: player == raskjomi::ODD };
    let carrying = Carrying { from: game, to: game, player, plan, vertex: vertex as usize, order };
    W::write(&carrying, output).unwrap_or_else(|refusal| refusal)
}

/// The carrying from the reduced game, as the library's call of this name.
#[allow(clippy::too_many_arguments)]
pub fn carry_class<W: Ways>(
    game: &[u16],
    player: u32,
    plan: &[u16],
    vertex: u32,
    marks: &mut [u8],
    spare: &mut [u8],
    classes: &mut [u16],
    reduction: &mut [u16],
    output: &mut [u16],
) -> RaskjomiAnswer {
    let counts = W::reduce(game, marks, spare, classes, reduction);
    if counts.number != 0 {
        return counts;
    }
    let (n, k, e) = (game[0] as usize, counts.vertices as usize, counts.edges as usize);
    let from = &reduction[..2 + 2 * k + 2 * e];
    let mut lowest = [0; VERTICES];
    (0..n).rev().for_each(|v| lowest[classes[v] as usize] = v as u16);
    let order = Order { marks, n, stands_for: &lowest, turned: player == raskjomi::ODD };
    let carrying = Carrying { from, to: game, player, plan, vertex: vertex as usize, order };
    let judged = W::judge(from, (k, e), player, plan);
    match judged.and_then(|()| W::write(&carrying, output)) {
        Ok(RaskjomiAnswer { positions, links, .. }) => {
            RaskjomiAnswer { positions, links, passes: 0, ..counts }
        }
        Err(refusal) => refusal,
    }
}

/// The order that the player needs.
struct Order<'a> {
    marks: &'a [u8],
    n: usize,
    /// The vertex as which each vertex of the plan's game compares.
    stands_for: &'a [u16; VERTICES],
    turned: bool,
}

impl Order<'_> {
    fn keeps(&self, old: u16, new: u16) -> bool {
        let (old, new) = (self.stands_for[old as usize] as usize, new as usize);
        let (v, w) = if self.turned { (new, old) } else { (old, new) };
        is_marked(self.marks, self.n, v, w)
    }
}

/// A plan of one game, which is accepted, and the vertex of another to which it is carried.
pub struct Carrying<'a> {
    pub from: &'a [u16],
    pub to: &'a [u16],
    player: u32,
    pub plan: &'a [u16],
    vertex: usize,
    order: Order<'a>,
}

impl Carrying<'_> {
    /// Writes the plan that starts at the vertex. The old one has fewer than HEADS positions and at most L links.
    pub fn write<const P: usize, const L: usize, const HEADS: usize, const HASHED: bool>(
        &self,
        list: List,
        output: &mut [u16],
    ) -> Result<RaskjomiAnswer, RaskjomiAnswer> {
        let Carrying { plan, vertex, ref order, .. } = *self;
        if vertex >= order.n || !order.keeps(plan[2], vertex as u16) {
            return Err(refused(33, vertex));
        }
        let (p, l) = (plan[0] as usize, plan[1] as usize);
        let (sources, targets) = plan[2 + p..].split_at(l);
        let (mut firsts, mut grouped) = ([0; HEADS], [0; L]);
        let links = Index::build(sources, targets, &mut firsts[..p + 1], &mut grouped);
        let mut found = Found::<P, L, HEADS, HASHED>::nothing();
        found.number(0, vertex as u16)?;
        self.search(&links, list, &mut found)?;
        found.write(output)
    }

    /// Answers each pair that is found, until no more are.
    fn search<const P: usize, const L: usize, const HEADS: usize, const HASHED: bool>(
        &self,
        links: &Index,
        list: List,
        found: &mut Found<P, L, HEADS, HASHED>,
    ) -> Result<(), RaskjomiAnswer> {
        let Carrying { from, to, player, plan, ref order, .. } = *self;
        let (mut starts, mut places) = ([0; STARTS], [0; EDGES]);
        list(to, &mut starts, &mut places);
        let vertices = &plan[2..2 + plan[0] as usize];
        let mine = |game: &[u16], v: u16| game[2 + game[0] as usize + v as usize] as u32 == player;
        let mut at = 0;
        while at < found.p {
            let (i, u) = (found.positions[at], found.vertices[at]);
            let all = links.of(i as usize);
            let usable = if mine(from, vertices[i as usize]) { &all[..1] } else { all };
            let successors = &places[starts[u as usize] as usize..starts[u as usize + 1] as usize];
            for &x in successors {
                let answer = usable.iter().find(|&&j| order.keeps(vertices[j as usize], x));
                if let Some(&j) = answer {
                    found.link(at, j, x)?;
                    if mine(to, u) {
                        break;
                    }
                }
            }
            at += 1;
        }
        Ok(())
    }
}

/// The successors of each vertex, ascending, each once.
fn ascending(game: &[u16], starts: &mut [u16; STARTS], places: &mut [u16; EDGES]) {
    let (n, m) = (game[0] as usize, game[1] as usize);
    let (sources, targets) = game[2 + 2 * n..].split_at(m);
    let mut edges = Pairs::NONE;
    for (&source, &target) in sources.iter().zip(targets) {
        edges.insert(source as usize * n + target as usize);
    }
    let mut end = 0;
    for v in 0..n {
        for w in (0..n).filter(|&w| edges.has(v * n + w)) {
            places[end] = w as u16;
            end += 1;
        }
        starts[v + 1] = end as u16;
    }
}
