//! The plan acceptor: edges as rows of bits, memory by the plan's size, and closed walks by searches and components.

use super::reader;
use super::walks::Walks;
use crate::baseline::bits::Row;
use crate::baseline::index::Index;
use crate::baseline::plan::sizes;
use crate::baseline::{refused, VERTICES};
use raskjomi::exports::RaskjomiAnswer;

/// The plan acceptor, as the library's call of this name. The patient one searches longer before it goes by components.
pub fn accept_plan<const PATIENT: bool>(game: &[u16], player: u32, plan: &[u16]) -> RaskjomiAnswer {
    let judged = reader::read(game).and_then(|sizes| judge::<PATIENT>(game, sizes, player, plan));
    judged.err().unwrap_or_default()
}

/// Refusal 8, and 11 to 16, on a game that has no refusal below 8.
pub fn judge<const PATIENT: bool>(
    game: &[u16],
    sizes: (usize, usize),
    player: u32,
    plan: &[u16],
) -> Result<(), RaskjomiAnswer> {
    by_width!(sizes.0, by_rows[PATIENT](game, sizes.0, player, plan))
}

/// The same by rows of so many words.
fn by_rows<const WORDS: usize, const ROWS: usize, const PATIENT: bool>(
    game: &[u16],
    n: usize,
    player: u32,
    plan: &[u16],
) -> Result<(), RaskjomiAnswer> {
    let successors: [Row<WORDS>; ROWS] = reader::successors(game);
    match successors[..n].iter().position(|row| row.is_empty()) {
        Some(vertex) => Err(refused(8, vertex)),
        None => judge_by::<WORDS, ROWS, PATIENT>(&successors, game, player, plan),
    }
}

/// Refusals 11 to 16, on an accepted game with these rows of successors.
pub fn judge_by<const WORDS: usize, const ROWS: usize, const PATIENT: bool>(
    successors: &[Row<WORDS>; ROWS],
    game: &[u16],
    player: u32,
    plan: &[u16],
) -> Result<(), RaskjomiAnswer> {
    if player > 1 {
        return Err(refused(11, 0));
    }
    let (p, l) = sizes(plan)?;
    reader::below(plan, 2..2 + p, game[0].into(), 13)?;
    reader::below(plan, 2 + p..plan.len(), p, 13)?;
    let (vertices, links) = plan[2..].split_at(p);
    let (sources, targets) = links.split_at(l);
    let vertex = |&position: &u16| vertices[position as usize] as usize;
    let along = |(source, target)| successors[vertex(source)].has(vertex(target));
    if let Some(link) = sources.iter().zip(targets).position(|link| !along(link)) {
        return Err(refused(14, link));
    }
    let degree = |vertex: usize| successors[vertex].len() as u16;
    let plan = Plan { vertices, sources, targets };
    match (p, l) {
        (..128, ..=512) => plan.judge::<128, 512, PATIENT>(game, player, &degree),
        (..1024, ..=4096) => plan.judge::<1024, 4096, PATIENT>(game, player, &degree),
        _ => plan.judge::<4097, 16384, PATIENT>(game, player, &degree),
    }
}

/// A plan whose links follow edges.
struct Plan<'a> {
    vertices: &'a [u16],
    sources: &'a [u16],
    targets: &'a [u16],
}

impl Plan<'_> {
    /// Refusals 15 and 16, of fewer than P positions and at most L links. A degree counts different successors.
    fn judge<const P: usize, const L: usize, const PATIENT: bool>(
        &self,
        game: &[u16],
        player: u32,
        degree: &dyn Fn(usize) -> u16,
    ) -> Result<(), RaskjomiAnswer> {
        let p = self.vertices.len();
        let (mut starts, mut places) = ([0; P], [0; L]);
        let next = Index::build(self.sources, self.targets, &mut starts[..p + 1], &mut places);
        let (priorities, owners) = game[2..].split_at(game[0].into());
        let own = |vertex: usize| u32::from(owners[vertex]) == player;
        if let Some(i) = self.lacking(&next, own, degree) {
            return Err(refused(15, i));
        }
        let mut ranks = [0; P];
        for (rank, &vertex) in ranks.iter_mut().zip(self.vertices) {
            *rank = priorities[vertex as usize];
        }
        let walks = Walks::<P> { priorities: &ranks[..p], next: &next, player: player as u16 };
        walks.first_bad::<PATIENT>(self.targets.len()).map_or(Ok(()), |i| Err(refused(16, i)))
    }

    /// The first position that lacks a link: an own one without any, another one with links to fewer vertices than its
    /// vertex has successors.
    fn lacking(
        &self,
        next: &Index,
        own: impl Fn(usize) -> bool,
        degree: &dyn Fn(usize) -> u16,
    ) -> Option<usize> {
        // A stamp on a vertex tells that the position at hand has a link to it. A degree is 0 until it is asked for.
        let (mut stamps, mut degrees) = ([0; VERTICES], [0; VERTICES]);
        let lacks = |(i, &vertex): (usize, &u16)| {
            let links = next.of(i);
            if own(vertex.into()) {
                return links.is_empty();
            }
            let (stamp, mut different) = (i as u16 + 1, 0);
            for &j in links {
                let seen = &mut stamps[self.vertices[j as usize] as usize];
                different += (*seen != stamp) as u16;
                *seen = stamp;
            }
            let known = &mut degrees[vertex as usize];
            if *known == 0 {
                *known = degree(vertex.into());
            }
            different < *known
        };
        self.vertices.iter().enumerate().position(lacks)
    }
}
