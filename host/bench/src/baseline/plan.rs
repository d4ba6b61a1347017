//! The plan acceptor.

use super::bits::Pairs;
use super::index::Index;
use super::{reader, refused, EDGES, STARTS, VERTICES};
use raskjomi::exports::RaskjomiAnswer;

/// A plan in range, with its links grouped by source.
struct Plan<'a> {
    vertices: &'a [u16],
    next: Index<'a>,
}

/// The plan acceptor, as the library's call of this name.
pub fn accept_plan(game: &[u16], player: u32, plan: &[u16]) -> RaskjomiAnswer {
    let judged = reader::read(game).and_then(|sizes| judge(game, sizes, player, plan));
    judged.err().unwrap_or_default()
}

/// Refusals 11 to 16, on a game that the reader accepts.
pub fn judge(
    game: &[u16],
    (n, m): (usize, usize),
    player: u32,
    plan: &[u16],
) -> Result<(), RaskjomiAnswer> {
    if player > 1 {
        return Err(refused(11, 0));
    }
    let (p, l) = sizes(plan)?;
    in_range(plan, n, p)?;
    let (vertices, links) = plan[2..].split_at(p);
    let (sources, targets) = links.split_at(l);
    follow_edges(game, n, m, vertices, sources, targets)?;
    let (mut starts, mut places) = ([0; 4097], [0; 16384]);
    let next = Index::build(sources, targets, &mut starts[..p + 1], &mut places);
    let plan = Plan { vertices, next };
    answered(game, n, m, player, &plan)?;
    no_bad_walk(&game[2..2 + n], player, &plan)
}

/// The numbers of positions and links, or refusal 12.
pub fn sizes(plan: &[u16]) -> Result<(usize, usize), RaskjomiAnswer> {
    let (p, l) = match plan {
        [p, l, ..] => (*p as usize, *l as usize),
        _ => return Err(refused(12, 0)),
    };
    if p == 0 || p > 4096 || l > 16384 || plan.len() != 2 + p + 2 * l {
        return Err(refused(12, 0));
    }
    Ok((p, l))
}

fn in_range(plan: &[u16], n: usize, p: usize) -> Result<(), RaskjomiAnswer> {
    let bad_vertex = plan[2..2 + p].iter().position(|&vertex| vertex as usize >= n);
    let bad_end = || plan[2 + p..].iter().position(|&end| end as usize >= p).map(|i| p + i);
    match bad_vertex.or_else(bad_end) {
        Some(place) => Err(refused(13, 2 + place)),
        None => Ok(()),
    }
}

fn follow_edges(
    game: &[u16],
    n: usize,
    m: usize,
    vertices: &[u16],
    sources: &[u16],
    targets: &[u16],
) -> Result<(), RaskjomiAnswer> {
    let (edge_sources, edge_targets) = game[2 + 2 * n..].split_at(m);
    let mut edges = Pairs::NONE;
    for (&source, &target) in edge_sources.iter().zip(edge_targets) {
        edges.insert(source as usize * n + target as usize);
    }
    let vertex = |&position: &u16| vertices[position as usize] as usize;
    let along = |(source, target)| edges.has(vertex(source) * n + vertex(target));
    match sources.iter().zip(targets).position(|link| !along(link)) {
        Some(link) => Err(refused(14, link)),
        None => Ok(()),
    }
}

/// Refusal 15. A stamp on a vertex tells that the position at hand has a link to it.
fn answered(
    game: &[u16],
    n: usize,
    m: usize,
    player: u32,
    plan: &Plan,
) -> Result<(), RaskjomiAnswer> {
    let (sources, targets) = game[2 + 2 * n..].split_at(m);
    let (mut starts, mut places) = ([0; STARTS], [0; EDGES]);
    let successors = Index::build(sources, targets, &mut starts[..n + 1], &mut places);
    let owners = &game[2 + n..2 + 2 * n];
    let mut stamps = [0; VERTICES];
    for (i, &vertex) in plan.vertices.iter().enumerate() {
        let (stamp, links) = (i + 1, plan.next.of(i));
        links.iter().for_each(|&j| stamps[plan.vertices[j as usize] as usize] = stamp);
        let own = owners[vertex as usize] as u32 == player;
        let all = || successors.of(vertex as usize).iter().all(|&x| stamps[x as usize] == stamp);
        let lacking = if own { links.is_empty() } else { !all() };
        if lacking {
            return Err(refused(15, i));
        }
    }
    Ok(())
}

/// Refusal 16: a search from each position of the wrong parity, through no lower priorities.
fn no_bad_walk(priorities: &[u16], player: u32, plan: &Plan) -> Result<(), RaskjomiAnswer> {
    let p = plan.vertices.len();
    let mut ranks = [0; 4096];
    for (rank, &vertex) in ranks.iter_mut().zip(plan.vertices) {
        *rank = priorities[vertex as usize];
    }
    let (mut seen, mut queue) = ([0; 4096], [0; 4096]);
    for i in 0..p {
        let wrong = (ranks[i] % 2) as u32 != player;
        if wrong && returns(plan, &ranks, &mut seen, &mut queue, i) {
            return Err(refused(16, i));
        }
    }
    Ok(())
}

fn returns(plan: &Plan, ranks: &[u16], seen: &mut [u16], queue: &mut [u16], i: usize) -> bool {
    let stamp = (i + 1) as u16;
    let (mut head, mut tail, mut from) = (0, 0, i);
    loop {
        for &j in plan.next.of(from) {
            if ranks[j as usize] >= ranks[i] && seen[j as usize] != stamp {
                seen[j as usize] = stamp;
                queue[tail] = j;
                tail += 1;
            }
        }
        if seen[i] == stamp {
            return true;
        }
        if head == tail {
            return false;
        }
        from = queue[head] as usize;
        head += 1;
    }
}
