//! The check of a solution of a game of any size, pass by pass as the library makes it.

use super::refused;
use raskjomi::exports::RaskjomiAnswer;

/// The parts of a game's table.
pub(super) struct Game<'a> {
    pub priorities: &'a [u32],
    pub owners: &'a [u32],
    pub sources: &'a [u32],
    pub targets: &'a [u32],
}

/// The parts of a solution.
#[derive(Clone, Copy)]
struct Solution<'a> {
    winners: &'a [u32],
    choices: &'a [u32],
}

/// The parts of a certificate.
struct Certificate<'a> {
    places: &'a [u32],
    vertices: &'a [u32],
    ends: &'a [u32],
}

/// The reader, as the library's call of this name.
pub fn large_read(game: &[u32]) -> RaskjomiAnswer {
    match read(game) {
        Ok(_) => RaskjomiAnswer { vertices: game[0], edges: game[1], ..RaskjomiAnswer::default() },
        Err(refusal) => refusal,
    }
}

/// The check of a solution, as the library's call of this name.
pub fn large_solution(game: &[u32], solution: &[u32], certificate: &[u32]) -> RaskjomiAnswer {
    match judge(game, solution, certificate) {
        Ok(()) => RaskjomiAnswer::default(),
        Err(refusal) => refusal,
    }
}

fn judge(game: &[u32], solution: &[u32], certificate: &[u32]) -> Result<(), RaskjomiAnswer> {
    let game = read(game)?;
    let solution = solved(&game, solution)?;
    placed(&game, solution, certificate)
}

/// Refuses at the place if there is one.
pub(super) fn refuse_at(number: u32, place: Option<usize>) -> Result<(), RaskjomiAnswer> {
    place.map_or(Ok(()), |place| Err(refused(number, place)))
}

/// Refusals 1, 2 and 4 to 6.
pub(super) fn read(game: &[u32]) -> Result<Game<'_>, RaskjomiAnswer> {
    if game.len() < 2 {
        return Err(refused(1, game.len()));
    }
    let (n, m) = (game[0] as usize, game[1] as usize);
    if n == 0 {
        return Err(refused(2, 0));
    }
    if game.len() != 2 + 2 * n + 2 * m {
        return Err(refused(4, game.len()));
    }
    let (priorities, rest) = game[2..].split_at(n);
    let (owners, ends) = rest.split_at(n);
    refuse_at(5, owners.iter().position(|&owner| owner > 1).map(|i| 2 + n + i))?;
    refuse_at(6, ends.iter().position(|&end| end as usize >= n).map(|i| 2 + 2 * n + i))?;
    let (sources, targets) = ends.split_at(m);
    Ok(Game { priorities, owners, sources, targets })
}

/// Refusals 81 to 84.
fn solved<'a>(game: &Game, words: &'a [u32]) -> Result<Solution<'a>, RaskjomiAnswer> {
    let n = game.priorities.len();
    if words.len() != 2 * n {
        return Err(refused(81, words.len()));
    }
    let (winners, choices) = words.split_at(n);
    refuse_at(82, winners.iter().position(|&winner| winner > 1))?;
    let strays = |v: usize| game.sources.get(choices[v] as usize) != Some(&(v as u32));
    refuse_at(83, (0..n).find(|&v| strays(v)))?;
    let solution = Solution { winners, choices };
    let leaves = |j: usize| {
        let (v, w) = (game.sources[j] as usize, game.targets[j] as usize);
        winners[v] != winners[w] && keeps(game, solution, v, j)
    };
    refuse_at(84, (0..game.sources.len()).find(|&j| leaves(j)))?;
    Ok(solution)
}

/// Whether edge j of v is kept.
fn keeps(game: &Game, solution: Solution, v: usize, j: usize) -> bool {
    solution.winners[v] != game.owners[v] || solution.choices[v] as usize == j
}

/// Refusals 85 to 89.
fn placed(game: &Game, solution: Solution, words: &[u32]) -> Result<(), RaskjomiAnswer> {
    let n = game.priorities.len();
    if words.len() != 3 * n {
        return Err(refused(85, words.len()));
    }
    refuse_at(86, words.iter().position(|&word| word as usize >= n))?;
    let (places, rest) = words.split_at(n);
    let (vertices, ends) = rest.split_at(n);
    let certificate = Certificate { places, vertices, ends };
    refuse_at(87, (0..n).find(|&v| vertices[places[v] as usize] as usize != v))?;
    refuse_at(88, bad_run(game, solution, &certificate))?;
    let climbs = |&j: &usize| climbs(game, solution, &certificate, j);
    refuse_at(89, (0..game.sources.len()).find(climbs))
}

/// The last place whose run isn't the longest. From the last place down: runs of later places, which are right, are
/// passed as one.
fn bad_run(game: &Game, solution: Solution, certificate: &Certificate) -> Option<usize> {
    let Certificate { vertices, ends, .. } = certificate;
    for i in (0..ends.len()).rev() {
        let v = vertices[i] as usize;
        let p = game.priorities[v];
        let own = p % 2 == solution.winners[v];
        let over = |u: u32| {
            let q = game.priorities[u as usize];
            q > p || (q == p && own)
        };
        let mut stop = i + 1;
        while vertices.get(stop).is_some_and(|&u| over(u)) {
            stop = ends[stop] as usize + 1;
        }
        if ends[i] as usize + 1 != stop {
            return Some(i);
        }
    }
    None
}

/// Whether edge j is kept and doesn't go down, and goes beyond the run of its source, or from a priority of the loser's
/// to one no lower. No run ends before its own place, so that an edge that goes down stays within.
fn climbs(game: &Game, solution: Solution, certificate: &Certificate, j: usize) -> bool {
    let (v, w) = (game.sources[j] as usize, game.targets[j] as usize);
    let (from, to) = (certificate.places[v], certificate.places[w]);
    if to < from {
        return false;
    }
    let p = game.priorities[v];
    let stays = p % 2 != solution.winners[v] && p <= game.priorities[w];
    (stays || certificate.ends[from as usize] < to) && keeps(game, solution, v, j)
}
