//! The check of a reduction of a game of any size, pass by pass as the library makes it.

use super::large::{read, refuse_at, Game};
use super::refused;
use raskjomi::exports::RaskjomiAnswer;

/// The parts of a certificate but the members.
struct Certificate<'a> {
    starts: &'a [u32],
    images: &'a [u32],
    afters: &'a [u32],
}

/// The check of a reduction, as the library's call of this name.
pub fn large_reduction(
    game: &[u32],
    reduced: &[u32],
    classes: &[u32],
    certificate: &[u32],
) -> RaskjomiAnswer {
    match judge(game, reduced, classes, certificate) {
        Ok(()) => RaskjomiAnswer::default(),
        Err(refusal) => refusal,
    }
}

fn judge(
    game: &[u32],
    reduced: &[u32],
    classes: &[u32],
    certificate: &[u32],
) -> Result<(), RaskjomiAnswer> {
    let game = read(game)?;
    let reduced = read(reduced).map_err(|refusal| refused(refusal.number + 90, refusal.place))?;
    classed(&game, &reduced, classes)?;
    certified(&game, &reduced, classes, certificate)
}

/// Refusals 97 to 100.
fn classed(game: &Game, reduced: &Game, classes: &[u32]) -> Result<(), RaskjomiAnswer> {
    let (n, k) = (game.priorities.len(), reduced.priorities.len());
    refuse_at(97, reduced.sources.windows(2).position(|pair| pair[1] < pair[0]).map(|e| e + 1))?;
    if classes.len() != n {
        return Err(refused(98, classes.len()));
    }
    refuse_at(99, classes.iter().position(|&class| class as usize >= k))?;
    let differs = |v: usize| game.priorities[v] != reduced.priorities[classes[v] as usize];
    refuse_at(100, (0..n).find(|&v| differs(v)))
}

/// Refusals 101 to 106.
fn certified(
    game: &Game,
    reduced: &Game,
    classes: &[u32],
    words: &[u32],
) -> Result<(), RaskjomiAnswer> {
    let (n, k, m) = (classes.len(), reduced.priorities.len(), game.sources.len());
    if words.len() != n + k + 2 * m {
        return Err(refused(101, words.len()));
    }
    let (starts, rest) = words.split_at(n);
    let (members, rest) = rest.split_at(k);
    let (images, afters) = rest.split_at(m);
    let certificate = Certificate { starts, images, afters };
    let empty = |&d: &usize| classes.get(members[d] as usize) != Some(&(d as u32));
    refuse_at(102, (0..k).find(empty))?;
    let astray = |&j: &usize| image_strays(game, reduced, classes, images[j], j);
    refuse_at(103, (0..m).find(astray))?;
    refuse_at(104, (0..n).find(|&v| start_strays(game, reduced, &certificate, v)))?;
    refuse_at(105, (0..n).find(|&v| owner_strays(game, reduced, classes, &certificate, v)))?;
    refuse_at(106, (0..m).find(|&j| after_strays(game, reduced, &certificate, j)))
}

/// Whether the image of edge j isn't an edge between the classes of its ends.
fn image_strays(game: &Game, reduced: &Game, classes: &[u32], image: u32, j: usize) -> bool {
    let e = image as usize;
    e >= reduced.sources.len()
        || reduced.sources[e] != classes[game.sources[j] as usize]
        || reduced.targets[e] != classes[game.targets[j] as usize]
}

/// Whether the start of v isn't an edge of v whose image is the first of its row.
fn start_strays(game: &Game, reduced: &Game, certificate: &Certificate, v: usize) -> bool {
    let start = certificate.starts[v] as usize;
    if game.sources.get(start) != Some(&(v as u32)) {
        return true;
    }
    let e = certificate.images[start] as usize;
    e > 0 && reduced.sources[e - 1] == reduced.sources[e]
}

/// Whether edge e isn't the last of its row.
fn goes_on(reduced: &Game, e: usize) -> bool {
    e + 1 < reduced.sources.len() && reduced.sources[e + 1] == reduced.sources[e]
}

/// Whether v has another owner than its class, whose row has a second edge.
fn owner_strays(
    game: &Game,
    reduced: &Game,
    classes: &[u32],
    certificate: &Certificate,
    v: usize,
) -> bool {
    game.owners[v] != reduced.owners[classes[v] as usize]
        && goes_on(reduced, certificate.images[certificate.starts[v] as usize] as usize)
}

/// Whether the row of edge j's image goes on, and the edge after j isn't one of the same source with the next image.
fn after_strays(game: &Game, reduced: &Game, certificate: &Certificate, j: usize) -> bool {
    let e = certificate.images[j] as usize;
    if !goes_on(reduced, e) {
        return false;
    }
    let after = certificate.afters[j] as usize;
    after >= game.sources.len()
        || game.sources[after] != game.sources[j]
        || certificate.images[after] as usize != e + 1
}
