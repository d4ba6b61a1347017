//! Samples over all families: what a differential test draws from.

use crate::families::{chain, complete, copies, forced_ring, random, ring, rings, watched_rings};
use crate::repeats::repeated;
use crate::{Lcg, Plan, Table};

pub(crate) const MOST_EDGES: usize = 4096;
/// The passes of rings grow with the square of their vertices.
const MOST_IN_RINGS: usize = 32;
/// Pairwise coprime lengths of several rings.
const COPRIME: [&[usize]; 5] = [&[2, 3, 5], &[3, 4, 5], &[5, 6, 7], &[1, 2, 3, 5], &[2, 3, 5, 7]];

/// A game of at most `most` vertices from any family, shuffled; some have an edge several times.
pub fn any_game(lcg: &mut Lcg, most: usize) -> Table {
    let n = lcg.between(1, most);
    let mut game = of_some_family(lcg, n);
    if lcg.once_in(3) {
        game = repeated(lcg, &game);
    }
    if lcg.once_in(6) {
        game
    } else {
        game.shuffled(lcg)
    }
}

/// A game of at most n vertices.
fn of_some_family(lcg: &mut Lcg, n: usize) -> Table {
    match lcg.below(10) {
        0 | 1 => sparse(lcg, n),
        2 => dense(lcg, n),
        3 => chain(n).with_owners(lcg),
        4 => recoloured(lcg, ring(n)),
        5 => some_copies(lcg, n, false),
        6 => some_copies(lcg, n, true),
        7 if n >= 4 => some_rings(lcg, n.min(MOST_IN_RINGS)),
        8 => recoloured(lcg, complete(n.min(64))),
        _ => {
            let degree = n.min(lcg.between(1, 4));
            recoloured(lcg, forced_ring(n, degree))
        }
    }
}

/// Few and many priorities.
fn priorities(lcg: &mut Lcg) -> usize {
    lcg.pick(&[1, 1, 2, 2, 3, 4, 8, 40, 65_536])
}

fn sparse(lcg: &mut Lcg, n: usize) -> Table {
    let m = lcg.between(n, 3 * n).min(n * n);
    let priorities = priorities(lcg);
    random(lcg, n, m, priorities)
}

fn dense(lcg: &mut Lcg, n: usize) -> Table {
    let most = (n * n).min(MOST_EDGES);
    let m = lcg.between(n.max(most / 2), most);
    let priorities = priorities(lcg);
    random(lcg, n, m, priorities)
}

fn recoloured(lcg: &mut Lcg, game: Table) -> Table {
    let few = lcg.pick(&[1, 2, 3]);
    game.with_owners(lcg).with_priorities(lcg, few)
}

/// One player's rings of coprime lengths, with at most n vertices, of which there are four or more: two,
/// two that are watched, or several.
fn some_rings(lcg: &mut Lcg, n: usize) -> Table {
    let (several, watchers) = (rings(lcg.pick(&COPRIME)), lcg.between(1, 4));
    let length = ((n - 1) / 2).saturating_sub(watchers);
    let game = match lcg.below(3) {
        0 if several.n() <= n => several,
        1 if length >= 2 => watched_rings(length, length - 1, watchers),
        _ => rings(&[n / 2, n / 2 - 1]),
    };
    game.owned_by(lcg.below(2) as u16)
}

/// Copies of a small random game, so that classes have several members.
fn some_copies(lcg: &mut Lcg, n: usize, mixed: bool) -> Table {
    let count = lcg.between(1, 4).min(n);
    let base = sparse(lcg, n / count);
    copies(lcg, &base, count, mixed)
}

/// Random old content for a byte buffer whose needed length is `needed`: empty, one short, exact,
/// or longer.
pub fn old_bytes(lcg: &mut Lcg, needed: usize) -> Vec<u8> {
    let length = buffer_length(lcg, needed);
    (0..length).map(|_| lcg.below(256) as u8).collect()
}

/// The same for a buffer of words.
pub fn old_words(lcg: &mut Lcg, needed: usize) -> Vec<u16> {
    let length = buffer_length(lcg, needed);
    (0..length).map(|_| lcg.below(65_536) as u16).collect()
}

/// Mostly long enough, so that later checks are reached too.
fn buffer_length(lcg: &mut Lcg, needed: usize) -> usize {
    match lcg.below(12) {
        0 => 0,
        1 => needed - 1,
        2..=6 => needed,
        _ => needed + lcg.between(1, 20),
    }
}

/// The words of a plan after one to three changes, and sometimes of a wrong size.
pub fn bent_plan(lcg: &mut Lcg, plan: &Plan, n: usize) -> Vec<u16> {
    let mut bent = plan.clone();
    for _ in 0..lcg.pick(&[1, 1, 1, 2, 3]) {
        bend(lcg, &mut bent, n);
    }
    let words = bent.words();
    if lcg.once_in(6) {
        wrong_size(lcg, words)
    } else {
        words
    }
}

/// Cuts, bends or repeats a link, moves or adds a position, or puts a number out of range.
fn bend(lcg: &mut Lcg, plan: &mut Plan, n: usize) {
    if plan.links.is_empty() {
        return;
    }
    let (p, link) = (plan.vertices.len(), lcg.below(plan.links.len()));
    let beyond = lcg.below(3) as u16;
    match lcg.below(10) {
        0 => drop(plan.links.remove(link)),
        1 => plan.links[link].1 = lcg.below(p) as u16,
        2 => plan.links[link].0 = lcg.below(p) as u16,
        3 => plan.links.push(plan.links[link]),
        4 => plan.vertices[lcg.below(p)] = lcg.below(n) as u16,
        5 => plan.vertices.push(lcg.below(n) as u16),
        6 => plan.vertices[lcg.below(p)] = n as u16 + beyond,
        7 => plan.links[link].0 = p as u16 + beyond,
        8 => plan.links[link].1 = p as u16 + beyond,
        _ => {
            let source = plan.links[link].0;
            plan.links.retain(|other| other.0 != source);
        }
    }
}

/// Too few words, a number out of its limits at the right length, or another length.
fn wrong_size(lcg: &mut Lcg, mut words: Vec<u16>) -> Vec<u16> {
    match lcg.below(6) {
        0 => words.truncate(lcg.below(2)),
        1 => {
            words[0] = lcg.pick(&[0, 4_097, 65_535]);
            right_length(&mut words);
        }
        2 => {
            words[1] = lcg.pick(&[16_385, 65_535]);
            right_length(&mut words);
        }
        3 => words[0] += 1,
        4 => words.truncate(words.len() - 1),
        _ => words.push(0),
    }
    words
}

/// Gives a plan the length that its first two words ask for.
fn right_length(words: &mut Vec<u16>) {
    words.resize(2 + words[0] as usize + 2 * words[1] as usize, 0);
}
