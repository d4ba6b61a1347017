//! The reduced game by rows. In a row a class stands as its lowest member.

use super::classes::Classes;
use crate::baseline::bits::Row;

/// Writes the reduced game's table; the number of its edges.
pub fn write<const WORDS: usize, const ROWS: usize>(
    game: &[u16],
    (n, m): (usize, usize),
    marked: &[Row<WORDS>; ROWS],
    classes: &Classes<ROWS>,
    numbers: &[u16],
    output: &mut [u16],
) -> usize {
    let lowest = &classes.lowest[..classes.count];
    let mut targets = reached_by_all(game, (n, m), classes);
    let mut e = 0;
    for &class in lowest {
        let owner = game[2 + n + class as usize];
        let kept = without_little_brothers(targets[class as usize], owner == 1, marked);
        targets[class as usize] = kept;
        e += kept.len() as usize;
    }
    let k = classes.count;
    (output[0], output[1]) = (k as u16, e as u16);
    let (vertices, edges) = output[2..2 + 2 * k + 2 * e].split_at_mut(2 * k);
    let (sources, ends) = edges.split_at_mut(e);
    let mut at = 0;
    for (class, &member) in lowest.iter().enumerate() {
        vertices[class] = game[2 + member as usize];
        vertices[k + class] = game[2 + n + member as usize];
        targets[member as usize].each(|target| {
            (sources[at], ends[at]) = (class as u16, numbers[target]);
            at += 1;
        });
    }
    e
}

/// In the row of each class's lowest member, the classes in which every member has a successor.
fn reached_by_all<const WORDS: usize, const ROWS: usize>(
    game: &[u16],
    (n, m): (usize, usize),
    classes: &Classes<ROWS>,
) -> [Row<WORDS>; ROWS] {
    let mut reached = [Row::EMPTY; ROWS];
    let (sources, targets) = game[2 + 2 * n..].split_at(m);
    for (&source, &target) in sources.iter().zip(targets) {
        reached[source as usize].insert(classes.lowest_of[target as usize] as usize);
    }
    for (v, &lowest) in classes.lowest_of[..n].iter().enumerate() {
        reached[lowest as usize] = reached[lowest as usize] & reached[v];
    }
    reached
}

/// The targets of a class without those that another one makes useless to its owner.
fn without_little_brothers<const WORDS: usize, const ROWS: usize>(
    targets: Row<WORDS>,
    odd: bool,
    marked: &[Row<WORDS>; ROWS],
) -> Row<WORDS> {
    if !odd {
        return targets.filter(|d| !marked[d].without(d).meets(targets));
    }
    let mut above = Row::EMPTY;
    targets.each(|d| above = above | marked[d].without(d));
    targets - above
}
