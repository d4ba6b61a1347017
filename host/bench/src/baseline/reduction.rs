//! Classes and the reduced game.

use super::game::Game;
use super::{reader, refused, EDGES, STARTS, VERTICES};
use raskjomi::exports::RaskjomiAnswer;
use raskjomi::{is_marked, mark_bytes};

/// Writes the order of a game into two buffers, of as many bytes as its marks need; the number of passes.
pub type WriteOrder = fn(&Game, &mut [u8], &mut [u8]) -> u32;

/// The reduced game, as the library's call of this name. The answer tells the passes, too.
pub fn reduce(
    write_order: WriteOrder,
    game: &[u16],
    marks: &mut [u8],
    spare: &mut [u8],
    classes: &mut [u16],
    output: &mut [u16],
) -> RaskjomiAnswer {
    let (n, m) = match reader::read(game) {
        Ok(sizes) => sizes,
        Err(refusal) => return refusal,
    };
    let lent = [marks.len(), spare.len(), classes.len(), output.len()];
    let bytes = mark_bytes(n);
    if let Err(refusal) = lengths(&lent, &[bytes, bytes, n, game.len()]) {
        return refusal;
    }
    let (mut starts, mut places) = ([0; STARTS], [0; EDGES]);
    let game = Game::new(game, n, m, &mut starts, &mut places);
    let passes = write_order(&game, &mut marks[..bytes], &mut spare[..bytes]);
    let counts = write_reduced(&game, marks, &mut classes[..n], output);
    RaskjomiAnswer { passes, ..counts }
}

/// Refusals 21 to 24, as far as there are buffers.
pub fn lengths(lent: &[usize], needed: &[usize]) -> Result<(), RaskjomiAnswer> {
    match (0..lent.len()).find(|&i| lent[i] < needed[i]) {
        Some(i) => Err(refused(21 + i as u32, needed[i])),
        None => Ok(()),
    }
}

/// Writes classes and the reduced game's table.
fn write_reduced(
    game: &Game,
    marks: &[u8],
    classes: &mut [u16],
    output: &mut [u16],
) -> RaskjomiAnswer {
    let mut lowest = [0; VERTICES];
    let k = write_classes(marks, classes, &mut lowest);
    let lowest = &lowest[..k];
    for (class, &vertex) in lowest.iter().enumerate() {
        output[2 + class] = game.priorities[vertex as usize];
        output[2 + k + class] = game.owners[vertex as usize];
    }
    let (mut sources, mut targets) = ([0; EDGES], [0; EDGES]);
    let mut e = 0;
    for class in 0..k {
        let first = e;
        e = quotient_edges(game, classes, class, k, &mut targets, first);
        e = drop_little_brothers(game, marks, lowest, class, &mut targets, first, e);
        sources[first..e].fill(class as u16);
    }
    (output[0], output[1]) = (k as u16, e as u16);
    output[2 + 2 * k..2 + 2 * k + e].copy_from_slice(&sources[..e]);
    output[2 + 2 * k + e..2 + 2 * k + 2 * e].copy_from_slice(&targets[..e]);
    let (classes, edges) = (k as u32, e as u32);
    RaskjomiAnswer { classes, vertices: classes, edges, ..RaskjomiAnswer::default() }
}

/// The class of each vertex and the lowest member of each class; the number of classes.
pub fn write_classes(marks: &[u8], classes: &mut [u16], lowest: &mut [u16; VERTICES]) -> usize {
    let n = classes.len();
    let mut k = 0;
    for v in 0..n {
        let both = |&w: &usize| is_marked(marks, n, v, w) && is_marked(marks, n, w, v);
        let shared = (0..v).find(both);
        classes[v] = shared.map_or(k as u16, |w| classes[w]);
        if shared.is_none() {
            lowest[k] = v as u16;
            k += 1;
        }
    }
    k
}

/// Appends the classes in which every member of a class has a successor; the new end.
fn quotient_edges(
    game: &Game,
    classes: &[u16],
    class: usize,
    k: usize,
    targets: &mut [u16],
    first: usize,
) -> usize {
    let (mut members, mut counts, mut stamps) = (0u16, [0u16; VERTICES], [0u16; VERTICES]);
    for v in (0..classes.len()).filter(|&v| classes[v] as usize == class) {
        members += 1;
        for &x in game.next.of(v) {
            let to = classes[x as usize] as usize;
            counts[to] += (stamps[to] != members) as u16;
            stamps[to] = members;
        }
    }
    let mut end = first;
    for (to, _) in counts[..k].iter().enumerate().filter(|(_, &count)| count == members) {
        targets[end] = to as u16;
        end += 1;
    }
    end
}

/// Drops the targets that another one makes useless to the class's owner; the new end.
fn drop_little_brothers(
    game: &Game,
    marks: &[u8],
    lowest: &[u16],
    class: usize,
    targets: &mut [u16],
    first: usize,
    end: usize,
) -> usize {
    let n = game.priorities.len();
    let lowest_of = |class: u16| lowest[class as usize] as usize;
    let below = |d: u16, e: u16| is_marked(marks, n, lowest_of(d), lowest_of(e));
    let even = game.owners[lowest[class] as usize] == 0;
    let mut all = [0; VERTICES];
    let count = end - first;
    all[..count].copy_from_slice(&targets[first..end]);
    let mut kept = first;
    for &d in &all[..count] {
        let useless = |&e: &u16| e != d && if even { below(d, e) } else { below(e, d) };
        if !all[..count].iter().any(useless) {
            targets[kept] = d;
            kept += 1;
        }
    }
    kept
}
