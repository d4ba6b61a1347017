//! The order by plain passes over a byte for each pair: each tests every marked pair.

use super::game::Game;
use super::packing;

/// The most vertices of a game whose order goes by plain passes.
pub const MOST: usize = 256;

/// Writes the order into both buffers, of as many bytes as its marks need; the number of passes.
pub fn write_order(game: &Game, marks: &mut [u8], spare: &mut [u8]) -> u32 {
    let n = game.priorities.len();
    let (mut one, mut other) = ([0; MOST * MOST], [0; MOST * MOST]);
    let (mut from, mut to) = (&mut one[..n * n], &mut other[..n * n]);
    for (v, row) in from.chunks_mut(n).enumerate() {
        for (w, mark) in row.iter_mut().enumerate() {
            *mark = (game.priorities[v] == game.priorities[w]) as u8;
        }
    }
    let mut passes = 1;
    while pass(game, from, to) != 0 {
        std::mem::swap(&mut from, &mut to);
        passes += 1;
    }
    packing::write_bytes(from, marks);
    spare.copy_from_slice(marks);
    passes
}

/// A pass from one buffer to the other, and how many marks it clears.
fn pass(game: &Game, from: &[u8], to: &mut [u8]) -> u32 {
    let n = game.priorities.len();
    let mut cleared = 0;
    for (v, (row, new)) in from.chunks(n).zip(to.chunks_mut(n)).enumerate() {
        for (w, (&mark, new)) in row.iter().zip(new).enumerate() {
            *new = (mark == 1 && passes(game, from, v, w)) as u8;
            cleared += (mark - *new) as u32;
        }
    }
    cleared
}

/// The test of the pair (v, w) under the marks.
fn passes(game: &Game, marks: &[u8], v: usize, w: usize) -> bool {
    let n = game.priorities.len();
    let (xs, ys) = (game.next.of(v), game.next.of(w));
    let marked = |x: &u16, y: &u16| marks[*x as usize * n + *y as usize] == 1;
    match 2 * game.owners[v] + game.owners[w] {
        0 => xs.iter().all(|x| ys.iter().any(|y| marked(x, y))),
        1 => xs.iter().all(|x| ys.iter().all(|y| marked(x, y))),
        2 => xs.iter().any(|x| ys.iter().any(|y| marked(x, y))),
        _ => ys.iter().all(|y| xs.iter().any(|x| marked(x, y))),
    }
}
