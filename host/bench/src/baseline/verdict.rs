//! The verdict at a vertex.

use super::reduction::reduce;
use super::{by_rows, plan, reader, refused};
use raskjomi::exports::RaskjomiAnswer;

/// Whether a plan on the reduced game shows that the player wins at the vertex, as the library's call of this name.
#[allow(clippy::too_many_arguments)]
pub fn verdict(
    game: &[u16],
    vertex: u32,
    player: u32,
    words: &[u16],
    marks: &mut [u8],
    spare: &mut [u8],
    classes: &mut [u16],
    output: &mut [u16],
) -> RaskjomiAnswer {
    match reader::read(game) {
        Err(refusal) => return refusal,
        Ok((n, _)) if vertex as usize >= n => return refused(33, vertex as usize),
        Ok(_) => {}
    }
    let counts = reduce(by_rows, game, marks, spare, classes, output);
    shown(plan::judge, counts, output, player, words, classes, vertex as usize)
}

/// Judges a plan.
pub type Judge = fn(&[u16], (usize, usize), u32, &[u16]) -> Result<(), RaskjomiAnswer>;

/// What the plan shows for a vertex, once the game is reduced and its classes are numbered.
pub fn shown(
    judge: Judge,
    counts: RaskjomiAnswer,
    reduced: &[u16],
    player: u32,
    words: &[u16],
    classes: &[u16],
    vertex: usize,
) -> RaskjomiAnswer {
    if counts.number != 0 {
        return counts;
    }
    let (k, e) = (counts.vertices as usize, counts.edges as usize);
    if let Err(refusal) = judge(&reduced[..2 + 2 * k + 2 * e], (k, e), player, words) {
        return refusal;
    }
    RaskjomiAnswer { passes: 0, shown: (words[2] == classes[vertex]) as u32, ..counts }
}
