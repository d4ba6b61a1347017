//! The verdict at a vertex: the game is read and reduced once, and the plan judged.

use super::{plan, reader, reduce};
use crate::baseline::refused;
use crate::baseline::verdict::shown;
use raskjomi::exports::RaskjomiAnswer;

/// Whether a plan on the reduced game shows that the player wins at the vertex, as the library's call of this name.
#[allow(clippy::too_many_arguments)]
pub fn verdict<const LISTS: bool>(
    game: &[u16],
    vertex: u32,
    player: u32,
    words: &[u16],
    marks: &mut [u8],
    spare: &mut [u8],
    classes: &mut [u16],
    output: &mut [u16],
) -> RaskjomiAnswer {
    let vertex = vertex as usize;
    if game.first().is_some_and(|&n| vertex >= n.into()) {
        return reader::read_whole(game).err().unwrap_or(refused(33, vertex));
    }
    let counts = reduce::<LISTS>(game, marks, spare, classes, output);
    shown(plan::judge::<LISTS>, counts, output, player, words, classes, vertex)
}
