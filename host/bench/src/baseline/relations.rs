//! The order and the largest governed bisimulation as calls, and their classes.

use super::game::Game;
use super::reduction::{lengths, write_classes, WriteOrder};
use super::rounds::{write_governed, write_order};
use super::{reader, EDGES, STARTS, VERTICES};
use raskjomi::exports::RaskjomiAnswer;
use raskjomi::mark_bytes;

/// The order, as the library's call of this name.
pub fn order(game: &[u16], marks: &mut [u8], spare: &mut [u8]) -> RaskjomiAnswer {
    write(write_order, game, marks, spare, None)
}

/// The largest governed bisimulation, as the library's call of this name.
pub fn governed_order(game: &[u16], marks: &mut [u8], spare: &mut [u8]) -> RaskjomiAnswer {
    write(write_governed, game, marks, spare, None)
}

/// The classes of the order, as the library's call of this name.
pub fn classes(
    game: &[u16],
    marks: &mut [u8],
    spare: &mut [u8],
    classes: &mut [u16],
) -> RaskjomiAnswer {
    write(write_order, game, marks, spare, Some(classes))
}

/// The governed classes, as the library's call of this name.
pub fn governed_classes(
    game: &[u16],
    marks: &mut [u8],
    spare: &mut [u8],
    classes: &mut [u16],
) -> RaskjomiAnswer {
    write(write_governed, game, marks, spare, Some(classes))
}

/// A relation and, where they are lent memory, its classes.
fn write(
    write_relation: WriteOrder,
    game: &[u16],
    marks: &mut [u8],
    spare: &mut [u8],
    classes: Option<&mut [u16]>,
) -> RaskjomiAnswer {
    let (n, m) = match reader::read(game) {
        Ok(sizes) => sizes,
        Err(refusal) => return refusal,
    };
    let lent = [marks.len(), spare.len(), classes.as_ref().map_or(n, |classes| classes.len())];
    let bytes = mark_bytes(n);
    if let Err(refusal) = lengths(&lent, &[bytes, bytes, n]) {
        return refusal;
    }
    let (mut starts, mut places) = ([0; STARTS], [0; EDGES]);
    let game = Game::new(game, n, m, &mut starts, &mut places);
    let passes = write_relation(&game, &mut marks[..bytes], &mut spare[..bytes]);
    let Some(classes) = classes else {
        return RaskjomiAnswer { passes, ..RaskjomiAnswer::default() };
    };
    let k = write_classes(marks, &mut classes[..n], &mut [0; VERTICES]);
    RaskjomiAnswer { classes: k as u32, ..RaskjomiAnswer::default() }
}
