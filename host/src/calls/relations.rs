//! The order, the largest governed bisimulation, and relations that are judged.

use crate::answers::judged;
use crate::{exports, Refusal};

/// Writes the direct simulation order into the first [`mark_bytes`](crate::mark_bytes())`(n)` bytes of both buffers: the mark of
/// (v, w), see [`is_marked`](crate::is_marked()), is set if v is below w. Unused bits of the last byte become 0. Gives the number
/// of passes.
///
/// ```
/// let game = [3, 3, 0, 1, 0, 0, 0, 1, 0, 1, 2, 1, 1, 1];
/// let (mut marks, mut spare) = ([0xff; 2], [0xff; 2]);
/// assert_eq!(raskjomi::order(&game, &mut marks, &mut spare)?, 1);
/// // Row by row 101, 010, 101, the lowest bit first.
/// assert_eq!(marks, [0b0101_0101, 0b0000_0001]);
/// assert!(raskjomi::is_marked(&marks, 3, 0, 2));
/// # Ok::<(), raskjomi::Refusal>(())
/// ```
///
/// # Errors
///
/// Refusals 1 to 8 of the game, and 21 and 22 of marks and spare that are too short.
pub fn order(game: &[u16], marks: &mut [u8], spare: &mut [u8]) -> Result<u32, Refusal> {
    judged(exports::order(game, marks, spare)).map(|answer| answer.passes)
}

/// Judges a relation: whether the pairs that are marked form a direct simulation. Unused bits of the last
/// byte needed have to be 0; bytes beyond it are ignored.
///
/// ```
/// let game = [3, 3, 0, 1, 0, 0, 0, 1, 0, 1, 2, 1, 1, 1];
/// // Each vertex with itself: marks 0, 4 and 8.
/// assert!(raskjomi::accept_relation(&game, &[0b0001_0001, 1]).is_ok());
/// // Vertices 0 and 1 have different priorities.
/// let refusal = raskjomi::accept_relation(&game, &[0b0000_0010, 0]).unwrap_err();
/// assert_eq!((refusal.number, refusal.place), (10, 1));
/// // There are nine marks, so seven bits of the second byte are unused.
/// let refusal = raskjomi::accept_relation(&game, &[0, 0b1000_0000]).unwrap_err();
/// assert_eq!((refusal.number, refusal.place), (41, 1));
/// ```
///
/// # Errors
///
/// Refusals 1 to 8 of the game, 21 of marks that are too short, and those of the relation: 41 for a set bit that
/// is no mark, and 10 for a pair that fails.
pub fn accept_relation(game: &[u16], marks: &[u8]) -> Result<(), Refusal> {
    judged(exports::accept_relation(game, marks)).map(|_| ())
}

/// Writes the largest governed bisimulation into both buffers, as [`order`](crate::order()) writes the order: the mark of
/// (v, w) is set if v and w are bisimilar. Gives the number of passes. It is an equivalence, and finer than
/// the order: bisimilar vertices are below each other.
///
/// ```
/// // Vertex 0 has the move of 3 and another one; all are Even's. 3 is below 0, and not bisimilar.
/// let game = [4, 5, 2, 1, 0, 2, 0, 0, 0, 0, 0, 0, 1, 2, 3, 1, 2, 1, 2, 2];
/// let (mut marks, mut spare) = ([0; 2], [0; 2]);
/// raskjomi::governed_order(&game, &mut marks, &mut spare)?;
/// // Each vertex with itself: marks 0, 5, 10 and 15.
/// assert_eq!(marks, [0b0010_0001, 0b1000_0100]);
/// # Ok::<(), raskjomi::Refusal>(())
/// ```
///
/// # Errors
///
/// Those of [`order`](crate::order()).
pub fn governed_order(game: &[u16], marks: &mut [u8], spare: &mut [u8]) -> Result<u32, Refusal> {
    judged(exports::governed_order(game, marks, spare)).map(|answer| answer.passes)
}

/// Judges a relation as [`accept_relation`](crate::accept_relation()) does: whether the pairs that are marked form a governed
/// bisimulation, a direct simulation that has the reverse of each of its pairs.
///
/// ```
/// let game = [3, 3, 0, 1, 0, 0, 0, 1, 0, 1, 2, 1, 1, 1];
/// assert!(raskjomi::accept_governed(&game, &[0b0101_0101, 1]).is_ok());
/// // (0, 2) is marked, and (2, 0), mark 6, isn't.
/// let refusal = raskjomi::accept_governed(&game, &[0b0001_0101, 1]).unwrap_err();
/// assert_eq!((refusal.number, refusal.place), (10, 2));
/// ```
///
/// # Errors
///
/// Those of [`accept_relation`](crate::accept_relation()), with 10 for a pair whose reverse is unmarked, too.
pub fn accept_governed(game: &[u16], marks: &[u8]) -> Result<(), Refusal> {
    judged(exports::accept_governed(game, marks)).map(|_| ())
}
