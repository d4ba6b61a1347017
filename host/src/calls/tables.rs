//! Tables: read, drawn by a seed, converted.

use crate::answers::{filled, judged, size};
use crate::{exports, Refusal, Size};

/// Judges a game table.
///
/// ```
/// assert_eq!(raskjomi::read(&[1, 1, 0, 0, 0, 0])?.edges, 1);
/// // A loop that is written twice: two edges in the table, and one different edge.
/// let size = raskjomi::read(&[1, 2, 0, 0, 0, 0, 0, 0])?;
/// assert_eq!((size.vertices, size.edges, size.different), (1, 2, 1));
/// let refusal = raskjomi::read(&[1, 1, 0, 2, 0, 0]).unwrap_err();
/// assert_eq!((refusal.number, refusal.place), (5, 3));
/// # Ok::<(), raskjomi::Refusal>(())
/// ```
///
/// # Errors
///
/// Refusals 1 to 8: see [`explain`](crate::explain()).
pub fn read(game: &[u16]) -> Result<Size, Refusal> {
    judged(exports::read(game)).map(|answer| size(answer, answer.different))
}

/// Draws a game by the seed, the same on every machine, and writes its table into the output: so many
/// vertices, 1 to 512, with `degree` edges out of each, 1 to 16, and priorities below `priorities`, 1
/// to 65,535; n × degree is at most 4,096. A table of n vertices has 2 + 2n + 2 × n × degree words, and [`read`](crate::read()) accepts it. Equal
/// edges may be drawn; they count as one. Gives the numbers of vertices and of edges in the table.
///
/// ```
/// let mut game = [0; 20];
/// assert_eq!(raskjomi::seed(1, 3, 2, 4, &mut game)?, (3, 6));
/// assert_eq!(game[..8], [3, 6, 0, 0, 0, 0, 0, 1]);
/// assert_eq!(game[8..], [0, 0, 1, 1, 2, 2, 1, 1, 2, 0, 0, 2]);
/// // The edge from 0 to 1 was drawn twice.
/// assert_eq!(raskjomi::read(&game)?.different, 5);
/// # Ok::<(), raskjomi::Refusal>(())
/// ```
///
/// # Errors
///
/// Refusals 31 of the numbers, and 32 of an output that is too short.
pub fn seed(
    seed: u32,
    vertices: u32,
    degree: u32,
    priorities: u32,
    output: &mut [u16],
) -> Result<(usize, usize), Refusal> {
    judged(exports::seed(seed, vertices, degree, priorities, output)).map(filled)
}

/// Converts a game where the highest priority seen for ever decides into a table where the lowest does,
/// for all other calls. With M the smallest even number not below the highest priority, each priority q
/// becomes M − q; owners and edges are copied as they stand, repeats too, so the output needs as many
/// words as the table has. A plan wins by "highest" on the table read exactly if it wins by "lowest" on
/// the table written, for the same player; order, classes and the edges between classes are the same.
/// Gives the numbers of vertices and of edges in the table.
///
/// ```
/// // Priorities 3 and 0, so M is 4.
/// let game = [2, 2, 3, 0, 0, 1, 0, 1, 1, 0];
/// let mut output = [0; 10];
/// assert_eq!(raskjomi::convert(&game, &mut output)?, (2, 2));
/// assert_eq!(output, [2, 2, 1, 4, 0, 1, 0, 1, 1, 0]);
/// // 65,536 − 0 fits no word.
/// let large = [2, 2, 65_535, 0, 0, 0, 0, 1, 1, 0];
/// let refused = raskjomi::convert(&large, &mut output).unwrap_err();
/// assert_eq!((refused.number, refused.place), (36, 3));
/// # Ok::<(), raskjomi::Refusal>(())
/// ```
///
/// # Errors
///
/// Refusals 1 to 8 of the game, 24 of an output that is too short, and 36 of priorities that fit no word.
pub fn convert(game: &[u16], output: &mut [u16]) -> Result<(usize, usize), Refusal> {
    judged(exports::convert(game, output)).map(filled)
}
