//! Classes, and games of classes.

use crate::answers::{judged, written};
use crate::{exports, Refusal, Size};

/// Writes the order as [`order`](crate::order()) does, and the class of each vertex into the first n class words.
/// Gives the number of classes. Vertices share a class if each is below the other.
///
/// ```
/// let game = [3, 3, 0, 1, 0, 0, 0, 1, 0, 1, 2, 1, 1, 1];
/// let (mut marks, mut spare, mut classes) = ([0; 2], [0; 2], [0; 3]);
/// assert_eq!(raskjomi::classes(&game, &mut marks, &mut spare, &mut classes)?, 2);
/// assert_eq!(classes, [0, 1, 0]);
/// # Ok::<(), raskjomi::Refusal>(())
/// ```
///
/// # Errors
///
/// Those of [`order`](crate::order()), and 23 of class words that are too few.
pub fn classes(
    game: &[u16],
    marks: &mut [u8],
    spare: &mut [u8],
    classes: &mut [u16],
) -> Result<usize, Refusal> {
    judged(exports::classes(game, marks, spare, classes)).map(|answer| answer.classes as usize)
}

/// Writes order and classes as [`classes`](crate::classes()) does, and the table of the quotient game into the output:
/// a vertex for each class, and an edge from C to D if every member of C has a successor in D.
/// The edges are listed by source class, then by target class, ascending: the game alone decides
/// every word of the table. Gives the table's size, whose vertices are the classes.
///
/// ```
/// let game = [3, 3, 0, 1, 0, 0, 0, 1, 0, 1, 2, 1, 1, 1];
/// let (mut marks, mut spare, mut classes, mut output) = ([0; 2], [0; 2], [0; 3], [0; 14]);
/// let size = raskjomi::quotient(&game, &mut marks, &mut spare, &mut classes, &mut output)?;
/// assert_eq!((size.vertices, size.edges, size.different), (2, 2, 2));
/// assert_eq!(output[..size.words()], [2, 2, 0, 1, 0, 0, 0, 1, 1, 1]);
/// # Ok::<(), raskjomi::Refusal>(())
/// ```
///
/// # Errors
///
/// Those of [`classes`](crate::classes()), and 24 of an output that is too short.
pub fn quotient(
    game: &[u16],
    marks: &mut [u8],
    spare: &mut [u8],
    classes: &mut [u16],
    output: &mut [u16],
) -> Result<Size, Refusal> {
    judged(exports::quotient(game, marks, spare, classes, output)).map(written)
}

/// Writes as [`quotient`](crate::quotient()) does, but the reduced game: the quotient without its edges to little
/// brothers, which its player has no use for. The edges are listed in the same order. The winner
/// from each vertex is the winner from the vertex's class in the reduced game.
///
/// ```
/// // Vertex 0 is Even's and has edges to 1 and 2; 1 is below 2, so the edge to 1 goes.
/// let game = [5, 7, 2, 0, 0, 1, 4, 0, 0, 0, 0, 0, 0, 0, 1, 2, 2, 3, 4, 1, 2, 3, 3, 4, 3, 4];
/// let (mut marks, mut spare, mut classes, mut output) = ([0; 4], [0; 4], [0; 5], [0; 26]);
/// let size = raskjomi::reduce(&game, &mut marks, &mut spare, &mut classes, &mut output)?;
/// assert_eq!((size.vertices, size.edges), (5, 6));
/// assert_eq!(output[..12], [5, 6, 2, 0, 0, 1, 4, 0, 0, 0, 0, 0]);
/// assert_eq!(output[12..size.words()], [0, 1, 2, 2, 3, 4, 2, 3, 3, 4, 3, 4]);
/// # Ok::<(), raskjomi::Refusal>(())
/// ```
///
/// # Errors
///
/// Those of [`quotient`](crate::quotient()).
pub fn reduce(
    game: &[u16],
    marks: &mut [u8],
    spare: &mut [u8],
    classes: &mut [u16],
    output: &mut [u16],
) -> Result<Size, Refusal> {
    judged(exports::reduce(game, marks, spare, classes, output)).map(written)
}

/// Writes the largest governed bisimulation as [`governed_order`](crate::governed_order()) does, and the class of each vertex by it
/// into the first n class words. Gives the number of classes. Each lies inside one class of the order.
///
/// ```
/// let game = [3, 3, 0, 1, 0, 0, 0, 1, 0, 1, 2, 1, 1, 1];
/// let (mut marks, mut spare, mut classes) = ([0; 2], [0; 2], [0; 3]);
/// assert_eq!(raskjomi::governed_classes(&game, &mut marks, &mut spare, &mut classes)?, 2);
/// assert_eq!(classes, [0, 1, 0]);
/// # Ok::<(), raskjomi::Refusal>(())
/// ```
///
/// # Errors
///
/// Those of [`classes`](crate::classes()).
pub fn governed_classes(
    game: &[u16],
    marks: &mut [u8],
    spare: &mut [u8],
    classes: &mut [u16],
) -> Result<usize, Refusal> {
    let answer = exports::governed_classes(game, marks, spare, classes);
    judged(answer).map(|answer| answer.classes as usize)
}
