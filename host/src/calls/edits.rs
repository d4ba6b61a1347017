//! Edges that come and go in a lent table.

use crate::answers::{edited, judged};
use crate::{exports, Edited, Refusal, Replay};

/// Adds an edge to the table that begins `table`, which may be longer: it goes to the end of both
/// arrays, so every target moves up by a word, and needs two words behind the table. Writes the order
/// and the classes of the new table as [`classes`](crate::classes()) does. Words behind the new table stay as they are.
///
/// ```
/// // Priorities 0, 1, 0, and an edge from each vertex to 1; two words are kept free.
/// let mut table = [3, 3, 0, 1, 0, 0, 0, 1, 0, 1, 2, 1, 1, 1, 9, 9];
/// let (mut marks, mut spare, mut classes) = ([0; 2], [0; 2], [0; 3]);
/// let edited = raskjomi::add_edge(&mut table, 0, 2, &mut marks, &mut spare, &mut classes)?;
/// assert_eq!(table, [3, 4, 0, 1, 0, 0, 0, 1, 0, 1, 2, 0, 1, 1, 1, 2]);
/// // Vertices 0 and 2 no longer share a class.
/// assert_eq!((edited.classes, edited.edges, edited.words()), (3, 4, 16));
/// assert_eq!(classes, [0, 1, 2]);
/// // The edge is there now, and adding it again is refused.
/// let refusal = raskjomi::add_edge(&mut table, 0, 2, &mut marks, &mut spare, &mut classes);
/// assert_eq!(refusal, Err(raskjomi::Refusal { number: 37, place: 0 }));
/// # Ok::<(), raskjomi::Refusal>(())
/// ```
///
/// # Errors
///
/// Refusals 1 to 8 of the table, 21 to 23 of the memory, and 37 and 39 of the edge.
pub fn add_edge(
    table: &mut [u16],
    source: u32,
    target: u32,
    marks: &mut [u8],
    spare: &mut [u8],
    classes: &mut [u16],
) -> Result<Edited, Refusal> {
    judged(exports::add_edge(table, source, target, marks, spare, classes)).map(edited)
}

/// Removes an edge from the table that begins `table`, which may be longer: every copy of it; the
/// other edges keep their sequence, and the words that the table gives up become 0. Writes the order and
/// the classes of the new table as [`classes`](crate::classes()) does.
///
/// ```
/// // The edge from 0 to 2 stands there twice.
/// let mut table = [3, 5, 0, 1, 0, 0, 0, 1, 0, 0, 1, 2, 0, 1, 2, 1, 1, 2];
/// let (mut marks, mut spare, mut classes) = ([0; 2], [0; 2], [0; 3]);
/// let edited = raskjomi::remove_edge(&mut table, 0, 2, &mut marks, &mut spare, &mut classes)?;
/// assert_eq!(table, [3, 3, 0, 1, 0, 0, 0, 1, 0, 1, 2, 1, 1, 1, 0, 0, 0, 0]);
/// assert_eq!((edited.classes, edited.edges), (2, 3));
/// // Vertex 0 has one edge left, and keeps it.
/// let refusal = raskjomi::remove_edge(&mut table, 0, 1, &mut marks, &mut spare, &mut classes);
/// assert_eq!(refusal, Err(raskjomi::Refusal { number: 38, place: 0 }));
/// # Ok::<(), raskjomi::Refusal>(())
/// ```
///
/// # Errors
///
/// Refusals 1 to 8 of the table, 21 to 23 of the memory, and 37 and 38 of the edge.
pub fn remove_edge(
    table: &mut [u16],
    source: u32,
    target: u32,
    marks: &mut [u8],
    spare: &mut [u8],
    classes: &mut [u16],
) -> Result<Edited, Refusal> {
    judged(exports::remove_edge(table, source, target, marks, spare, classes)).map(edited)
}

/// Previews [`add_edge`](crate::add_edge()): gives what it would give on a copy of the table that begins `game`, which may be
/// longer, and changes nothing but a second set. The copy begins the second table, `table`, which needs
/// two words more than the first; the words behind the new table stay as they are. Refused, the second
/// set has its old content.
///
/// ```
/// let game = [3, 3, 0, 1, 0, 0, 0, 1, 0, 1, 2, 1, 1, 1];
/// let (mut table, mut marks, mut spare, mut classes) = ([9; 18], [0; 2], [0; 2], [0; 3]);
/// let seen = raskjomi::preview_add(&game, 0, 2, &mut table, &mut marks, &mut spare, &mut classes)?;
/// // Vertices 0 and 2 would no longer share a class.
/// assert_eq!((seen.classes, seen.edges), (3, 4));
/// assert_eq!(classes, [0, 1, 2]);
/// assert_eq!(table, [3, 4, 0, 1, 0, 0, 0, 1, 0, 1, 2, 0, 1, 1, 1, 2, 9, 9]);
/// // A second table that is too short for the first.
/// let refusal =
///     raskjomi::preview_add(&game, 0, 2, &mut table[..13], &mut marks, &mut spare, &mut classes);
/// assert_eq!(refusal, Err(raskjomi::Refusal { number: 24, place: 14 }));
/// # Ok::<(), raskjomi::Refusal>(())
/// ```
///
/// # Errors
///
/// Those of [`add_edge`](crate::add_edge()), with 24 of a second table that is too short.
pub fn preview_add(
    game: &[u16],
    source: u32,
    target: u32,
    table: &mut [u16],
    marks: &mut [u8],
    spare: &mut [u8],
    classes: &mut [u16],
) -> Result<Edited, Refusal> {
    judged(exports::preview_add(game, source, target, table, marks, spare, classes)).map(edited)
}

/// Previews [`remove_edge`](crate::remove_edge()) as [`preview_add`](crate::preview_add()) does [`add_edge`](crate::add_edge()). The second table needs as many words as
/// the first; those that the copy gives up become 0.
///
/// ```
/// let game = [3, 4, 0, 1, 0, 0, 0, 1, 0, 1, 2, 0, 1, 1, 1, 2];
/// let (mut table, mut marks, mut spare, mut classes) = ([9; 17], [0; 2], [0; 2], [0; 3]);
/// let seen =
///     raskjomi::preview_remove(&game, 0, 2, &mut table, &mut marks, &mut spare, &mut classes)?;
/// assert_eq!((seen.classes, seen.edges, seen.words()), (2, 3, 14));
/// assert_eq!(table, [3, 3, 0, 1, 0, 0, 0, 1, 0, 1, 2, 1, 1, 1, 0, 0, 9]);
/// # Ok::<(), raskjomi::Refusal>(())
/// ```
///
/// # Errors
///
/// Those of [`remove_edge`](crate::remove_edge()), with 24 of a second table that is too short.
pub fn preview_remove(
    game: &[u16],
    source: u32,
    target: u32,
    table: &mut [u16],
    marks: &mut [u8],
    spare: &mut [u8],
    classes: &mut [u16],
) -> Result<Edited, Refusal> {
    judged(exports::preview_remove(game, source, target, table, marks, spare, classes)).map(edited)
}

/// Replays a trace in the table that begins `table`, which may be longer: the trace has its count (at most
/// 4,096), then as many sources, then as many targets. An entry's edge arrives as [`add_edge`](crate::add_edge()) has it if
/// it is absent, and leaves as [`remove_edge`](crate::remove_edge()) has it if it is present. Writes the order and the classes of
/// the final table as [`classes`](crate::classes()) does. The first entry that is refused ends the replay, and memory is then
/// as after the entries before it. Words from the end of the final table to the end of the longest table
/// reached are 0.
///
/// ```
/// // Priorities 0, 1, 0, and an edge from each vertex to 1; two words are kept free.
/// let mut table = [3, 3, 0, 1, 0, 0, 0, 1, 0, 1, 2, 1, 1, 1, 9, 9];
/// let (mut marks, mut spare, mut classes) = ([0; 2], [0; 2], [0; 3]);
/// // The edge from 0 to 2 comes, the one from 0 to 1 goes.
/// let trace = [2, 0, 0, 2, 1];
/// let replay = raskjomi::replay(&mut table, &trace, &mut marks, &mut spare, &mut classes);
/// let edited = replay.verdict.unwrap();
/// assert_eq!((edited.classes, edited.vertices, edited.edges, replay.entries), (3, 3, 3, 2));
/// assert_eq!(table, [3, 3, 0, 1, 0, 0, 0, 1, 1, 2, 0, 1, 1, 2, 0, 0]);
/// // Vertex 0 keeps its last edge: the first entry is done, and the second is refused.
/// let trace = [2, 1, 0, 2, 2];
/// let replay = raskjomi::replay(&mut table, &trace, &mut marks, &mut spare, &mut classes);
/// let refusal = raskjomi::Refusal { number: 38, place: 0 };
/// assert_eq!((replay.verdict, replay.entries), (Err(refusal), 1));
/// assert_eq!(table, [3, 4, 0, 1, 0, 0, 0, 1, 1, 2, 0, 1, 1, 1, 2, 2]);
/// ```
pub fn replay(
    table: &mut [u16],
    trace: &[u16],
    marks: &mut [u8],
    spare: &mut [u8],
    classes: &mut [u16],
) -> Replay {
    let answer = exports::replay(table, trace, marks, spare, classes);
    Replay { verdict: judged(answer).map(edited), entries: answer.entries as usize }
}
