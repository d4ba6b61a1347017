//! Edges that come and go.

use super::game::Game;
use super::reduction::{lengths, write_classes};
use super::rounds::write_order;
use super::{reader, refused, EDGES, STARTS, VERTICES};
use raskjomi::exports::RaskjomiAnswer;
use raskjomi::mark_bytes;

/// Reads a table: its sizes, or its refusal.
pub type Read = fn(&[u16]) -> Result<(usize, usize), RaskjomiAnswer>;
/// Writes the order and the classes of a table; the number of classes.
type Fill = fn(&[u16], &mut [u8], &mut [u8], &mut [u16]) -> usize;

/// How an edit reads a table, and writes what is made of one.
pub struct Ways {
    pub read: Read,
    pub fill: Fill,
}

/// The baseline's.
pub const WAYS: Ways = Ways { read: reader::read, fill };

/// An edge added or removed, as the library's calls `add_edge` and `remove_edge`.
#[allow(clippy::too_many_arguments)]
pub fn edit(
    ways: &Ways,
    table: &mut [u16],
    source: u32,
    target: u32,
    marks: &mut [u8],
    spare: &mut [u8],
    classes: &mut [u16],
    add: bool,
) -> RaskjomiAnswer {
    let (n, m) = match (ways.read)(begun(table)) {
        Ok(sizes) => sizes,
        Err(refusal) => return refusal,
    };
    let lent = [marks.len(), spare.len(), classes.len()];
    if let Err(refusal) = lengths(&lent, &[mark_bytes(n), mark_bytes(n), n]) {
        return refusal;
    }
    let edge = (source as usize, target as usize);
    if let Err(refusal) = judge(table, table.len(), n, m, edge, add) {
        return refusal;
    }
    make(ways, (table, n, m), (source as u16, target as u16), marks, spare, classes, add)
}

/// The same on a copy, as the library's calls `preview_add` and `preview_remove`.
#[allow(clippy::too_many_arguments)]
pub fn preview(
    ways: &Ways,
    game: &[u16],
    source: u32,
    target: u32,
    table: &mut [u16],
    marks: &mut [u8],
    spare: &mut [u8],
    classes: &mut [u16],
    add: bool,
) -> RaskjomiAnswer {
    let (n, m) = match (ways.read)(begun(game)) {
        Ok(sizes) => sizes,
        Err(refusal) => return refusal,
    };
    let size = 2 + 2 * n + 2 * m;
    let lent = [marks.len(), spare.len(), classes.len(), table.len()];
    if let Err(refusal) = lengths(&lent, &[mark_bytes(n), mark_bytes(n), n, size]) {
        return refusal;
    }
    let edge = (source as usize, target as usize);
    if let Err(refusal) = judge(game, table.len(), n, m, edge, add) {
        return refusal;
    }
    table[..size].copy_from_slice(&game[..size]);
    make(ways, (table, n, m), (source as u16, target as u16), marks, spare, classes, add)
}

/// The table that begins a buffer, as far as it is there.
pub fn begun(buffer: &[u16]) -> &[u16] {
    let needed = match buffer {
        &[n, m, ..] => 2 + 2 * n as usize + 2 * m as usize,
        _ => 0,
    };
    &buffer[..needed.min(buffer.len())]
}

/// Makes an edit that was judged, and writes the order and the classes.
fn make(
    ways: &Ways,
    (table, n, m): (&mut [u16], usize, usize),
    edge: (u16, u16),
    marks: &mut [u8],
    spare: &mut [u8],
    classes: &mut [u16],
    add: bool,
) -> RaskjomiAnswer {
    let edges = if add { arrive(table, n, m, edge) } else { leave(table, n, m, edge) };
    let k = (ways.fill)(begun(table), marks, spare, classes);
    let (classes, vertices, edges) = (k as u32, n as u32, edges as u32);
    RaskjomiAnswer { classes, vertices, edges, ..RaskjomiAnswer::default() }
}

/// A trace replayed, as the library's call of this name: the order of the start table, one scan of the edges for
/// each entry, and the order of the final table.
pub fn replay(
    table: &mut [u16],
    trace: &[u16],
    marks: &mut [u8],
    spare: &mut [u8],
    classes: &mut [u16],
) -> RaskjomiAnswer {
    let lent = [marks.len(), spare.len(), classes.len()];
    let ((n, mut m), [sources, targets]) = match to_replay(reader::read, table, trace, lent) {
        Ok(read) => read,
        Err(refusal) => return refusal,
    };
    fill(begun(table), marks, spare, classes);
    let mut done = 0;
    let mut entries = sources.iter().zip(targets);
    let refusal =
        entries.find_map(|(&source, &target)| match enter(table, n, m, (source, target)) {
            Ok(edges) => {
                (m, done) = (edges, done + 1);
                None
            }
            Err(refusal) => Some(refusal),
        });
    let k = fill(begun(table), marks, spare, classes);
    replayed(table, k, done, refusal)
}

/// The sizes of a table, and the sources and the targets of a trace.
type ToReplay<'a> = ((usize, usize), [&'a [u16]; 2]);

/// What is replayed, for buffers of these lengths; or a refusal.
pub fn to_replay<'a>(
    read: Read,
    table: &[u16],
    trace: &'a [u16],
    lent: [usize; 3],
) -> Result<ToReplay<'a>, RaskjomiAnswer> {
    let (n, m) = read(begun(table))?;
    lengths(&lent, &[mark_bytes(n), mark_bytes(n), n])?;
    let count = trace.first().map_or(0, |&count| count as usize);
    if trace.len() != 1 + 2 * count || count > 4096 {
        return Err(refused(40, 0));
    }
    let (sources, targets) = trace[1..].split_at(count);
    Ok(((n, m), [sources, targets]))
}

/// What a replay tells, which left this table of so many classes, after so many entries and at this refusal, if any.
pub fn replayed(
    table: &[u16],
    k: usize,
    done: u32,
    refusal: Option<RaskjomiAnswer>,
) -> RaskjomiAnswer {
    if let Some(refusal) = refusal {
        return RaskjomiAnswer { entries: done, ..refusal };
    }
    let (vertices, edges) = (table[0].into(), table[1].into());
    RaskjomiAnswer { classes: k as u32, vertices, edges, entries: done, ..Default::default() }
}

/// Writes the order and the classes of a table; the number of classes.
fn fill(table: &[u16], marks: &mut [u8], spare: &mut [u8], classes: &mut [u16]) -> usize {
    let (n, m) = (table[0] as usize, table[1] as usize);
    let (mut starts, mut places) = ([0; STARTS], [0; EDGES]);
    let game = Game::new(table, n, m, &mut starts, &mut places);
    let bytes = mark_bytes(n);
    write_order(&game, &mut marks[..bytes], &mut spare[..bytes]);
    write_classes(marks, &mut classes[..n], &mut [0; VERTICES])
}

/// One scan tells how often the edge is there, where it stands first, and whether its source has another; then
/// it comes or goes. The number of edges then.
fn enter(table: &mut [u16], n: usize, m: usize, edge: (u16, u16)) -> Result<usize, RaskjomiAnswer> {
    let (source, target) = edge;
    if source as usize >= n || target as usize >= n {
        return Err(refused(37, source as usize));
    }
    let (sources, targets) = table[2 + 2 * n..2 + 2 * n + 2 * m].split_at(m);
    let (mut copies, mut first, mut others) = (0, 0, 0);
    for (j, (&from, &to)) in sources.iter().zip(targets).enumerate() {
        if from == source {
            if to == target {
                first = if copies == 0 { j } else { first };
                copies += 1;
            } else {
                others += 1;
            }
        }
    }
    match copies {
        0 if m == EDGES || table.len() < 2 + 2 * n + 2 * m + 2 => Err(refused(39, m)),
        0 => Ok(arrive(table, n, m, edge)),
        _ if others == 0 => Err(refused(38, source as usize)),
        1 => Ok(leave_one(table, n, m, first)),
        _ => Ok(leave(table, n, m, edge)),
    }
}

/// Removes the edge at a place by moving what stands behind it; the number of edges then.
fn leave_one(table: &mut [u16], n: usize, m: usize, at: usize) -> usize {
    let (first, end) = (2 + 2 * n, 2 + 2 * n + 2 * m);
    table.copy_within(first + at + 1..first + m + at, first + at);
    table.copy_within(first + m + at + 1..end, first + m + at - 1);
    table[end - 2..end].fill(0);
    table[1] = m as u16 - 1;
    m - 1
}

/// Refusals 37 to 39, for an edit in a buffer of so many words.
fn judge(
    table: &[u16],
    room: usize,
    n: usize,
    m: usize,
    (source, target): (usize, usize),
    add: bool,
) -> Result<(), RaskjomiAnswer> {
    let (sources, targets) = table[2 + 2 * n..2 + 2 * n + 2 * m].split_at(m);
    let some = |test: &dyn Fn(usize) -> bool| {
        let mut edges = sources.iter().zip(targets);
        edges.any(|(&from, &to)| from as usize == source && test(to as usize))
    };
    if source >= n || target >= n || some(&|to| to == target) == add {
        return Err(refused(37, source));
    }
    if !add && !some(&|to| to != target) {
        return Err(refused(38, source));
    }
    if add && (m == EDGES || room < 2 + 2 * n + 2 * m + 2) {
        return Err(refused(39, m));
    }
    Ok(())
}

/// Puts the edge at the end of both arrays; the number of edges then.
fn arrive(table: &mut [u16], n: usize, m: usize, (source, target): (u16, u16)) -> usize {
    let targets = 2 + 2 * n + m;
    table.copy_within(targets..targets + m, targets + 1);
    (table[1], table[targets], table[targets + 1 + m]) = (m as u16 + 1, source, target);
    m + 1
}

/// Removes every copy of the edge, and clears the words that are given up; the number of edges then.
fn leave(table: &mut [u16], n: usize, m: usize, edge: (u16, u16)) -> usize {
    let first = 2 + 2 * n;
    let mut left = 0;
    for j in 0..m {
        let other = (table[first + j], table[first + m + j]);
        if other != edge {
            (table[first + left], table[first + m + left]) = other;
            left += 1;
        }
    }
    table.copy_within(first + m..first + m + left, first + left);
    table[first + 2 * left..first + 2 * m].fill(0);
    table[1] = left as u16;
    left
}
