//! The two best programs known for the order and for what is made of it, in safe Rust: rows of as few words as hold the
//! game's vertices, what falls asked only where it can fall, and classes and reduced game by rows. One has columns and
//! lists as well, which pays where most rows lose a vertex at a time. Plans are judged by searches and components, which
//! the other turns to sooner, and carried by a hash of pairs; traces are replayed by rows. The calls answer as the library's of the same names.

/// Calls a function with the words of a row and the rows that hold so many vertices, and further constants of this name.
macro_rules! by_width {
    ($n:expr, $call:ident[$($constant:ident)?]($($given:expr),*)) => {
        match $n {
            0..=64 => $call::<1, 64, $($constant)?>($($given),*),
            65..=128 => $call::<2, 128, $($constant)?>($($given),*),
            129..=256 => $call::<4, 256, $($constant)?>($($given),*),
            _ => $call::<8, 512, $($constant)?>($($given),*),
        }
    };
}

mod carry;
mod classes;
mod components;
mod edit;
mod lists;
mod losses;
mod masks;
mod packing;
mod plan;
mod predecessors;
mod reader;
mod reduction;
mod replay;
mod start;
#[cfg(test)]
mod tests;
mod verdict;
mod walks;

pub use carry::Best;
pub use edit::ways;
pub use plan::accept_plan;
pub use replay::replay;
pub use verdict::verdict;

use crate::baseline::bits::Row;
use crate::baseline::edges::Edges;
use crate::baseline::reduction::lengths;
use raskjomi::exports::RaskjomiAnswer;
use raskjomi::mark_bytes;

/// The memory that a call writes: marks into both buffers and, where they are lent, classes and the reduced game.
/// Where there is a player with a plan, it is to be accepted first.
struct Lent<'a> {
    plan: Option<(u32, &'a [u16])>,
    marks: &'a mut [u8],
    spare: &'a mut [u8],
    classes: Option<&'a mut [u16]>,
    output: Option<&'a mut [u16]>,
}

pub fn order<const LISTS: bool>(
    game: &[u16],
    marks: &mut [u8],
    spare: &mut [u8],
) -> RaskjomiAnswer {
    call::<LISTS>(game, false, Lent { plan: None, marks, spare, classes: None, output: None })
}

/// The order, once the player's plan is accepted.
fn order_once_accepted<const LISTS: bool>(
    game: &[u16],
    player: u32,
    plan: &[u16],
    marks: &mut [u8],
    spare: &mut [u8],
) -> RaskjomiAnswer {
    let plan = Some((player, plan));
    call::<LISTS>(game, false, Lent { plan, marks, spare, classes: None, output: None })
}

pub fn governed_order<const LISTS: bool>(
    game: &[u16],
    marks: &mut [u8],
    spare: &mut [u8],
) -> RaskjomiAnswer {
    call::<LISTS>(game, true, Lent { plan: None, marks, spare, classes: None, output: None })
}

pub fn classes<const LISTS: bool>(
    game: &[u16],
    marks: &mut [u8],
    spare: &mut [u8],
    classes: &mut [u16],
) -> RaskjomiAnswer {
    call::<LISTS>(
        game,
        false,
        Lent { plan: None, marks, spare, classes: Some(classes), output: None },
    )
}

pub fn reduce<const LISTS: bool>(
    game: &[u16],
    marks: &mut [u8],
    spare: &mut [u8],
    classes: &mut [u16],
    output: &mut [u16],
) -> RaskjomiAnswer {
    call::<LISTS>(
        game,
        false,
        Lent { plan: None, marks, spare, classes: Some(classes), output: Some(output) },
    )
}

/// The order or, with `mirror`, the largest governed bisimulation, and what is made of it.
fn call<const LISTS: bool>(game: &[u16], mirror: bool, lent: Lent) -> RaskjomiAnswer {
    let written = reader::read(game)
        .and_then(|sizes| by_width!(sizes.0, write[LISTS](game, sizes, mirror, lent)));
    written.unwrap_or_else(|refusal| refusal)
}

/// The same by rows of so many words.
fn write<const WORDS: usize, const ROWS: usize, const LISTS: bool>(
    game: &[u16],
    (n, m): (usize, usize),
    mirror: bool,
    lent: Lent,
) -> Result<RaskjomiAnswer, RaskjomiAnswer> {
    let mut edges = Edges::<WORDS, ROWS>::EMPTY;
    reader::read_edges(game, n, m, &mut edges)?;
    let Lent { plan, marks, spare, classes, output } = lent;
    let bytes = mark_bytes(n);
    let [k, words] = [&classes, &output].map(|part| part.as_ref().map(|part| part.len()));
    let lent = [marks.len(), spare.len(), k.unwrap_or(n), words.unwrap_or(game.len())];
    lengths(&lent, &[bytes, bytes, n, game.len()])?;
    if let Some((player, plan)) = plan {
        plan::judge_by::<WORDS, ROWS, LISTS>(&edges.successors, game, player, plan)?;
    }
    let mut marked = [Row::EMPTY; ROWS];
    let settle = if LISTS { lists::settle } else { masks::settle };
    let passes = settle(&edges, &game[2..2 + n], m, mirror, &mut marked);
    packing::write_rows(&marked, n, &mut marks[..bytes]);
    spare[..bytes].copy_from_slice(&marks[..bytes]);
    let Some(numbers) = classes else {
        return Ok(RaskjomiAnswer { passes, ..RaskjomiAnswer::default() });
    };
    let found = classes::write(&marked, &mut numbers[..n]);
    let classes = found.count as u32;
    let counts = RaskjomiAnswer { classes, ..RaskjomiAnswer::default() };
    let Some(output) = output else { return Ok(counts) };
    let edges = reduction::write(game, (n, m), &marked, &found, numbers, output) as u32;
    Ok(RaskjomiAnswer { vertices: classes, edges, ..counts })
}
