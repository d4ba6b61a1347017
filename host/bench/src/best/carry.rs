//! How a plan is carried: judged by the rows of the order, pairs by a hash, memory by what can be found.

use super::{order_once_accepted, plan, reader, reduce};
use crate::baseline::bits::Row;
use crate::baseline::carry::{Carrying, Ways};
use crate::baseline::{EDGES, STARTS};
use raskjomi::exports::RaskjomiAnswer;

/// The ways of one of the two best programs.
pub struct Best<const LISTS: bool>;

impl<const LISTS: bool> Ways for Best<LISTS> {
    fn order(
        game: &[u16],
        player: u32,
        plan: &[u16],
        marks: &mut [u8],
        spare: &mut [u8],
    ) -> Result<(), RaskjomiAnswer> {
        let answer = order_once_accepted::<LISTS>(game, player, plan, marks, spare);
        if answer.number == 0 {
            Ok(())
        } else {
            Err(answer)
        }
    }

    fn reduce(
        game: &[u16],
        marks: &mut [u8],
        spare: &mut [u8],
        classes: &mut [u16],
        output: &mut [u16],
    ) -> RaskjomiAnswer {
        reduce::<LISTS>(game, marks, spare, classes, output)
    }

    fn judge(
        game: &[u16],
        sizes: (usize, usize),
        player: u32,
        words: &[u16],
    ) -> Result<(), RaskjomiAnswer> {
        plan::judge::<LISTS>(game, sizes, player, words)
    }

    /// There are at most as many positions as pairs, and as many links as pairs of a position and an edge.
    fn write(carrying: &Carrying, output: &mut [u16]) -> Result<RaskjomiAnswer, RaskjomiAnswer> {
        let [p, l, n, m] = [carrying.plan[0], carrying.plan[1], carrying.to[0], carrying.to[1]];
        let [p, l, n, m] = [p, l, n, m].map(usize::from);
        match (p * n, l.max(p * m)) {
            (..256, ..=1024) => carrying.write::<256, 1024, 512, true>(ascending, output),
            (..1024, ..=4096) => carrying.write::<1024, 4096, 2048, true>(ascending, output),
            _ => carrying.write::<4096, 16384, 8192, true>(ascending, output),
        }
    }
}

/// Lists the successors of each vertex, ascending, each once.
fn ascending(game: &[u16], starts: &mut [u16; STARTS], places: &mut [u16; EDGES]) {
    by_width!(game[0], list[](game, starts, places))
}

/// The same by rows of so many words.
fn list<const WORDS: usize, const ROWS: usize>(
    game: &[u16],
    starts: &mut [u16; STARTS],
    places: &mut [u16; EDGES],
) {
    let successors: [Row<WORDS>; ROWS] = reader::successors(game);
    let mut end = 0;
    for (start, row) in starts[1..].iter_mut().zip(&successors[..game[0] as usize]) {
        row.each(|target| {
            places[end] = target as u16;
            end += 1;
        });
        *start = end as u16;
    }
}
