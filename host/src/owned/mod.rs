//! Values that own their words, over the calls that work in lent memory.

mod builder;
mod classes;
mod edits;
mod game;
mod plan;
mod relations;

use crate::Refusal;
pub use builder::GameBuilder;
pub use classes::{members, Reduced};
pub use edits::{Changed, Trace};
pub use game::Game;
pub use plan::Plan;
pub use relations::Order;

/// Memory to lend for a game, of the lengths needed.
struct Memory {
    marks: Vec<u8>,
    spare: Vec<u8>,
    classes: Vec<u16>,
    table: Vec<u16>,
}

impl Memory {
    fn of(game: &Game) -> Memory {
        let size = game.size();
        let marks = || vec![0; size.marks()];
        let (classes, table) = (vec![0; size.vertices], vec![0; size.words()]);
        Memory { marks: marks(), spare: marks(), classes, table }
    }
}

/// A count as a word; one that fits no word as the greatest, which no limit allows.
fn word(count: usize) -> u16 {
    u16::try_from(count).unwrap_or(u16::MAX)
}

/// So many words from one on, as far as they are there.
fn part(words: &[u16], from: usize, count: usize) -> &[u16] {
    let end = (from + count).min(words.len());
    &words[from.min(end)..end]
}

/// What a call gives for a game that the reader accepts, in memory of the lengths needed: it is proved that
/// such a call isn't refused.
fn granted<T>(verdict: Result<T, Refusal>) -> T {
    verdict.expect("a call on an accepted game, with memory enough, is granted")
}
