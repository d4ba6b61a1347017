//! The yardstick: the library's own algorithms in safe Rust, with local arrays in place of a heap; and the
//! order by plain passes as well.

pub mod bits;
pub mod carry;
mod convert;
pub mod edges;
pub mod edit;
mod found;
mod game;
pub mod index;
mod large;
mod large_reduction;
mod packing;
mod passes;
pub mod plan;
pub mod reader;
pub mod reduction;
mod relations;
mod rounds;
mod seed;
pub mod verdict;

pub use convert::convert;
pub use edit::replay;
pub use large::{large_read, large_solution};
pub use large_reduction::large_reduction;
pub use passes::{write_order as by_passes, MOST as MOST_BY_PASSES};
pub use plan::accept_plan;
pub use reduction::reduce;
pub use relations::{classes, governed_classes, governed_order, order};
pub use rounds::{timed as timed_order, write_order as by_rows};
pub use seed::seed;
pub use verdict::verdict;

use raskjomi::exports::RaskjomiAnswer;

/// The limits of a game, and the places of an index of its edges.
pub const VERTICES: usize = 512;
pub const EDGES: usize = 4096;
pub const STARTS: usize = VERTICES + 1;

/// A refusal as an answer.
pub fn refused(number: u32, place: usize) -> RaskjomiAnswer {
    RaskjomiAnswer { number, place, ..RaskjomiAnswer::default() }
}
