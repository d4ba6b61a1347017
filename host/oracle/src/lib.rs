//! A second implementation of every call, for tests: written from document 01 and its change requests
//! CR 1 to CR 4, CR 6 to CR 10 and CR 12 to CR 14, which docs/CONTRACT.md renders, by their definitions, slow and plain, and sharing
//! no code with the library that it is compared with. The checks of solutions and of reductions of games of any size are written from
//! what docs/CONTRACT.md says of them.
//!
//! Each [`Trap`] is a misreading of the contract. An [`Oracle`] that falls for one gives the answers
//! of that misreading, so a test can show that it would be noticed.
#![forbid(unsafe_code)]

mod calls;
mod carry;
mod convert;
mod edit;
mod game;
mod governed;
mod large;
mod large_reduction;
mod plan;
mod reduction;
mod relation;
mod replay;
mod report;
mod seed;
mod trap;
mod verdict;

pub use calls::{Answer, Memory, Refusal};
pub use edit::Edit;
pub use game::Game;
pub use reduction::Classes;
pub use relation::{mark_bytes, Relation};
pub use trap::Trap;

/// Answers every call by the definitions, or with one misreading of them.
#[derive(Clone, Copy, Debug, Default)]
pub struct Oracle {
    trap: Option<Trap>,
}

impl Oracle {
    /// The answers of the contract.
    pub fn exact() -> Oracle {
        Oracle { trap: None }
    }

    /// The answers of someone who falls for `trap`.
    pub fn with(trap: Trap) -> Oracle {
        Oracle { trap: Some(trap) }
    }

    fn falls_for(&self, trap: Trap) -> bool {
        self.trap == Some(trap)
    }
}
