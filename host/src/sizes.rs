//! Limits, sizes, and what calls count.

use crate::Refusal;
use std::fmt;

/// The most vertices of a game.
pub const MOST_VERTICES: usize = 512;
/// The most edges of a game's table, repeats included.
pub const MOST_EDGES: usize = 4_096;
/// The words of the longest table: an output of so many takes every table that a call writes.
pub const MOST_TABLE_WORDS: usize = 2 + 2 * MOST_VERTICES + 2 * MOST_EDGES;
/// The most positions of a plan.
pub const MOST_POSITIONS: usize = 4_096;
/// The most links of a plan.
pub const MOST_LINKS: usize = 16_384;
/// The most entries of a trace.
pub const MOST_ENTRIES: usize = 4_096;
/// The most edges out of a vertex in a game by the seed.
pub const MOST_DEGREE: usize = 16;
/// The stack, in bytes, that suffices for every call: it is measured, and not proved.
pub const LEAST_STACK: usize = 256 * 1024;
/// The words of the longest plan: an output of so many takes every plan that a call writes.
pub const MOST_PLAN_WORDS: usize = 2 + MOST_POSITIONS + 2 * MOST_LINKS;

/// The sizes of a table.
#[derive(Clone, Copy, Debug, PartialEq, Eq)]
#[non_exhaustive]
pub struct Size {
    /// The number n of vertices.
    pub vertices: usize,
    /// The number m of edges in the table.
    pub edges: usize,
    /// The number of different edges, at most m. A table that a call writes has each edge once, so
    /// there it is m.
    pub different: usize,
}

impl Size {
    /// The bytes to lend for marks, and for the spare: n × n / 8, rounded up.
    pub fn marks(&self) -> usize {
        crate::mark_bytes(self.vertices)
    }

    /// The words of a table of this size, and the words to lend for an output: 2 + 2n + 2m.
    pub fn words(&self) -> usize {
        2 + 2 * self.vertices + 2 * self.edges
    }
}

/// The sizes of a plan.
#[derive(Clone, Copy, Debug, PartialEq, Eq)]
#[non_exhaustive]
pub struct PlanSize {
    /// The number p of positions, at most 4,096.
    pub positions: usize,
    /// The number l of links, at most 16,384.
    pub links: usize,
}

impl PlanSize {
    /// The words of a plan of this size: 2 + p + 2l.
    pub fn words(&self) -> usize {
        2 + self.positions + 2 * self.links
    }
}

/// What an edit leaves: the sizes of the new table, and the number of its classes.
#[derive(Clone, Copy, Debug, PartialEq, Eq)]
#[non_exhaustive]
pub struct Edited {
    /// The number of classes.
    pub classes: usize,
    /// The number n of vertices, as before.
    pub vertices: usize,
    /// The number m of edges in the new table.
    pub edges: usize,
}

impl Edited {
    /// The words of the new table: 2 + 2n + 2m.
    pub fn words(&self) -> usize {
        2 + 2 * self.vertices + 2 * self.edges
    }
}

/// What a replay answers: the sizes of the final table and the number of its classes, or the first
/// refusal; and how many entries were done, in either case.
#[derive(Clone, Copy, Debug, PartialEq, Eq)]
#[non_exhaustive]
pub struct Replay {
    /// Whether every entry was accepted.
    pub verdict: Result<Edited, Refusal>,
    /// The number of entries done; 0 where the replay didn't begin.
    pub entries: usize,
}

/// What the verdict call answers. The size is the reduced game's, whose vertices are the classes.
#[derive(Clone, Copy, Debug, PartialEq, Eq)]
pub enum Verdict {
    /// The player wins at the vertex: there is a winning plan from it in the game.
    Wins(Size),
    /// The plan wins for the player, but from another class than the vertex's. Who wins at the vertex is
    /// left open.
    NotShown(Size),
    /// The game, the vertex, the memory or the plan is turned down.
    Refused(Refusal),
}

/// "wins", "not shown", or the refusal.
///
/// ```
/// let game: raskjomi::Game = "1 1 / 0 / 0 / 0 / 0".parse()?;
/// let (plan, player) = (raskjomi::Plan::new(&[0], &[(0, 0)]), raskjomi::Player::Even);
/// assert_eq!(game.verdict(0, player, &plan).to_string(), "wins");
/// assert!(game.verdict(1, player, &plan).to_string().starts_with("refused 33 at 1: "));
/// # Ok::<(), raskjomi::formats::ReadError>(())
/// ```
impl fmt::Display for Verdict {
    fn fmt(&self, f: &mut fmt::Formatter) -> fmt::Result {
        match self {
            Verdict::Wins(_) => f.write_str("wins"),
            Verdict::NotShown(_) => f.write_str("not shown"),
            Verdict::Refused(refusal) => refusal.fmt(f),
        }
    }
}
