//! Games of any size, and the check of their solutions and reductions.
//!
//! A large game has a table of 32-bit words in the layout of the others: the numbers n of vertices and m of edges, then n priorities, n owners,
//! m sources and m targets. There are no limits but those of the words. The lowest priority that is seen for ever decides here too.
//!
//! A *solution* names the winner at each vertex, and for each vertex the number of an edge out of it, its move where the winner owns it. A
//! *certificate* is an order of the vertices by which the solution is checked in a few steps for each vertex and edge. [`large_solution`] is
//! proved: where it accepts, the winner named at each vertex is the winner. Nothing that makes a solution or a certificate has to be trusted.
//!
//! ```
//! use raskjomi::{Certificate, LargeGame, LargeSolution, Player};
//! // Even moves from vertex 0, where the priority is 1, to itself or to 1; Odd moves from 1, of priority 0, back, and from 2 round.
//! let game = LargeGame::new(vec![3, 4, 1, 0, 1, 0, 1, 1, 0, 0, 1, 2, 0, 1, 0, 2])?;
//! // Even wins at 0 by edge 1, and at 1, where Odd has edge 2 alone. Odd wins at 2 by edge 3.
//! let solution = LargeSolution::new(&[Player::Even, Player::Even, Player::Odd], &[1, 2, 3]);
//! // The order 1, 0, 2. The run of vertex 1 goes on to the end, those of the others don't.
//! let certificate = Certificate::new(&[1, 0, 2], &[1, 0, 2], &[2, 1, 2]);
//! game.check(&solution, &certificate)?;
//! // The library can make one, too.
//! assert_eq!(game.certify(&solution)?, certificate);
//! // The loop at 0 is no move for Even: its priority is 1.
//! let wrong = LargeSolution::new(&[Player::Even, Player::Even, Player::Odd], &[0, 2, 3]);
//! assert_eq!(game.check(&wrong, &certificate).unwrap_err().number, 89);
//! assert!(game.certify(&wrong).is_err());
//! # Ok::<(), Box<dyn std::error::Error>>(())
//! ```
//!
//! A *reduction* is another game and a vertex of it for each vertex of the game, its class. [`large_reduction`] checks it by a certificate in
//! as few steps, and is proved, too: where it accepts, each vertex has the winner of its class. [`LargeReduction`] has an example.

mod certificate;
mod components;
mod decided;
mod degrees;
mod file_error;
#[cfg(test)]
mod file_tests;
mod files;
mod flaw;
mod game;
mod identifiers;
mod images;
mod lifted;
mod lines;
mod misfit;
pub(crate) mod paritysol;
mod part;
pub(crate) mod pgsolver;
mod reduce;
mod reducer;
mod reduction;
#[cfg(test)]
mod reduction_tests;
mod repeats;
mod saved;
pub(crate) mod scan;
mod solution;
mod solved;
mod table;
#[cfg(test)]
mod tests;
mod write;

use crate::answers::{filled, judged};
use crate::{exports, Refusal};
pub use decided::{Decided, NO_WINNER};
pub use file_error::{FileError, FileErrorKind};
pub use files::{read_game, read_partial_solution, read_solution, read_words, FileForm};
pub use flaw::Flaw;
pub use game::LargeGame;
pub use identifiers::{name_text, Identifiers};
pub use misfit::Misfit;
pub use part::Part;
pub use pgsolver::GameFile;
pub use reduce::Unreduced;
pub use reduction::{LargeReduction, Members};
pub use repeats::Repeats;
pub use saved::{SavedError, SavedKind};
pub use solution::{Certificate, LargeSolution, Uncertified};
pub use write::{write_game, write_game_as, write_solution, Style};

/// The sizes of a large game's table.
#[derive(Clone, Copy, Debug, PartialEq, Eq)]
#[non_exhaustive]
pub struct LargeSize {
    /// The number n of vertices.
    pub vertices: usize,
    /// The number m of edges in the table, repeats included.
    pub edges: usize,
}

impl LargeSize {
    /// The words of a table of this size: 2 + 2n + 2m.
    pub fn words(&self) -> usize {
        2 + 2 * self.vertices + 2 * self.edges
    }

    /// The words of a solution: 2n.
    pub fn solution_words(&self) -> usize {
        2 * self.vertices
    }

    /// The words of a certificate: 3n.
    pub fn certificate_words(&self) -> usize {
        3 * self.vertices
    }

    /// The words of the certificate of a reduction to a game of `reduced` size: n + k + 2m, where k is that game's number of vertices.
    pub fn reduction_words(&self, reduced: LargeSize) -> usize {
        self.vertices + reduced.vertices + 2 * self.edges
    }
}

/// Judges the table of a large game. That each vertex has an edge out isn't asked here: a solution names one.
///
/// ```
/// let size = raskjomi::large_read(&[2, 1, 0, 70_000, 0, 1, 0, 1])?;
/// assert_eq!((size.vertices, size.edges, size.words()), (2, 1, 8));
/// let refusal = raskjomi::large_read(&[2, 1, 0, 0, 0, 1, 0, 2]).unwrap_err();
/// assert_eq!((refusal.number, refusal.place), (6, 7));
/// # Ok::<(), raskjomi::Refusal>(())
/// ```
///
/// # Errors
///
/// Refusals 1, 2, 4, 5 and 6: see [`explain`](crate::explain).
pub fn large_read(game: &[u32]) -> Result<LargeSize, Refusal> {
    let size = |(vertices, edges)| LargeSize { vertices, edges };
    judged(exports::large_read(game)).map(filled).map(size)
}

/// Judges a solution of a large game by a certificate. Where it accepts, every vertex has an edge out, and at each vertex the player whom the
/// solution names wins. It takes a few steps for each vertex and edge, and needs no memory.
///
/// ```
/// // Priorities 1 and 0; 0 is Even's and has edges to itself and to 1, which is Odd's and leads back.
/// let game = [2, 3, 1, 0, 0, 1, 0, 0, 1, 0, 1, 0];
/// // Even wins at both: from 0 by edge 1. Vertex 1 has place 0, and its run goes on to place 1, where the priority is higher.
/// let (solution, certificate) = ([0, 0, 1, 2], [1, 0, 1, 0, 1, 1]);
/// raskjomi::large_solution(&game, &solution, &certificate)?;
/// // With Odd for the winner at 1, Even's move from 0, edge 1, would leave what Even wins.
/// let refusal = raskjomi::large_solution(&game, &[0, 1, 1, 2], &certificate).unwrap_err();
/// assert_eq!((refusal.number, refusal.place), (84, 1));
/// # Ok::<(), raskjomi::Refusal>(())
/// ```
///
/// # Errors
///
/// Refusals 1, 2, 4, 5 and 6 of the game, 81 to 84 of the solution, and 85 to 89 of the certificate: see [`explain`](crate::explain).
pub fn large_solution(game: &[u32], solution: &[u32], certificate: &[u32]) -> Result<(), Refusal> {
    judged(exports::large_solution(game, solution, certificate)).map(|_| ())
}

/// Judges a reduction of a large game by a certificate. The reduced game's edges stand by ascending source, and `classes` has for each vertex
/// of the game a vertex of the reduced one. Where it accepts, every vertex of both games has an edge out, and the winner at each vertex of the
/// game is the winner at its class in the reduced game. It takes a few steps for each vertex and edge, and needs no memory.
///
/// ```
/// // Vertices 0 and 1 are Even's, of priority 2, with edges to 2 and 3, which are loops of priorities 0 and 1.
/// let game = [4, 6, 2, 2, 0, 1, 0, 0, 0, 1, 0, 0, 1, 1, 2, 3, 2, 3, 3, 2, 2, 3];
/// // Reduced, 0 and 1 are class 0, with an edge to class 1 and one to class 2.
/// let reduced = [3, 4, 2, 0, 1, 0, 0, 1, 0, 0, 1, 2, 1, 2, 1, 2];
/// let classes = [0, 0, 1, 2];
/// // Starts, members, images, and the edges after them: 0 goes to class 1 by edge 0, then to 2 by 1; vertex 1 by edges 3 and 2.
/// let certificate = [0, 3, 4, 5, 0, 2, 3, 0, 1, 1, 0, 2, 3, 1, 0, 0, 2, 0, 0];
/// raskjomi::large_reduction(&game, &reduced, &classes, &certificate)?;
/// // 2 and 3 can't share a class: they have different priorities.
/// let refusal = raskjomi::large_reduction(&game, &reduced, &[0, 0, 1, 1], &certificate).unwrap_err();
/// assert_eq!((refusal.number, refusal.place), (100, 3));
/// # Ok::<(), raskjomi::Refusal>(())
/// ```
///
/// # Errors
///
/// Refusals 1, 2, 4, 5 and 6 of the game, 91, 92 and 94 to 97 of the reduced game, 98 to 100 of the classes, and 101 to 106 of the certificate: see
/// [`explain`](crate::explain).
pub fn large_reduction(
    game: &[u32],
    reduced: &[u32],
    classes: &[u32],
    certificate: &[u32],
) -> Result<(), Refusal> {
    judged(exports::large_reduction(game, reduced, classes, certificate)).map(|_| ())
}
