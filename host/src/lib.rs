//! A proved reducer of parity games: safe calls, and games that own their words.
//!
//! From a model checker's game to an answer that rests on proofs, with any solver in between:
//!
//! ```
//! use raskjomi::formats::{read_game, Solution};
//! use raskjomi::Verdict;
//! // The game; `start` names the vertex that is asked about.
//! let file = read_game(b"parity 3; start 2; 0 1 0 1 \"a\"; 1 0 0 1 \"end\"; 2 1 1 1 \"b\"; 3 1 0 1;")?;
//! let start = file.vertices.start().ok_or("no start")?;
//! // Vertices 0, 2 and 3 are merged. The reduced game is written for a solver, whatever it is.
//! let reduced = file.reduce();
//! assert_eq!(reduced.to_pgsolver(false)?, b"parity 1;\nstart 0;\n0 1 0 1 \"a\";\n1 0 0 1 \"end\";\n");
//! // The solver's solution gives a plan for the winner at the class of the vertex.
//! let solution = Solution::parse(b"paritysol 1; 0 0 1; 1 0 1;")?;
//! let class = file.game.classes()[start].into();
//! let (winner, plan) = solution.plan(&reduced.game, &reduced.vertices, class)?;
//! // By that plan the proved verdict says who wins in the game itself; the solver isn't trusted.
//! assert!(matches!(file.game.verdict(start as u32, winner, &plan), Verdict::Wins(_)));
//! // And a plan for that vertex is carried back.
//! let carried = file.game.carry_class(winner, &plan, start as u32)?;
//! file.game.accept_plan(winner, &carried)?;
//! # Ok::<(), Box<dyn std::error::Error>>(())
//! ```
//!
//! - [`Game`], [`Plan`] and [`Trace`] own their words and have every call as a method.
//! - [`formats`] has their files: read, with the place of what is wrong, and written.
//! - [`large`] has games of any size: a solution of one is checked by [`large_solution`], with an order of the vertices for a certificate, and a
//!   reduction by [`large_reduction`]. All others have at most 512 vertices and 4,096 edges.
//! - The functions of this page are the calls themselves, in memory that the caller lends.
//!
//! The lowest priority seen for ever decides a play, and even favours Even; a game of a tool that lets the highest decide goes through
//! [`convert`] first, as [`formats`] do for PGSolver's format.
//!
//! # The calls in lent memory
//!
//! A parity game is lent as a table of 16-bit words: the numbers n of vertices and m of edges, then
//! n priorities, n owners (0 [`EVEN`], 1 [`ODD`]), m sources and m targets. An edge may stand there
//! several times; it counts as one, though m and all lengths count it each time. The library judges
//! such tables, writes their direct simulation order, classes, quotient and reduced game, judges
//! foreign relations and winning plans, carries a plan to another vertex, gives a verdict on a player and
//! a vertex by a plan on the reduced game, draws games by a seed, converts games where the highest
//! priority decides, adds and removes edges, previews that, and replays traces of such edits. It also
//! writes and judges governed bisimulations, a finer relation than the order. Every call works
//! in memory that the caller lends, of any length and content. docs/CONTRACT.md in the repository has the
//! definitions, each call's checks in order, every refusal, and what each buffer holds afterwards.
//!
//! No call uses the heap, and none keeps anything: calls may run on several threads at once. A thread that
//! calls needs [`LEAST_STACK`] bytes of stack. Time is bounded by the sizes: the order, and all that writes
//! it, takes at most some n × m operations on rows of n bits, [`accept_plan`] and the calls that judge a plan, too, at
//! most some p × l steps besides, and [`replay`] some m for each entry. The longest of them measured,
//! [`accept_plan`] on the largest plan, takes less than a tenth of a second (docs/PERFORMANCE.md compares them).
//!
//! ```
//! // Three vertices with priorities 0, 1, 0 and owners Even, Even, Odd, and an edge from each to 1.
//! let game = [3, 3, 0, 1, 0, 0, 0, 1, 0, 1, 2, 1, 1, 1];
//! let size = raskjomi::read(&game)?;
//! let (mut marks, mut spare) = (vec![0; size.marks()], vec![0; size.marks()]);
//! let (mut classes, mut output) = (vec![0; size.vertices], vec![0; size.words()]);
//! let reduced = raskjomi::reduce(&game, &mut marks, &mut spare, &mut classes, &mut output)?;
//! // Vertices 0 and 2 are merged, so two vertices and two edges are left.
//! assert_eq!(classes, [0, 1, 0]);
//! assert_eq!((reduced.vertices, reduced.edges), (2, 2));
//! # Ok::<(), raskjomi::Refusal>(())
//! ```
#![deny(unsafe_code)]
#![deny(missing_docs)]

mod answers;
mod calls;
pub mod exports;
pub mod formats;
pub mod large;
mod lifted;
mod marks;
mod owned;
mod player;
mod refusal;
mod sizes;

pub use calls::*;
pub use large::{large_read, large_reduction, large_solution, Certificate, Flaw, LargeGame};
pub use large::{LargeReduction, LargeSize, LargeSolution, Members, Misfit, SavedError};
pub use large::{SavedKind, Uncertified, Unreduced};
pub use marks::{is_marked, mark_bytes, pack_marks};
pub use owned::{members, Changed, Game, GameBuilder, Order, Plan, Reduced, Trace};
pub use player::{NoPlayer, Player, EVEN, ODD};
pub use refusal::{explain, Explanation, Kind, Refusal};
pub use sizes::{Edited, PlanSize, Replay, Size, Verdict};
pub use sizes::{
    LEAST_STACK, MOST_DEGREE, MOST_EDGES, MOST_ENTRIES, MOST_LINKS, MOST_PLAN_WORDS,
    MOST_POSITIONS, MOST_TABLE_WORDS, MOST_VERTICES,
};
