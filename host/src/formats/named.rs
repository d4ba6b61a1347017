//! A game with what its vertices are called.

use super::dot::{self, Kept};
use super::{to_pgsolver, to_text, Vertices};
use crate::large::Repeats;
use crate::{Game, Reduced, Refusal};

/// A game that was read from a file, with what its vertices are called there.
///
/// ```
/// use raskjomi::formats::read_game;
/// let file = read_game(b"parity 2; 0 1 0 1 \"a\"; 1 0 0 1; 2 1 1 1,1;")?;
/// assert_eq!(file.game.reduce().classes, [0, 1, 0]);
/// assert_eq!(file.vertices.label(0), "0 \"a\"");
/// assert_eq!(file.repeats.as_ref().map(|repeats| repeats.id), Some(2));
/// assert!(file.to_dot().starts_with("digraph game {\n"));
/// # Ok::<(), raskjomi::formats::ReadError>(())
/// ```
#[derive(Clone, Debug)]
#[non_exhaustive]
pub struct NamedGame {
    /// The game, where the lowest priority decides.
    pub game: Game,
    /// What its vertices are called.
    pub vertices: Vertices,
    /// The successors that stand in their lines a second time, in PGSolver's format.
    pub repeats: Option<Repeats>,
}

impl NamedGame {
    /// A game of classes, each with the name of its lowest member.
    ///
    /// ```
    /// let file = raskjomi::formats::read_game(b"3 1 0 5 \"a\"; 5 0 0 5; 7 1 1 5 \"b\";")?;
    /// let quotient = file.of_classes(file.game.quotient());
    /// assert_eq!(quotient.vertices.label(0), "0 \"a\"");
    /// # Ok::<(), raskjomi::formats::ReadError>(())
    /// ```
    pub fn of_classes(&self, reduced: Reduced) -> NamedGame {
        let vertices = self.vertices.of_classes(&reduced.classes);
        NamedGame { game: reduced.game, vertices, repeats: None }
    }

    /// The reduced game, each class with the name of its lowest member.
    ///
    /// ```
    /// let file = raskjomi::formats::read_game(b"3 1 0 5 \"a\"; 5 0 0 5; 7 1 1 5 \"b\";")?;
    /// assert_eq!(file.reduce().game.size().vertices, 2);
    /// # Ok::<(), raskjomi::formats::ReadError>(())
    /// ```
    pub fn reduce(&self) -> NamedGame {
        self.of_classes(self.game.reduce())
    }

    /// The game in PGSolver's format, as [`to_pgsolver`] writes it.
    ///
    /// ```
    /// let file = raskjomi::formats::read_game(b"3 1 0 5 \"a\"; 5 0 0 5; 7 1 1 5 \"b\";")?;
    /// assert_eq!(file.reduce().to_pgsolver(false)?, b"parity 1;\n0 1 0 1 \"a\";\n1 0 0 1;\n");
    /// # Ok::<(), Box<dyn std::error::Error>>(())
    /// ```
    ///
    /// # Errors
    ///
    /// Refusal 36 of priorities that can't be converted.
    pub fn to_pgsolver(&self, lowest: bool) -> Result<Vec<u8>, Refusal> {
        to_pgsolver(&self.game, &self.vertices, lowest)
    }

    /// The game as decimal text under a title, as [`to_text`] writes it.
    ///
    /// ```
    /// let file = raskjomi::formats::read_game(b"3 1 0 5 \"a\"; 5 0 0 5; 7 1 1 5 \"b\";")?;
    /// assert!(file.to_text("doors").contains("\n# vertex 0: id 3 \"a\"\n"));
    /// # Ok::<(), raskjomi::formats::ReadError>(())
    /// ```
    pub fn to_text(&self, title: &str) -> String {
        to_text(&self.game, &self.vertices, title)
    }

    /// The game as Graphviz draws it, with its classes and the edges that the reduced game drops.
    ///
    /// ```
    /// let file = raskjomi::formats::read_game(b"3 1 0 5 \"a\"; 5 0 0 5; 7 1 1 5 \"b\";")?;
    /// assert!(file.to_dot().contains("subgraph cluster_0 { label=\"class 0\"; "));
    /// # Ok::<(), raskjomi::formats::ReadError>(())
    /// ```
    pub fn to_dot(&self) -> String {
        let reduced = self.game.reduce();
        dot::game(&self.game, &self.vertices, &reduced.classes, Some(&Kept::new(&reduced)))
    }
}
