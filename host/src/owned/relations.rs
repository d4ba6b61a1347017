//! The order, the largest governed bisimulation, and relations that are judged.

use super::{granted, Game, Memory};
use crate::Refusal;

/// A call that writes a relation.
type WriteMarks = fn(&[u16], &mut [u8], &mut [u8]) -> Result<u32, Refusal>;

/// A direct simulation order, or a largest governed bisimulation.
#[derive(Clone, Debug, PartialEq, Eq)]
#[non_exhaustive]
pub struct Order {
    /// The marks, eight in a byte, as the library writes and reads them.
    pub marks: Vec<u8>,
    /// The number of passes.
    pub passes: u32,
    vertices: usize,
}

impl Order {
    /// Whether v is below w; of a governed bisimulation, whether they are bisimilar. No vertex is that the
    /// game doesn't have.
    ///
    /// ```
    /// let game = raskjomi::Game::new(vec![3, 3, 0, 1, 0, 0, 0, 1, 0, 1, 2, 1, 1, 1])?;
    /// let order = game.order();
    /// assert!(order.has(2, 0) && !order.has(0, 1) && !order.has(0, 3));
    /// # Ok::<(), raskjomi::Refusal>(())
    /// ```
    pub fn has(&self, v: usize, w: usize) -> bool {
        v.max(w) < self.vertices && crate::is_marked(&self.marks, self.vertices, v, w)
    }

    /// The number of the game's vertices.
    ///
    /// ```
    /// let game: raskjomi::Game = "3 3 / 0 1 0 / 0 0 1 / 0 1 2 / 1 1 1".parse()?;
    /// assert_eq!(game.order().vertices(), 3);
    /// # Ok::<(), raskjomi::formats::ReadError>(())
    /// ```
    pub fn vertices(&self) -> usize {
        self.vertices
    }

    /// The pairs (v, w) that it has, row by row.
    ///
    /// ```
    /// let game = raskjomi::Game::new(vec![3, 3, 0, 1, 0, 0, 0, 1, 0, 1, 2, 1, 1, 1])?;
    /// assert!(game.order().pairs().eq([(0, 0), (0, 2), (1, 1), (2, 0), (2, 2)]));
    /// # Ok::<(), raskjomi::Refusal>(())
    /// ```
    pub fn pairs(&self) -> impl Iterator<Item = (usize, usize)> + '_ {
        let n = self.vertices;
        let all = (0..n).flat_map(move |v| (0..n).map(move |w| (v, w)));
        all.filter(|&(v, w)| self.has(v, w))
    }
}

impl Game {
    /// The direct simulation order.
    ///
    /// ```
    /// let game: raskjomi::Game = "3 3 / 0 1 0 / 0 0 1 / 0 1 2 / 1 1 1".parse()?;
    /// assert!(game.order().has(0, 2) && !game.order().has(0, 1));
    /// # Ok::<(), raskjomi::formats::ReadError>(())
    /// ```
    pub fn order(&self) -> Order {
        self.relation(crate::order)
    }

    /// The largest governed bisimulation.
    ///
    /// ```
    /// // Vertex 0 has the move of 5 and a worse one: they are below each other, and not bisimilar.
    /// let text = "6 8 / 2 0 0 1 4 2 / 0 0 0 0 0 0 / 0 0 1 2 2 3 4 5 / 1 2 3 3 4 3 4 2";
    /// let game: raskjomi::Game = text.parse()?;
    /// assert!(game.order().has(0, 5) && game.order().has(5, 0));
    /// assert!(!game.governed_order().has(0, 5));
    /// # Ok::<(), raskjomi::formats::ReadError>(())
    /// ```
    pub fn governed_order(&self) -> Order {
        self.relation(crate::governed_order)
    }

    fn relation(&self, write: WriteMarks) -> Order {
        let Memory { mut marks, mut spare, .. } = Memory::of(self);
        let passes = granted(write(self.words(), &mut marks, &mut spare));
        Order { marks, passes, vertices: self.size().vertices }
    }

    /// Judges a relation, given by its marks: whether it is a direct simulation. [`pack_marks`](crate::pack_marks) packs them.
    ///
    /// ```
    /// let game: raskjomi::Game = "3 3 / 0 1 0 / 0 0 1 / 0 1 2 / 1 1 1".parse()?;
    /// game.accept_relation(&game.order().marks)?;
    /// // Each vertex with itself, and 0 with 1, which has another priority.
    /// let marks = raskjomi::pack_marks([1, 1, 0, 0, 1, 0, 0, 0, 1].map(|mark| mark == 1));
    /// let refusal = game.accept_relation(&marks).unwrap_err();
    /// assert_eq!((refusal.number, refusal.place), (10, 1));
    /// # Ok::<(), Box<dyn std::error::Error>>(())
    /// ```
    ///
    /// # Errors
    ///
    /// Refusals 21, 41 and 10, as [`accept_relation`](crate::accept_relation) has them.
    pub fn accept_relation(&self, marks: &[u8]) -> Result<(), Refusal> {
        crate::accept_relation(self.words(), marks)
    }

    /// Judges a relation, given by its marks: whether it is a governed bisimulation.
    ///
    /// ```
    /// let game: raskjomi::Game = "3 3 / 0 1 0 / 0 0 1 / 0 1 2 / 1 1 1".parse()?;
    /// game.accept_governed(&game.governed_order().marks)?;
    /// // 0 with 2, and not 2 with 0.
    /// assert_eq!(game.accept_governed(&[0b0001_0101, 1]).unwrap_err().place, 2);
    /// # Ok::<(), Box<dyn std::error::Error>>(())
    /// ```
    ///
    /// # Errors
    ///
    /// Refusals 21, 41 and 10, as [`accept_governed`](crate::accept_governed) has them.
    pub fn accept_governed(&self, marks: &[u8]) -> Result<(), Refusal> {
        crate::accept_governed(self.words(), marks)
    }
}
