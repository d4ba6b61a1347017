//! Classes, and games of classes.

use super::{granted, Game, Memory};
use crate::{Refusal, Size};

/// A call that writes a relation and its classes, and one that writes a game of classes.
type WriteClasses = fn(&[u16], &mut [u8], &mut [u8], &mut [u16]) -> Result<usize, Refusal>;
type WriteTable = fn(&[u16], &mut [u8], &mut [u8], &mut [u16], &mut [u16]) -> Result<Size, Refusal>;

/// A game of classes: the quotient or the reduced game of another.
#[derive(Clone, Debug, PartialEq, Eq)]
#[non_exhaustive]
pub struct Reduced {
    /// The game, whose vertices are the classes.
    pub game: Game,
    /// The class of each vertex of the other game.
    pub classes: Vec<u16>,
}

impl Reduced {
    /// The vertices of each class, ascending.
    ///
    /// ```
    /// let game: raskjomi::Game = "3 3 / 0 1 0 / 0 0 1 / 0 1 2 / 1 1 1".parse()?;
    /// assert_eq!(game.reduce().members(), [vec![0, 2], vec![1]]);
    /// # Ok::<(), raskjomi::formats::ReadError>(())
    /// ```
    pub fn members(&self) -> Vec<Vec<usize>> {
        members(&self.classes)
    }

    /// The vertices of one class, ascending.
    ///
    /// ```
    /// let game: raskjomi::Game = "3 3 / 0 1 0 / 0 0 1 / 0 1 2 / 1 1 1".parse()?;
    /// assert!(game.reduce().members_of(0).eq([0, 2]));
    /// # Ok::<(), raskjomi::formats::ReadError>(())
    /// ```
    pub fn members_of(&self, class: u16) -> impl Iterator<Item = usize> + '_ {
        let vertices = self.classes.iter().enumerate();
        vertices.filter(move |(_, &of)| of == class).map(|(vertex, _)| vertex)
    }
}

/// The vertices of each class, ascending, from the class of each vertex.
///
/// ```
/// assert_eq!(raskjomi::members(&[0, 1, 0]), [vec![0, 2], vec![1]]);
/// ```
pub fn members(classes: &[u16]) -> Vec<Vec<usize>> {
    let count = classes.iter().max().map_or(0, |&class| usize::from(class) + 1);
    let mut members = vec![Vec::new(); count];
    for (vertex, &class) in classes.iter().enumerate() {
        members[usize::from(class)].push(vertex);
    }
    members
}

impl Game {
    /// The class of each vertex: two share one if each is below the other.
    ///
    /// ```
    /// let game: raskjomi::Game = "3 3 / 0 1 0 / 0 0 1 / 0 1 2 / 1 1 1".parse()?;
    /// assert_eq!(game.classes(), [0, 1, 0]);
    /// # Ok::<(), raskjomi::formats::ReadError>(())
    /// ```
    pub fn classes(&self) -> Vec<u16> {
        self.numbered(crate::classes)
    }

    /// The class of each vertex by the largest governed bisimulation.
    ///
    /// ```
    /// let text = "6 8 / 2 0 0 1 4 2 / 0 0 0 0 0 0 / 0 0 1 2 2 3 4 5 / 1 2 3 3 4 3 4 2";
    /// let game: raskjomi::Game = text.parse()?;
    /// assert_eq!(game.classes(), [0, 1, 2, 3, 4, 0]);
    /// assert_eq!(game.governed_classes(), [0, 1, 2, 3, 4, 5]);
    /// # Ok::<(), raskjomi::formats::ReadError>(())
    /// ```
    pub fn governed_classes(&self) -> Vec<u16> {
        self.numbered(crate::governed_classes)
    }

    fn numbered(&self, write: WriteClasses) -> Vec<u16> {
        let Memory { mut marks, mut spare, mut classes, .. } = Memory::of(self);
        granted(write(self.words(), &mut marks, &mut spare, &mut classes));
        classes
    }

    /// The quotient game, with the classes.
    ///
    /// ```
    /// let game: raskjomi::Game = "5 7 / 2 0 0 1 4 / 0 0 0 0 0 / 0 0 1 2 2 3 4 / 1 2 3 3 4 3 4".parse()?;
    /// let [quotient, reduced] = [game.quotient(), game.reduce()];
    /// assert_eq!((quotient.game.size().edges, reduced.game.size().edges), (7, 6));
    /// # Ok::<(), raskjomi::formats::ReadError>(())
    /// ```
    pub fn quotient(&self) -> Reduced {
        self.merged(crate::quotient)
    }

    /// The reduced game, with the classes.
    ///
    /// ```
    /// let game: raskjomi::Game = "3 3 / 0 1 0 / 0 0 1 / 0 1 2 / 1 1 1".parse()?;
    /// let reduced = game.reduce();
    /// assert_eq!((reduced.game.size().vertices, reduced.classes), (2, vec![0, 1, 0]));
    /// # Ok::<(), raskjomi::formats::ReadError>(())
    /// ```
    pub fn reduce(&self) -> Reduced {
        self.merged(crate::reduce)
    }

    fn merged(&self, write: WriteTable) -> Reduced {
        self.merged_with_marks(write).0
    }

    /// A game of classes, with the marks of the order that the call leaves.
    pub(crate) fn merged_with_marks(&self, write: WriteTable) -> (Reduced, Vec<u8>) {
        let Memory { mut marks, mut spare, mut classes, mut table } = Memory::of(self);
        let size = granted(write(self.words(), &mut marks, &mut spare, &mut classes, &mut table));
        (Reduced { game: Game::granted(table, size), classes }, marks)
    }
}
