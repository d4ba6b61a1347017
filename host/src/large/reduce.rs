//! Reductions of a large game, made, and what they are for.

use super::saved::{self, About, SavedError};
use super::{images, large_reduction, large_solution, lifted, reducer};
use super::{LargeGame, LargeReduction, LargeSolution, Misfit};
use crate::Refusal;
use std::fmt;
use std::io::{self, Read, Write};

impl LargeGame {
    /// Reduces the game as far as merging vertices by their moves goes: those of a class have one priority, moves to the same classes, and one
    /// owner where these are several. Nobody has to trust it: [`check_reduction`](LargeGame::check_reduction) judges what it makes.
    ///
    /// ```
    /// use raskjomi::{LargeGame, Misfit};
    /// // Vertex 0 is Even's and 1 is Odd's, both of priority 1; each has one edge, to 2, a loop of priority 0.
    /// let game = LargeGame::new(vec![3, 3, 1, 1, 0, 0, 1, 0, 0, 1, 2, 2, 2, 2])?;
    /// let reduction = game.reduce()?;
    /// assert!(game.check_reduction(&reduction).is_ok());
    /// assert_eq!(reduction.classes(), [0, 0, 1]);
    /// assert_eq!(reduction.reduced().words(), [2, 2, 1, 0, 0, 0, 0, 1, 1, 1]);
    /// let stuck = LargeGame::new(vec![2, 1, 0, 0, 0, 0, 0, 1])?;
    /// assert_eq!(stuck.reduce(), Err(Misfit::NoMove { vertex: 1 }));
    /// # Ok::<(), Box<dyn std::error::Error>>(())
    /// ```
    ///
    /// # Errors
    ///
    /// A vertex that has no edge out.
    pub fn reduce(&self) -> Result<LargeReduction, Misfit> {
        let classes = reducer::classes(self.words());
        let words = reducer::reduced(self.words(), &classes);
        let certificate = images::make(self.words(), &words, &classes)?;
        let reduced = LargeGame::new(words).expect("a table of classes is well formed");
        Ok(LargeReduction::new(reduced, classes, certificate))
    }

    /// Makes the certificate of a reduction from elsewhere. Every right one has one, as long as the reduced game has each edge once.
    ///
    /// ```
    /// use raskjomi::{LargeGame, Misfit, Player, Unreduced};
    /// // Vertices 0 and 1 have edges to 2 and 3, loops of priorities 1 and 2; 0 is Even's and 1 is Odd's.
    /// let game = LargeGame::new(vec![4, 6, 0, 0, 1, 2, 0, 1, 0, 0, 0, 0, 1, 1, 2, 3, 2, 3, 2, 3, 2, 3])?;
    /// let reduced = LargeGame::new(vec![3, 4, 0, 1, 2, 0, 0, 0, 0, 0, 1, 2, 1, 2, 1, 2])?;
    /// let wrong = game.certify_reduction(reduced.clone(), vec![0, 0, 1, 2]).unwrap_err();
    /// assert_eq!(wrong, Unreduced::Misfit(Misfit::Owner { vertex: 1, class: 0, owner: Player::Odd }));
    /// let short = game.certify_reduction(reduced, vec![0, 0, 1]).unwrap_err();
    /// assert!(matches!(short, Unreduced::Refused(refusal) if refusal.number == 98));
    /// # Ok::<(), raskjomi::Refusal>(())
    /// ```
    ///
    /// # Errors
    ///
    /// Refusals 97 to 99 of the reduced game and the classes, or else a vertex, an edge or a class that doesn't fit.
    pub fn certify_reduction(
        &self,
        reduced: LargeGame,
        classes: Vec<u32>,
    ) -> Result<LargeReduction, Unreduced> {
        // No reduction has a certificate of no words, so that 100 or 101 says that it passes all refusals before.
        match large_reduction(self.words(), reduced.words(), &classes, &[]) {
            Err(refusal) if refusal.number < 100 => return Err(Unreduced::Refused(refusal)),
            _ => (),
        }
        let certificate = images::make(self.words(), reduced.words(), &classes)?;
        Ok(LargeReduction::new(reduced, classes, certificate))
    }
}

impl LargeReduction {
    /// The solution of a game that a solution of its reduced game gives: each vertex has its class's winner, and moves to the class that its own
    /// class moves to. Nobody has to trust it: [`LargeGame::certify`] and [`LargeGame::check`] judge it.
    ///
    /// ```
    /// use raskjomi::{LargeGame, LargeSolution, Player};
    /// let game = LargeGame::new(vec![3, 3, 1, 1, 0, 0, 1, 0, 0, 1, 2, 2, 2, 2])?;
    /// let reduction = game.reduce()?;
    /// let solution = LargeSolution::new(&[Player::Even, Player::Even], &[0, 1]);
    /// let lifted = reduction.lift(&game, &solution)?;
    /// assert_eq!(lifted.words(), [0, 0, 0, 0, 1, 2]);
    /// game.check(&lifted, &game.certify(&lifted)?)?;
    /// # Ok::<(), Box<dyn std::error::Error>>(())
    /// ```
    ///
    /// # Errors
    ///
    /// What keeps it from being a reduction of the game, refusals 97 to 106, or the solution from being one of the reduced game, 81 to 84.
    pub fn lift(
        &self,
        game: &LargeGame,
        solution: &LargeSolution,
    ) -> Result<LargeSolution, Refusal> {
        game.check_reduction(self)?;
        match large_solution(self.reduced().words(), solution.words(), &[]) {
            Err(refusal) if refusal.number < 85 => return Err(refusal),
            _ => (),
        }
        let (of_game, reduced) = (game.words(), self.reduced().words());
        let words = lifted::solution(of_game, reduced, self.classes(), solution.words());
        Ok(LargeSolution::from_words(words))
    }

    /// The same classes with a certificate that was saved.
    ///
    /// # Errors
    ///
    /// What can't be read, or is the certificate of another game or reduction.
    pub fn load(
        input: impl Read,
        game: &LargeGame,
        reduced: LargeGame,
        classes: Vec<u32>,
    ) -> Result<LargeReduction, SavedError> {
        let about = About::reduction(game.words(), reduced.words(), &classes);
        let certificate = saved::read(input, about)?;
        Ok(LargeReduction::new(reduced, classes, certificate))
    }

    /// Writes the certificate in a form that tells of which reduction it is: docs/LARGE.md has it.
    ///
    /// ```
    /// use raskjomi::{LargeGame, LargeReduction};
    /// let game = LargeGame::new(vec![3, 3, 1, 1, 0, 0, 1, 0, 0, 1, 2, 2, 2, 2])?;
    /// let (reduction, mut file) = (game.reduce()?, Vec::new());
    /// reduction.save(&mut file, &game)?;
    /// let (reduced, classes) = (reduction.reduced().clone(), reduction.classes().to_vec());
    /// assert_eq!(LargeReduction::load(&*file, &game, reduced.clone(), classes)?, reduction);
    /// // The certificate of other classes.
    /// assert!(LargeReduction::load(&*file, &game, reduced, vec![0, 1, 1]).is_err());
    /// # Ok::<(), Box<dyn std::error::Error>>(())
    /// ```
    ///
    /// # Errors
    ///
    /// Those of `out`.
    pub fn save(&self, out: impl Write, game: &LargeGame) -> io::Result<()> {
        let about = About::reduction(game.words(), self.reduced().words(), self.classes());
        saved::write(out, about, self.certificate())
    }
}

/// Why a class for each vertex and a game of the classes get no certificate.
#[derive(Clone, Copy, Debug, PartialEq, Eq)]
#[non_exhaustive]
pub enum Unreduced {
    /// The words aren't those of classes and of a game of them.
    Refused(Refusal),
    /// They are no reduction.
    Misfit(Misfit),
}

impl From<Misfit> for Unreduced {
    fn from(misfit: Misfit) -> Unreduced {
        Unreduced::Misfit(misfit)
    }
}

impl fmt::Display for Unreduced {
    fn fmt(&self, f: &mut fmt::Formatter) -> fmt::Result {
        match self {
            Unreduced::Refused(refusal) => refusal.fmt(f),
            Unreduced::Misfit(misfit) => misfit.fmt(f),
        }
    }
}

impl std::error::Error for Unreduced {}
