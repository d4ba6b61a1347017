//! A solution of the reduced game, lifted to the game. Nothing here has to be trusted: the check of solutions judges it on the game.

use crate::{is_marked, reduce};
use crate::{Certificate, Game, LargeGame, LargeSolution, Reduced, Refusal, EVEN};

impl Game {
    /// The solution of the game that a solution of its reduced game gives, with moves that depend on the vertex alone. Each vertex has its
    /// class's winner. Its *rank* is the lowest place in the certificate of a class that this player wins and that compares with its own: below
    /// it for Even, above it for Odd. The winner moves to a successor of lowest rank. Along the winner's moves and all of the loser's, ranks go
    /// where the places of the classes go or lower, so that they order the vertices as a certificate does. Nobody has to trust it:
    /// [`LargeGame::certify`](crate::LargeGame::certify) and [`LargeGame::check`](crate::LargeGame::check) judge it.
    ///
    /// ```
    /// use raskjomi::{Game, LargeGame, LargeSolution, Player};
    /// // Vertex 0 is Even's and 2 is Odd's, both of priority 0; they lead to 1, which has priority 1 and leads to itself.
    /// let game = Game::new(vec![3, 3, 0, 1, 0, 0, 0, 1, 0, 1, 2, 1, 1, 1])?;
    /// let [reduced, whole] = [&game.reduce().game, &game].map(LargeGame::from);
    /// let solution = LargeSolution::new(&[Player::Odd, Player::Odd], &[0, 1]);
    /// let lifted = game.lift(&solution, &reduced.certify(&solution)?)?;
    /// assert_eq!(lifted.words(), [1, 1, 1, 0, 1, 2]);
    /// whole.check(&lifted, &whole.certify(&lifted)?)?;
    /// # Ok::<(), Box<dyn std::error::Error>>(())
    /// ```
    ///
    /// # Errors
    ///
    /// Refusals 81 to 89 of the solution and the certificate, which are those of the reduced game.
    pub fn lift(
        &self,
        solution: &LargeSolution,
        certificate: &Certificate,
    ) -> Result<LargeSolution, Refusal> {
        let (Reduced { game, classes }, marks) = self.merged_with_marks(reduce);
        LargeGame::from(&game).check(solution, certificate)?;
        let winners = &solution.words()[..game.size().vertices];
        let ranks = ranks(&classes, &marks, winners, certificate.words());
        Ok(by_ranks(self, &classes, winners, &ranks))
    }
}

/// The rank of each class.
fn ranks(classes: &[u16], marks: &[u8], winners: &[u32], places: &[u32]) -> Vec<u32> {
    let lowest: Vec<usize> = (0..winners.len())
        .filter_map(|class| classes.iter().position(|&of| usize::from(of) == class))
        .collect();
    let below = |c: usize, d: usize| is_marked(marks, classes.len(), lowest[c], lowest[d]);
    let compares = |c: usize, d: usize| match winners[c] {
        EVEN => below(d, c),
        _ => below(c, d),
    };
    let rank = |c: usize| {
        let same = (0..winners.len()).filter(|&d| winners[d] == winners[c] && compares(c, d));
        same.map(|d| places[d]).min().expect("a class compares with itself")
    };
    (0..winners.len()).map(rank).collect()
}

/// The solution by the winner and the rank of each class: the edge of a vertex is its first one to a vertex of its winner's of lowest rank.
fn by_ranks(game: &Game, classes: &[u16], winners: &[u32], ranks: &[u32]) -> LargeSolution {
    let (n, m) = (game.size().vertices, game.size().edges);
    let (sources, targets) = game.words()[2 + 2 * n..].split_at(m);
    let class = |v: u16| usize::from(classes[usize::from(v)]);
    let mut best = vec![(true, u32::MAX, 0); n];
    for (edge, (&v, &w)) in (0..).zip(sources.iter().zip(targets)) {
        let found = (winners[class(w)] != winners[class(v)], ranks[class(w)], edge);
        let best = &mut best[usize::from(v)];
        *best = found.min(*best);
    }
    let of_vertices = classes.iter().map(|&class| winners[usize::from(class)]);
    LargeSolution::from_words(of_vertices.chain(best.iter().map(|&(.., edge)| edge)).collect())
}
