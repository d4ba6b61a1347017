//! A solution of a reduced game, lifted to the game. Nothing here has to be trusted: the check of solutions judges it on the game.

use super::table::Table;

/// The solution that follows its classes: at each vertex the winner is its class's, and the edge one whose image is the class's. The winner's
/// plays by it are plays of the reduced game's solution.
///
/// # Panics
/// May panic on words that aren't a reduction and a solution of the reduced game, or of a game that has a vertex without moves.
pub fn solution(game: &[u32], reduced: &[u32], classes: &[u32], of_classes: &[u32]) -> Vec<u32> {
    let (game, reduced) = (Table::new(game), Table::new(reduced));
    let (winners, choices) = of_classes.split_at(reduced.n);
    let mut words: Vec<u32> = classes.iter().map(|&class| winners[class as usize]).collect();
    words.resize(2 * game.n, 0);
    for (edge, (&v, &w)) in (0..).zip(game.sources.iter().zip(game.targets)) {
        let choice = choices[classes[v as usize] as usize];
        if classes[w as usize] == reduced.targets[choice as usize] {
            words[game.n + v as usize] = edge;
        }
    }
    words
}
