//! Solutions in PGSolver's format, `paritysol N; id winner strategy; ..`, and the plans that they give.

use super::vertices::Vertices;
use crate::large::paritysol::{each_entry, no_line, twice, Entry, NO_STRATEGY, REMEDY};
use crate::large::scan::Scanner;
use crate::large::FileError;
use crate::{Game, Plan, Player};
use std::collections::HashMap;

/// Who wins from each vertex, and where the winner goes from its own vertices.
///
/// ```
/// use raskjomi::formats::{read_game, Solution};
/// use raskjomi::Player;
/// let file = read_game(b"parity 9; 3 2 0 5,9; 5 1 1 3; 9 0 0 9;")?;
/// let solution = Solution::parse(b"paritysol 9; 3 0 5; 5 0; 9 0 9;")?;
/// let (winner, plan) = solution.plan(&file.game, &file.vertices, 0)?;
/// assert_eq!((winner, plan.positions()), (Player::Even, &[0, 1][..]));
/// file.game.accept_plan(winner, &plan)?;
/// # Ok::<(), Box<dyn std::error::Error>>(())
/// ```
#[derive(Clone, Debug)]
pub struct Solution {
    of: HashMap<u32, Entry>,
}

impl Solution {
    /// Reads a solution, with or without its first line. Lines for vertices that no plan comes to may be missing.
    ///
    /// ```
    /// use raskjomi::formats::Solution;
    /// assert!(Solution::parse(b"paritysol 1; 0 0 1; 1 0 -1;").is_ok());
    /// let error = Solution::parse(b"0 0 1;\n0 0 1;").unwrap_err();
    /// assert!(error.to_string().starts_with("line 2, id 0: line 1 has this id already; "));
    /// ```
    ///
    /// # Errors
    ///
    /// What is wrong with the file, with its line.
    pub fn parse(text: &[u8]) -> Result<Solution, FileError> {
        let (mut scanner, mut of) = (Scanner::new(text), HashMap::new());
        let first = scanner.next()?;
        each_entry(&mut scanner, first, |entry| match of.insert(entry.id, entry) {
            Some(Entry { line: before, .. }) => Err(twice(entry, before)),
            None => Ok(()),
        })?;
        Ok(Solution { of })
    }

    /// The winner of a vertex, and the plan that starts there: a position for each vertex that the winner's
    /// choices and all the opponent's moves lead to, as they are found, breadth first. Nobody has judged it.
    ///
    /// ```
    /// use raskjomi::formats::{Solution, Vertices};
    /// let game: raskjomi::Game = "3 3 / 0 1 0 / 0 0 1 / 0 1 2 / 1 1 1".parse()?;
    /// let (solution, names) = (Solution::parse(b"0 1;")?, Vertices::numbers(3));
    /// let error = solution.plan(&game, &names, 0).unwrap_err();
    /// assert_eq!(error.to_string(), "no line for vertex 1; solve the whole game");
    /// # Ok::<(), Box<dyn std::error::Error>>(())
    /// ```
    ///
    /// # Errors
    ///
    /// The first vertex that the plan comes to without a line, with another winner, or with a choice that is no successor.
    pub fn plan(
        &self,
        game: &Game,
        vertices: &Vertices,
        start: usize,
    ) -> Result<(Player, Plan), FileError> {
        let winner = self.entry(vertices, start)?.winner;
        let (mut found, mut links) = (vec![start as u16], Vec::new());
        let mut position = 0;
        while position < found.len() {
            for next in self.moves(game, vertices, found[position].into(), winner)? {
                let place = found.iter().position(|&vertex| usize::from(vertex) == next);
                let place = place.unwrap_or_else(|| {
                    found.push(next as u16);
                    found.len() - 1
                });
                links.push((position as u16, place as u16));
            }
            position += 1;
        }
        let winner = if winner == crate::EVEN { Player::Even } else { Player::Odd };
        Ok((winner, Plan::new(&found, &links)))
    }

    /// Where the plan goes from a vertex that its winner has to win from.
    fn moves(
        &self,
        game: &Game,
        vertices: &Vertices,
        vertex: usize,
        winner: u32,
    ) -> Result<Vec<usize>, FileError> {
        let entry = self.entry(vertices, vertex)?;
        let bad = |what: &str, remedy: &str| {
            let part = Some(format!("vertex {}", vertices.label(vertex)));
            Err(FileError { part, ..FileError::at(entry.line, None, what, remedy) })
        };
        if entry.winner != winner {
            return bad(
                "the plan comes here, and the other player is said to win",
                "solve the game again: a winner never leaves the vertices that it wins from",
            );
        }
        let mut successors: Vec<usize> = game.successors(vertex).collect();
        successors.sort();
        if u32::from(game.owner(vertex)) != winner {
            return Ok(successors);
        }
        let Some(choice) = entry.choice else { return bad(NO_STRATEGY, REMEDY) };
        match vertices.find_id(choice).filter(|next| successors.contains(next)) {
            Some(next) => Ok(vec![next]),
            None => bad(
                &format!("strategy {choice} is no successor of it"),
                &format!("name one of its successors: {}", vertices.listed(&successors)),
            ),
        }
    }

    fn entry(&self, vertices: &Vertices, vertex: usize) -> Result<Entry, FileError> {
        let entry = self.of.get(&vertices.id(vertex)).copied();
        entry.ok_or_else(|| no_line(&vertices.label(vertex)))
    }
}
