//! The pairs of vertices that look alike and aren't merged.

use super::MOST_DRAWN;
use crate::arguments::Arguments;
use crate::failure::Failure;
use crate::game_input::GameInput;
use crate::graph::Graph;

/// Which pairs are shown.
pub enum Apart {
    /// Those that are asked for, merged or not.
    Asked(Vec<(usize, usize)>),
    /// The lowest vertices of classes, wherever two have one priority and one owner.
    Alike(Vec<(usize, usize)>),
    /// None, as the game has too many vertices for all.
    TooMany,
}

impl Apart {
    /// The pairs that `--pair` names; or all that look alike, in a small game.
    pub fn new(
        arguments: &Arguments,
        game: &GameInput,
        graph: &Graph,
        members: &[Vec<usize>],
    ) -> Result<Apart, Failure> {
        let asked = arguments.repeated().iter().filter(|(option, _)| option == PAIR);
        let asked: Result<Vec<_>, _> = asked.map(|(_, pair)| named(game, pair)).collect();
        let asked = asked?;
        if !asked.is_empty() {
            return Ok(Apart::Asked(asked));
        }
        if graph.n() > MOST_DRAWN {
            return Ok(Apart::TooMany);
        }
        let lowest = || members.iter().map(|members| members[0]);
        let pairs = lowest().flat_map(|v| lowest().map(move |w| (v, w)));
        let alike = |&(v, w): &(usize, usize)| {
            v < w && graph.priorities[v] == graph.priorities[w] && graph.evens[v] == graph.evens[w]
        };
        Ok(Apart::Alike(pairs.filter(alike).collect()))
    }

    pub fn pairs(&self) -> &[(usize, usize)] {
        match self {
            Apart::Asked(pairs) | Apart::Alike(pairs) => pairs,
            Apart::TooMany => &[],
        }
    }
}

/// The option that asks for a pair.
pub const PAIR: &str = "--pair";

/// The vertices of `V,W`. A name may have commas: the first of them counts that has a vertex on both sides.
fn named(game: &GameInput, pair: &str) -> Result<(usize, usize), Failure> {
    let find = |word| game.vertices().find(word);
    let sides = pair.match_indices(',').map(|(at, _)| (&pair[..at], &pair[at + 1..]));
    let found = sides.clone().find_map(|(v, w)| find(v).zip(find(w)));
    found.map_or_else(|| Err(unknown(game, pair, sides.clone().next())), Ok)
}

/// What is wrong with a pair, by its first comma.
fn unknown(game: &GameInput, pair: &str, sides: Option<(&str, &str)>) -> Failure {
    let Some((v, w)) = sides else {
        return Failure::usage(format!(
            "page: {PAIR}: no pair `{pair}`; write two vertices with a comma between them, as {PAIR} 0,2"
        ));
    };
    let wrong = [v, w].into_iter().find_map(|word| game.vertex(word, PAIR).err());
    wrong.unwrap_or_else(|| Failure::usage(format!("page: {PAIR}: no pair `{pair}`")))
}
