//! Games that the reader accepts, with the places of their words in the files that they come from.

use crate::failure::Failure;
use crate::input::Input;
use crate::locate::game_refused;
use crate::source::Source;
use raskjomi::formats::Vertices;
use raskjomi::Game;

/// A game that the reader accepts, and its input.
pub struct GameInput {
    pub input: Input,
    pub game: Game,
}

impl GameInput {
    /// Reads a game table.
    pub fn load(source: Source) -> Result<GameInput, Failure> {
        GameInput::of(Input::game(source)?)
    }

    /// Reads a game table that may begin a longer buffer, with zeros behind it, as the library's edits leave it.
    pub fn load_buffer(source: Source) -> Result<GameInput, Failure> {
        let mut input = Input::game(source)?;
        if let [n, m, ..] = input.numbers[..] {
            let length = 2 + 2 * usize::from(n) + 2 * usize::from(m);
            let behind = input.numbers.get(length..).unwrap_or_default();
            if behind.iter().all(|&word| word == 0) {
                input.read.numbers.truncate(length);
            }
        }
        GameInput::of(input)
    }

    /// The game of an input.
    pub fn of(input: Input) -> Result<GameInput, Failure> {
        match Game::new(input.numbers.clone()) {
            Ok(game) => Ok(GameInput { input, game }),
            Err(refusal) => Err(game_refused(refusal, &input)),
        }
    }

    /// What its vertices are called.
    pub fn vertices(&self) -> &Vertices {
        &self.input.vertices
    }

    /// The number of pairs of vertices.
    pub fn pairs(&self) -> usize {
        self.game.size().vertices.pow(2)
    }

    /// The vertex that a word means, after an option or as an argument.
    pub fn vertex(&self, word: &str, option: &str) -> Result<usize, Failure> {
        let (vertices, count) = (self.vertices(), self.game.size().vertices);
        vertices.find(word).ok_or_else(|| {
            if let Some(several) = vertices.ambiguous(word) {
                return Failure::usage(format!("{several}; write {option} with one of these ids"));
            }
            let what = match vertices.have_ids() {
                true => format!("an id or a name; {}", vertices.range(count)),
                false => format!("a number from 0 to {}", count - 1),
            };
            Failure::usage(format!("no vertex `{word}`; write {option} with {what}"))
        })
    }
}
