//! Games for the commands that take those within the limits one way, and larger ones another way.

use crate::failure::Failure;
use crate::game_input::GameInput;
use crate::input::{Input, MOST_BYTES};
use crate::large::{self, Loaded};
use crate::reachable::within;
use crate::source::Source;
use raskjomi::large::{read_game, GameFile};
use raskjomi::{MOST_EDGES, MOST_TABLE_WORDS, MOST_VERTICES};
use std::io::Read;

/// A game within the limits, or one that is handled as larger ones are.
pub enum AnySize {
    Small(GameInput),
    Large(Loaded),
}

impl AnySize {
    /// Reads a game, or the part that is asked for; whatever its size, it is handled as a large one where that is asked for.
    pub fn load(source: Source, large: bool) -> Result<AnySize, Failure> {
        if large {
            return Loaded::load(source).map(AnySize::Large);
        }
        if source.reachable.is_some() {
            let part = Loaded::load(source)?;
            return match within(part.game.size()) {
                true => GameInput::of(part.small()?).map(AnySize::Small),
                false => Ok(AnySize::Large(part)),
            };
        }
        let (mut input, mut first) = (large::opened(source)?, Vec::new());
        let taken = input.by_ref().take(MOST_BYTES as u64 + 1).read_to_end(&mut first);
        taken.map_err(|error| source.unreadable(&error))?;
        if first.len() > MOST_BYTES {
            return Loaded::read(source, first.chain(input)).map(AnySize::Large);
        }
        match read_game(&*first, source.form, source.lowest) {
            Ok(read) if is_large(&read) => Loaded::of(source.name(), read).map(AnySize::Large),
            _ => GameInput::of(Input::game_of(source, first)?).map(AnySize::Small),
        }
    }
}

/// Whether the game of a file is above the limits. Words that are too few even for a game at the limits are no table of a larger one.
fn is_large(read: &GameFile) -> bool {
    let &[n, m, ..] = &read.words[..] else { return false };
    let (n, m, count) = (n as usize, m as usize, read.words.len());
    let is_cut = count < MOST_TABLE_WORDS && count != 2 + 2 * n + 2 * m;
    (n > MOST_VERTICES || m > MOST_EDGES) && !is_cut
}
