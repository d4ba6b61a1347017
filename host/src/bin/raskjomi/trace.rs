//! Traces that name vertices as the game's file does.

use crate::failure::Failure;
use crate::game_input::GameInput;
use crate::input::{number, unreadable, Input, Unit};
use crate::source::Source;
use raskjomi::formats::{bad_word, Numbers};
use raskjomi::large::name_text;

/// Reads a trace whose words behind its count are ids or names of the game's vertices.
pub fn read(source: Source, game: &GameInput) -> Result<Input, Failure> {
    let (name, bytes) = Input::text(source, "ids or names")?;
    let text = bytes.strip_prefix("\u{feff}".as_bytes()).unwrap_or(&bytes);
    let (mut numbers, mut places) = (Vec::new(), Vec::new());
    for (line, content) in text.split(|&byte| byte == b'\n').enumerate() {
        let words = words(content).ok_or_else(|| unclosed(&name, line + 1))?;
        for (word, written) in words.iter().enumerate() {
            let place = (line + 1, word + 1);
            numbers.push(match numbers.is_empty() {
                true => number(written, u16::MAX)
                    .ok_or_else(|| unreadable(&name, bad_word(place, written, Unit::Word)))?,
                false => game
                    .vertex(written, "TRACE")
                    .map_err(|failure| located(&name, place, failure))?
                    as u16,
            });
            places.push(place);
        }
    }
    Ok(Input { name, read: Numbers::of_words(numbers, places) })
}

/// The words of a line up to a comment; one in quotation marks may have blanks, slashes and # in it. None if a mark isn't closed.
fn words(line: &[u8]) -> Option<Vec<String>> {
    let (mut words, mut rest) = (Vec::new(), line);
    let is_between = |byte: &u8| byte.is_ascii_whitespace() || *byte == b'/';
    loop {
        let between = rest.iter().take_while(|byte| is_between(byte)).count();
        rest = &rest[between..];
        let length = match rest {
            [] | [b'#', ..] => return Some(words),
            [b'"', name @ ..] => 2 + name.iter().position(|&byte| byte == b'"')?,
            _ => {
                let end = rest.iter().position(|byte| is_between(byte) || *byte == b'#');
                end.unwrap_or(rest.len())
            }
        };
        words.push(name_text(&rest[..length]));
        rest = &rest[length..];
    }
}

fn unclosed(name: &str, line: usize) -> Failure {
    Failure::usage(format!(
        "{name}: line {line}: a quotation mark without a second one; write a name between two, in one line"
    ))
}

/// The failure to find a vertex, with the place of its word.
fn located(name: &str, (line, word): (usize, usize), failure: Failure) -> Failure {
    Failure::usage(format!("{name}: line {line}, word {word}: {}", failure.message))
}
