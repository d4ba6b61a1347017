//! Numbers in binary, as decimal text or in PGSolver's format, told apart.

use super::binary::binary;
use super::places::{Places, Unit};
use super::vertices::Vertices;
use super::{format, pgsolver, Format, Refused};
use crate::large::{FileError, FileErrorKind, FileForm, Repeats};
use crate::{pack_marks, Game, Refusal};
use std::str::FromStr;

/// The numbers of a file, with the places where they stand. Nobody has judged them.
#[derive(Clone, Debug)]
#[non_exhaustive]
pub struct Numbers {
    /// The numbers: words, marks, or bytes of eight marks.
    pub numbers: Vec<u16>,
    /// What the vertices are called, if it is a game.
    pub vertices: Vertices,
    /// The successors that stand in their lines a second time, in PGSolver's format.
    pub repeats: Option<Repeats>,
    pub(super) places: Places,
}

impl Numbers {
    /// Reads words or marks; where nobody says what the bytes are, they are told apart. Any table, plan or trace
    /// that the library accepts has a byte 0, 1 or 2 in its binary form, so it isn't taken for text.
    ///
    /// ```
    /// use raskjomi::formats::{Numbers, Unit};
    /// let trace = Numbers::read(b"1 / 0 / 2 # an edge from 0 to 2", Unit::Word, None)?;
    /// assert_eq!(trace.numbers, [1, 0, 2]);
    /// assert_eq!(Numbers::read(b"\x01\0\0\0\x02\0", Unit::Word, None)?.numbers, [1, 0, 2]);
    /// let error = Numbers::read(b"1\n0 two", Unit::Word, None).unwrap_err();
    /// assert!(error.to_string().starts_with("line 2, word 2: `two` is no number from 0 to 65535; "));
    /// # Ok::<(), raskjomi::large::FileError>(())
    /// ```
    ///
    /// # Errors
    ///
    /// A word that is no number, with its line, or text that isn't plain.
    pub fn read(bytes: &[u8], unit: Unit, form: Option<FileForm>) -> Result<Numbers, FileError> {
        let Some(why) = binary(bytes, unit, form)? else { return from_text(bytes, unit) };
        Ok(Numbers::new(from_binary(bytes, unit), Places::Binary(unit, why)))
    }

    /// Reads the words of a game, in PGSolver's format if its first word or line says so. There the highest
    /// priority decides, unless `lowest` says otherwise, and priorities go through the conversion. A game that the reader
    /// refuses keeps them: [`Game`] judges it.
    ///
    /// ```
    /// use raskjomi::formats::Numbers;
    /// let read = Numbers::game(b"parity 1;\n0 2 0 1;\n1 1 0 5;", None, false);
    /// assert!(read.is_err(), "5 is no vertex");
    /// let read = Numbers::game(b"parity 1;\n0 2 0 1;\n1 1 0 0;", None, false)?;
    /// assert_eq!(read.numbers, [2, 2, 0, 1, 0, 0, 0, 1, 1, 0]);
    /// assert_eq!(read.place(3, ""), "line 3, id 1");
    /// # Ok::<(), raskjomi::formats::ReadError>(())
    /// ```
    ///
    /// # Errors
    ///
    /// What is wrong with the file, or refusal 36 of the conversion.
    pub fn game(
        bytes: &[u8],
        form: Option<FileForm>,
        lowest: bool,
    ) -> Result<Numbers, super::ReadError> {
        match format(bytes).filter(|_| form != Some(FileForm::Binary)) {
            None => {
                let read = Numbers::read(bytes, Unit::Word, form)?;
                let count = read.numbers.first().copied().unwrap_or_default();
                Ok(Numbers { vertices: Vertices::numbers(count.into()), ..read })
            }
            Some(Format::Solution) => {
                let what = "a solution in PGSolver's format, where a game is wanted";
                Err(FileError::of_file(what, "name the game").into())
            }
            Some(Format::Game | Format::Lines) => Ok(from_pgsolver(bytes)?.converted(lowest)?),
        }
    }

    /// Numbers that words of a text stand for, with the line and the word of each, both counted from 1.
    ///
    /// ```
    /// use raskjomi::formats::Numbers;
    /// assert_eq!(Numbers::of_words(vec![7], vec![(2, 1)]).place(0, ""), "line 2, word 1");
    /// ```
    pub fn of_words(numbers: Vec<u16>, places: Vec<(usize, usize)>) -> Numbers {
        Numbers::new(numbers, Places::Text(places))
    }

    /// The words of a part of a game, which no file has, with what its vertices are called.
    ///
    /// ```
    /// use raskjomi::formats::{Numbers, Vertices};
    /// let part = Numbers::of_part(vec![1, 1, 0, 0, 0, 0], Vertices::numbers(1));
    /// assert_eq!(part.place(2, ""), "word 2 from 0 of its table");
    /// ```
    pub fn of_part(numbers: Vec<u16>, vertices: Vertices) -> Numbers {
        Numbers { vertices, ..Numbers::new(numbers, Places::Part) }
    }

    fn new(numbers: Vec<u16>, places: Places) -> Numbers {
        Numbers { numbers, vertices: Vertices::default(), repeats: None, places }
    }

    /// The game where the lowest priority decides.
    fn converted(mut self, lowest: bool) -> Result<Numbers, Refused> {
        let Some(game) = Some(&self.numbers).filter(|_| !lowest).cloned().map(Game::new) else {
            return Ok(self);
        };
        let Ok(game) = game else { return Ok(self) };
        let converted = game.convert().map_err(|refusal| self.refused(refusal))?;
        let even = u32::from(game.priority(0)) + u32::from(converted.priority(0));
        self.vertices = self.vertices.converted(even);
        self.numbers = converted.words().to_vec();
        Ok(self)
    }

    /// Whether the file is decimal text.
    ///
    /// ```
    /// use raskjomi::formats::{Numbers, Unit};
    /// assert!(Numbers::read(b"1 0", Unit::Word, None)?.is_text());
    /// assert!(!Numbers::read(b"\x01\0", Unit::Word, None)?.is_text());
    /// # Ok::<(), raskjomi::large::FileError>(())
    /// ```
    pub fn is_text(&self) -> bool {
        matches!(self.places, Places::Text(_))
    }

    /// A relation's marks, eight in a byte. Of text, `pairs` marks count; where it has fewer, only those that
    /// fill a byte, so that the library finds them too short.
    ///
    /// ```
    /// use raskjomi::formats::{Numbers, Unit};
    /// let marks = Numbers::read(b"1 0\n0 1", Unit::Mark(1), None)?;
    /// assert_eq!(marks.packed(4), [0b1001]);
    /// # Ok::<(), raskjomi::large::FileError>(())
    /// ```
    pub fn packed(&self, pairs: usize) -> Vec<u8> {
        if !self.is_text() {
            return self.numbers.iter().map(|&byte| byte as u8).collect();
        }
        let count = self.numbers.len();
        let taken = if count < pairs { count / 8 * 8 } else { pairs };
        pack_marks(self.numbers[..taken].iter().map(|&mark| mark == 1))
    }

    /// Where a number stands, or where the numbers end, in words and with a detail.
    ///
    /// ```
    /// use raskjomi::formats::{Numbers, Unit};
    /// let trace = Numbers::read(b"1\n0 2", Unit::Word, None)?;
    /// assert_eq!(trace.place(2, "the target"), "line 2, word 2 (the target)");
    /// assert_eq!(trace.place(3, ""), "after line 2, word 2, the last of 3");
    /// # Ok::<(), raskjomi::large::FileError>(())
    /// ```
    pub fn place(&self, index: usize, detail: &str) -> String {
        self.places.at(index, self.numbers.len(), detail)
    }

    /// A refusal of the game, with its place in the file.
    ///
    /// ```
    /// use raskjomi::formats::Numbers;
    /// let read = Numbers::game(b"1 1\n0\n2\n0\n0", None, false)?;
    /// let refusal = raskjomi::read(&read.numbers).unwrap_err();
    /// assert_eq!(read.refused(refusal).place, "line 3, word 1 (owner 2)");
    /// # Ok::<(), raskjomi::formats::ReadError>(())
    /// ```
    pub fn refused(&self, refusal: Refusal) -> Refused {
        let place = refusal.place;
        let number = |index: usize| usize::from(self.numbers[index]);
        let (index, detail) = match refusal.number {
            2 => (place, format!("n is {}", number(0))),
            3 => (place, format!("m is {}", number(1))),
            4 => {
                let (n, m) = (number(0), number(1));
                (place, format!("n is {n} and m is {m}, so {} words", 2 + 2 * n + 2 * m))
            }
            5 => (place, format!("owner {}", number(place))),
            6 => (place, format!("vertex {}", number(place))),
            8 => (2 + place, format!("vertex {}", self.vertices.label(place))),
            36 => (place, format!("vertex {}", self.vertices.label(place - 2))),
            _ => (place, String::new()),
        };
        Refused { refusal, place: self.place(index, &detail) }
    }
}

/// Words low byte first, a last half word with high byte 0; or the bytes as they are.
fn from_binary(bytes: &[u8], unit: Unit) -> Vec<u16> {
    let number = |pair: &[u8]| u16::from_le_bytes([pair[0], pair.get(1).copied().unwrap_or(0)]);
    bytes.chunks(if unit == Unit::Word { 2 } else { 1 }).map(number).collect()
}

/// Words in binary, each low byte first.
///
/// ```
/// assert_eq!(raskjomi::formats::to_bytes(&[1, 0x203]), [1, 0, 3, 2]);
/// ```
pub fn to_bytes(words: &[u16]) -> Vec<u8> {
    words.iter().flat_map(|word| word.to_le_bytes()).collect()
}

/// Decimal numbers between blanks and slashes; `#` starts a comment, in any encoding.
fn from_text(bytes: &[u8], unit: Unit) -> Result<Numbers, FileError> {
    let most = if unit == Unit::Word { u16::MAX } else { 1 };
    let text = String::from_utf8_lossy(bytes);
    let (mut numbers, mut places) = (Vec::new(), Vec::new());
    for (line, content) in text.trim_start_matches('\u{feff}').lines().enumerate() {
        let content = content.split('#').next().unwrap_or_default();
        let words =
            content.split(|c: char| c.is_whitespace() || c == '/').filter(|word| !word.is_empty());
        for (word, digits) in words.enumerate() {
            let place = (line + 1, word + 1);
            numbers.push(number(digits, most).ok_or_else(|| bad_word(place, digits, unit))?);
            places.push(place);
        }
    }
    Ok(Numbers::of_words(numbers, places))
}

/// A game in PGSolver's format, with the priorities of the file.
fn from_pgsolver(text: &[u8]) -> Result<Numbers, FileError> {
    let pgsolver::Parsed { words, places, vertices, repeats } = pgsolver::parse(text)?;
    Ok(Numbers { numbers: words, vertices, repeats, places: Places::Pgsolver(places) })
}

/// A decimal number, digits alone.
///
/// ```
/// use raskjomi::formats::number;
/// assert_eq!([number("7", 9), number("10", 9), number("+7", 9)], [Some(7u16), None, None]);
/// ```
pub fn number<T: FromStr + PartialOrd>(digits: &str, most: T) -> Option<T> {
    let decimal = digits.bytes().all(|byte| byte.is_ascii_digit());
    digits.parse().ok().filter(|number| decimal && *number <= most)
}

/// A word of a text that isn't what the unit asks for, with its line and its number in the line.
///
/// ```
/// let error = raskjomi::formats::bad_word((2, 1), "x", raskjomi::formats::Unit::Word);
/// assert!(error.to_string().starts_with("line 2, word 1: `x` is no number from 0 to 65535; "));
/// ```
pub fn bad_word((line, word): (usize, usize), digits: &str, unit: Unit) -> FileError {
    let mut shown: String = digits.chars().take(24).collect();
    if shown.len() < digits.len() {
        shown += "..";
    }
    let shown = shown.replace(char::is_control, "?");
    let (mut what, mut kind) = (format!("no number from 0 to {}", u16::MAX), FileErrorKind::Plain);
    let remedy = match unit {
        Unit::Mark(bytes) => {
            what = "no mark".into();
            format!(
                "write 0 or 1 for each pair, between blanks or slashes, and comments after #, or give exactly \
                 {bytes} bytes, eight marks in each"
            )
        }
        Unit::Word if digits.ends_with(';') => {
            "a game in PGSolver's format begins with `parity N;`, with N the highest id: put that line first".into()
        }
        Unit::Word if number(digits, u32::MAX).is_some() => {
            kind = FileErrorKind::AboveLimits;
            "write numbers of 16 bits".into()
        }
        Unit::Word => {
            "write decimal numbers between blanks or slashes, and comments after #".to_string()
        }
    };
    let (what, part) = (format!("`{shown}` is {what}"), Some(format!("word {word}")));
    FileError { part, kind, ..FileError::at(line as u64, None, what, remedy) }
}
