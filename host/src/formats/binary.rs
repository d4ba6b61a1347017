//! Bytes that are binary, told apart from text by all of them.

use super::places::{Unit, Why};
use crate::large::{FileError, FileErrorKind, FileForm};

/// Whether bytes are binary, where nobody says what they are by all of them.
///
/// ```
/// use raskjomi::formats::{is_binary, Unit};
/// assert_eq!(is_binary(b"1 0", Unit::Word, None), Ok(false));
/// assert_eq!(is_binary(&[1, 0, 2, 0], Unit::Word, None), Ok(true));
/// ```
///
/// # Errors
///
/// Text that isn't plain.
pub fn is_binary(bytes: &[u8], unit: Unit, form: Option<FileForm>) -> Result<bool, FileError> {
    binary(bytes, unit, form).map(|why| why.is_some())
}

/// Why bytes are binary, if they are.
pub(super) fn binary(
    bytes: &[u8],
    unit: Unit,
    form: Option<FileForm>,
) -> Result<Option<Why>, FileError> {
    if let Some(form) = form {
        return Ok((form == FileForm::Binary).then_some(Why::Said));
    }
    let control = not_of_text(bytes);
    if is_packed(bytes, unit) {
        return Ok(Some(control.map_or(Why::Length, Why::Control)));
    }
    if unit == Unit::Word && is_utf_16(bytes) {
        return Err(not_plain(bytes, None));
    }
    match control {
        Some(_) if is_mostly_text(bytes) => Err(not_plain(bytes, control)),
        _ => Ok(control.map(Why::Control)),
    }
}

/// Text with a control character at a byte, or else in UTF-16.
fn not_plain(bytes: &[u8], control: Option<usize>) -> FileError {
    let (mut line, mut column, mut what) = (1, 1, "text in UTF-16".to_string());
    if let Some(byte) = control {
        let before = String::from_utf8_lossy(&bytes[..byte]);
        line = before.matches('\n').count() as u64 + 1;
        column = before.rsplit('\n').next().unwrap_or_default().chars().count() + 1;
        what = format!("control character {}", bytes[byte]);
    }
    let remedy = "save it as plain text, or read it as binary if it is none";
    FileError {
        part: Some(format!("column {column}")),
        kind: FileErrorKind::MaybeBinary,
        ..FileError::at(line, None, what, remedy)
    }
}

/// The first control character that isn't a blank.
fn not_of_text(bytes: &[u8]) -> Option<usize> {
    bytes.iter().position(|byte| byte.is_ascii_control() && !byte.is_ascii_whitespace())
}

/// Whether an input is marks, eight in a byte: it has the length of those. As text, so few bytes could hold all
/// marks of one vertex alone, `0` or `1`; as binary these have unused bits set.
///
/// ```
/// use raskjomi::formats::{is_packed, Unit};
/// // The marks of three vertices take two bytes.
/// assert!(is_packed(b"11", Unit::Mark(2)) && !is_packed(b"1 0", Unit::Mark(2)));
/// ```
pub fn is_packed(bytes: &[u8], unit: Unit) -> bool {
    unit == Unit::Mark(bytes.len()) && !matches!(bytes, b"0" | b"1")
}

/// Whether at least 7 of 8 bytes are of plain text. In a binary table, half of them aren't.
fn is_mostly_text(bytes: &[u8]) -> bool {
    let is_utf_8 = std::str::from_utf8(bytes).is_ok();
    let plain = |byte: &u8| byte.is_ascii_graphic() || byte.is_ascii_whitespace();
    let plain = bytes.iter().filter(|byte| plain(byte) || (is_utf_8 && !byte.is_ascii()));
    8 * plain.count() >= 7 * bytes.len()
}

/// Whether words are text in UTF-16, by a mark at the start or since all are characters of games. A
/// binary table or plan has a word 0.
fn is_utf_16(bytes: &[u8]) -> bool {
    let of_games =
        |low: u8| low.is_ascii_digit() || low.is_ascii_whitespace() || b"/#".contains(&low);
    let words = bytes.chunks_exact(2);
    let all = words.len() > 1 && words.remainder().is_empty();
    let mut words = words.map(|pair| (pair[0].max(pair[1]), pair[0].min(pair[1])));
    bytes.starts_with(b"\xff\xfe")
        || bytes.starts_with(b"\xfe\xff")
        || (all && words.all(|(low, high)| high == 0 && of_games(low)))
}
