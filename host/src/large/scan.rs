//! The tokens of large files, read a piece at a time.

use super::file_error::FileError;
use std::io::{self, Read};

/// The bytes of a piece.
const PIECE: usize = 1 << 18;

/// The most bytes of a word or of what a message shows of a name.
const SHOWN: usize = 24;

/// A token. The bytes of a name or a word are kept by the scanner.
#[derive(Clone, Copy, Debug, PartialEq, Eq)]
pub(crate) enum Token {
    Number(u32),
    Word,
    Name,
    /// A name without its closing quote.
    Unclosed,
    Comma,
    Semicolon,
    Slash,
    End,
}

/// The tokens of a file one after the other.
pub(crate) struct Scanner<R> {
    input: R,
    piece: Vec<u8>,
    at: usize,
    /// The line of the last token, and the present one.
    pub line: u64,
    present: u64,
    /// The bytes of the last name or word.
    pub text: Vec<u8>,
    /// Why the file couldn't be read further.
    failed: Option<io::Error>,
}

impl<R: Read> Scanner<R> {
    /// The tokens of a file; a mark of the byte order at its start is passed.
    pub fn new(input: R) -> Scanner<R> {
        let mut scanner = Scanner {
            input,
            piece: Vec::new(),
            at: 0,
            line: 1,
            present: 1,
            text: Vec::new(),
            failed: None,
        };
        scanner.refill();
        if scanner.piece.starts_with(b"\xef\xbb\xbf") {
            scanner.at = 3;
        }
        scanner
    }

    /// What is left of the present piece.
    pub fn rest(&self) -> &[u8] {
        &self.piece[self.at..]
    }

    /// The next piece, which is empty at the end; all but the last have a length that 4 divides.
    pub fn next_piece(&mut self) -> Result<&[u8], FileError> {
        if !self.refill() {
            self.end()?;
        }
        Ok(&self.piece)
    }

    /// Takes the next piece in place of the one before; false at the end.
    #[cold]
    fn refill(&mut self) -> bool {
        self.at = 0;
        self.piece.clear();
        if self.failed.is_none() {
            self.failed = self.input.by_ref().take(PIECE as u64).read_to_end(&mut self.piece).err();
        }
        !self.piece.is_empty()
    }

    #[inline]
    fn peek(&mut self) -> Option<u8> {
        if self.at == self.piece.len() && !self.refill() {
            return None;
        }
        Some(self.piece[self.at])
    }

    /// The next token.
    #[inline]
    pub fn next(&mut self) -> Result<Token, FileError> {
        loop {
            let Some(byte) = self.peek() else { return self.end() };
            match byte {
                b'0'..=b'9' => return self.number(),
                b'\n' => self.present += 1,
                b' ' | b'\t' | b'\r' | b'\x0b' | b'\x0c' => (),
                b',' | b';' => {
                    self.line = self.present;
                    self.at += 1;
                    return Ok(if byte == b',' { Token::Comma } else { Token::Semicolon });
                }
                _ => match self.other(byte)? {
                    Some(token) => return Ok(token),
                    None => continue,
                },
            }
            self.at += 1;
        }
    }

    /// The end of the file, if it could be read up to there.
    fn end(&mut self) -> Result<Token, FileError> {
        match self.failed.take() {
            None => Ok(Token::End),
            Some(error) => {
                let remedy = "name a file that can be read";
                Err(FileError::at(self.present, None, error.kind().to_string(), remedy))
            }
        }
    }

    /// Digits up to the largest number of 32 bits.
    #[inline]
    fn number(&mut self) -> Result<Token, FileError> {
        self.line = self.present;
        let mut number = 0u64;
        while let Some(byte) = self.peek() {
            let digit = byte.wrapping_sub(b'0');
            if digit > 9 {
                if byte.is_ascii_alphabetic() {
                    let mut seen = number.to_string().into_bytes();
                    std::mem::swap(&mut self.text, &mut seen);
                    return Ok(self.word());
                }
                break;
            }
            number = number * 10 + u64::from(digit);
            if number > u64::from(u32::MAX) {
                let what = format!("a number from {number} on");
                return Err(FileError::at(
                    self.line,
                    None,
                    what,
                    "write numbers of 32 bits, 0 to 4294967295",
                ));
            }
            self.at += 1;
        }
        Ok(Token::Number(number as u32))
    }

    /// A name, a word, or none where a comment was passed.
    fn other(&mut self, byte: u8) -> Result<Option<Token>, FileError> {
        self.line = self.present;
        self.text.clear();
        match byte {
            b'"' => self.name().map(Some),
            b'#' | b'%' => {
                self.skip_line();
                Ok(None)
            }
            b'/' => {
                self.at += 1;
                if self.peek() == Some(b'/') {
                    self.skip_line();
                    return Ok(None);
                }
                Ok(Some(Token::Slash))
            }
            _ => Ok(Some(self.word())),
        }
    }

    /// Passes what is left of a line.
    fn skip_line(&mut self) {
        while self.peek().is_some() {
            let rest = &self.piece[self.at..];
            match rest.iter().position(|&byte| byte == b'\n') {
                Some(end) => {
                    self.at += end;
                    return;
                }
                None => self.at = self.piece.len(),
            }
        }
    }

    /// The bytes between quotes.
    fn name(&mut self) -> Result<Token, FileError> {
        self.at += 1;
        while self.peek().is_some() {
            let rest = &self.piece[self.at..];
            let end = rest.iter().position(|&byte| byte == b'"');
            let taken = &rest[..end.unwrap_or(rest.len())];
            self.present += taken.iter().filter(|&&byte| byte == b'\n').count() as u64;
            self.text.extend_from_slice(taken);
            self.at += taken.len();
            if end.is_some() {
                self.at += 1;
                return Ok(Token::Name);
            }
        }
        self.end()?;
        Ok(Token::Unclosed)
    }

    /// What is neither number nor name, up to a blank or a mark.
    fn word(&mut self) -> Token {
        while let Some(byte) = self.peek() {
            if byte.is_ascii_whitespace() || b",;\"".contains(&byte) {
                break;
            }
            if self.text.len() < SHOWN {
                self.text.push(byte);
            }
            self.at += 1;
        }
        Token::Word
    }

    /// Whether the last token is this word.
    pub fn is_word(&self, token: Token, word: &str) -> bool {
        token == Token::Word && self.text == word.as_bytes()
    }

    /// Whether the last token, a number, begins a statement of PGSolver's formats: numbers, commas and names up to a semicolon. Where more
    /// comes behind the present piece, a comma decides.
    pub fn in_statement(&self, token: Token) -> bool {
        let (mut rest, mut listed) = (self.rest(), false);
        while let (Token::Number(_), Some((&byte, after))) = (token, rest.split_first()) {
            rest = after;
            match byte {
                b';' => return true,
                b',' => listed = true,
                b'"' => rest = behind(rest, b'"'),
                b'#' | b'%' => rest = behind(rest, b'\n'),
                b'/' if rest.first() == Some(&b'/') => rest = behind(rest, b'\n'),
                _ if byte.is_ascii_whitespace() || byte.is_ascii_digit() || byte == b'-' => (),
                _ => return false,
            }
        }
        listed && self.piece.len() == PIECE
    }

    /// Another token than the one that is wanted.
    pub fn unexpected(
        &self,
        found: Token,
        id: Option<u32>,
        wanted: &str,
        remedy: &str,
    ) -> FileError {
        let shown = || String::from_utf8_lossy(&self.text).replace(char::is_control, "?");
        let found = match found {
            Token::Number(number) => format!("`{number}`"),
            Token::Word => format!("`{}`", shown()),
            Token::Name => "a name".into(),
            Token::Unclosed => {
                let what = "a name without its closing quote";
                return FileError::at(self.line, None, what, "put `\"` at the name's end");
            }
            Token::Comma => "a comma".into(),
            Token::Semicolon => "a semicolon".into(),
            Token::Slash => "a slash".into(),
            Token::End => "the end of the file".into(),
        };
        FileError::at(self.line, id, format!("{found} instead of {wanted}"), remedy)
    }

    /// A number that has to come now.
    #[inline]
    pub fn wanted(
        &mut self,
        id: Option<u32>,
        wanted: &str,
        remedy: &str,
    ) -> Result<u32, FileError> {
        match self.next().map_err(|error| FileError { id, ..error })? {
            Token::Number(number) => Ok(number),
            found => Err(self.unexpected(found, id, wanted, remedy)),
        }
    }
}

/// What comes behind the next of these bytes.
fn behind(bytes: &[u8], mark: u8) -> &[u8] {
    let end = bytes.iter().position(|&byte| byte == mark).map_or(bytes.len(), |place| place + 1);
    &bytes[end..]
}
