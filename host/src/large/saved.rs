//! Certificates in files, so that one program can make them and another check them.
//!
//! A file has words of 32 bits, the lowest byte first, after eight bytes of text:
//!
//! | bytes | what |
//! |---|---|
//! | 0 to 7 | `rskjcert` for a solution's certificate, `rskjredu` for a reduction's |
//! | 8 to 11 | the byte order: 1, so the bytes 1, 0, 0, 0 |
//! | 12 to 15 | the version of this form: 1 |
//! | 16 to 19 | the number n of vertices of the game |
//! | 20 to 23 | the number m of edges of the game |
//! | 24 to 31 | FNV-1a of 64 bits over the bytes of the words that it is about; 0 if the writer doesn't know it |
//! | from 32 on | the words of the certificate: 3n for a solution, n + k + 2m for a reduction to k classes |
//!
//! A solution's certificate is about the words of the game, then the solution's; a reduction's about those of the game, the reduced game and the
//! classes.

use std::fmt;
use std::io::{self, Read, Write};

const ORDER: u32 = 1;
const VERSION: u32 = 1;

/// The bytes before the words.
const HEADER: usize = 32;

/// The bytes that are read or written at once.
const CHUNK: usize = 1 << 16;

/// A kind of certificate: how a file of it begins, and what it is a certificate of besides a game.
#[derive(Clone, Copy, Debug, PartialEq, Eq)]
#[non_exhaustive]
pub enum SavedKind {
    /// Of a solution.
    Solution,
    /// Of a reduction.
    Reduction,
}

impl SavedKind {
    fn magic(self) -> &'static str {
        match self {
            SavedKind::Solution => "rskjcert",
            SavedKind::Reduction => "rskjredu",
        }
    }
}

/// The sentence's word for it.
impl fmt::Display for SavedKind {
    fn fmt(&self, f: &mut fmt::Formatter) -> fmt::Result {
        f.write_str(match self {
            SavedKind::Solution => "solution",
            SavedKind::Reduction => "reduction",
        })
    }
}

/// What a certificate is about.
#[derive(Clone, Copy)]
pub struct About<'a> {
    kind: SavedKind,
    /// The words of the game, then those of the rest.
    words: [&'a [u32]; 3],
    /// How many words the certificate has.
    count: usize,
}

impl<'a> About<'a> {
    /// A solution of a game.
    pub fn solution(game: &'a [u32], solution: &'a [u32]) -> About<'a> {
        let count = 3 * size(game, 0) as usize;
        About { kind: SavedKind::Solution, words: [game, solution, &[]], count }
    }

    /// A reduction of a game.
    pub fn reduction(game: &'a [u32], reduced: &'a [u32], classes: &'a [u32]) -> About<'a> {
        let [n, k, m] = [size(game, 0), size(reduced, 0), size(game, 1)].map(|size| size as usize);
        About { kind: SavedKind::Reduction, words: [game, reduced, classes], count: n + k + 2 * m }
    }

    /// The numbers of the game's vertices and edges.
    fn sizes(&self) -> [u32; 2] {
        [0, 1].map(|place| size(self.words[0], place))
    }

    /// The bytes of a file.
    fn bytes(&self) -> u64 {
        HEADER as u64 + 4 * self.count as u64
    }
}

/// A size at the start of a game, 0 where it isn't there.
fn size(game: &[u32], place: usize) -> u32 {
    game.get(place).copied().unwrap_or_default()
}

/// Why a file isn't the certificate that is wanted.
#[derive(Debug)]
#[non_exhaustive]
pub enum SavedError {
    /// The file can't be read.
    Unreadable(io::Error),
    /// The first bytes aren't those of a certificate of this kind.
    OtherFile(SavedKind),
    /// The words have their highest byte first.
    OtherOrder,
    /// A version that isn't known.
    OtherVersion(u32),
    /// It is for a game of so many vertices and edges.
    OtherSizes(u32, u32),
    /// It is for another game of these sizes, or for another solution or reduction.
    OtherWords(SavedKind),
    /// The file ends after so many bytes, and should have so many.
    CutOff(u64, u64),
    /// The file goes on after this number of bytes.
    TooLong(u64),
}

impl fmt::Display for SavedError {
    fn fmt(&self, f: &mut fmt::Formatter) -> fmt::Result {
        match self {
            SavedError::Unreadable(error) => {
                write!(f, "{}; name a file that can be read", error.kind())
            }
            SavedError::OtherFile(kind) => {
                write!(
                    f,
                    "no certificate of a {kind}, which begins with `{}`; name a saved one",
                    kind.magic()
                )
            }
            SavedError::OtherOrder => {
                write!(
                    f,
                    "words with their highest byte first; write the lowest byte of each word first"
                )
            }
            SavedError::OtherVersion(found) => {
                write!(f, "version {found} of the form, and version {VERSION} is known; save it again with this program")
            }
            SavedError::OtherSizes(n, m) => {
                write!(f, "the certificate of a game with {n} vertices and {m} edges; name the one of this game")
            }
            SavedError::OtherWords(kind) => {
                write!(f, "the certificate of another game or {kind}, by its fingerprint; make it again for these files")
            }
            SavedError::CutOff(found, needed) => {
                write!(f, "cut off: {found} bytes of {needed}; save or copy it again")
            }
            SavedError::TooLong(needed) => {
                write!(f, "more than the {needed} bytes of this certificate; save or copy it again")
            }
        }
    }
}

impl std::error::Error for SavedError {}

/// Writes a certificate, given as words.
pub fn write(mut out: impl Write, about: About, certificate: &[u32]) -> io::Result<()> {
    let [n, m] = about.sizes();
    out.write_all(about.kind.magic().as_bytes())?;
    write_words(&mut out, &[ORDER, VERSION, n, m])?;
    out.write_all(&fingerprint(about.words).to_le_bytes())?;
    write_words(&mut out, certificate)?;
    out.flush()
}

fn write_words(out: &mut impl Write, words: &[u32]) -> io::Result<()> {
    let mut bytes = Vec::with_capacity(CHUNK.min(4 * words.len()));
    for words in words.chunks(CHUNK / 4) {
        bytes.clear();
        bytes.extend(words.iter().flat_map(|word| word.to_le_bytes()));
        out.write_all(&bytes)?;
    }
    Ok(())
}

/// Reads a certificate. The words that come out are judged by nobody yet.
pub fn read(mut input: impl Read, about: About) -> Result<Vec<u32>, SavedError> {
    let magic = about.kind.magic().as_bytes();
    let mut header = Vec::with_capacity(HEADER);
    input.by_ref().take(HEADER as u64).read_to_end(&mut header).map_err(SavedError::Unreadable)?;
    if !header.starts_with(&magic[..header.len().min(magic.len())]) || header.is_empty() {
        return Err(SavedError::OtherFile(about.kind));
    }
    let Ok(header) = <[u8; HEADER]>::try_from(&*header) else {
        return Err(SavedError::CutOff(header.len() as u64, about.bytes()));
    };
    judge_header(&header, about)?;
    let print = u64::from_le_bytes([24, 25, 26, 27, 28, 29, 30, 31].map(|byte| header[byte]));
    if print != 0 && print != fingerprint(about.words) {
        return Err(SavedError::OtherWords(about.kind));
    }
    read_words(input, about)
}

/// The word of a header at a byte.
fn word(header: &[u8; HEADER], byte: usize) -> u32 {
    u32::from_le_bytes([header[byte], header[byte + 1], header[byte + 2], header[byte + 3]])
}

fn judge_header(header: &[u8; HEADER], about: About) -> Result<(), SavedError> {
    let order = word(header, 8);
    if order == ORDER.swap_bytes() {
        return Err(SavedError::OtherOrder);
    }
    if order != ORDER {
        return Err(SavedError::OtherFile(about.kind));
    }
    let version = word(header, 12);
    if version != VERSION {
        return Err(SavedError::OtherVersion(version));
    }
    let sizes = [word(header, 16), word(header, 20)];
    if sizes != about.sizes() {
        return Err(SavedError::OtherSizes(sizes[0], sizes[1]));
    }
    Ok(())
}

/// The words after the header.
fn read_words(input: impl Read, about: About) -> Result<Vec<u32>, SavedError> {
    let count = about.count;
    let (mut words, mut bytes) = (Vec::with_capacity(count), Vec::with_capacity(CHUNK));
    let mut input = input.take(4 * count as u64 + 1);
    while words.len() < count {
        bytes.clear();
        let wanted = (4 * (count - words.len())).min(CHUNK);
        let found = input
            .by_ref()
            .take(wanted as u64)
            .read_to_end(&mut bytes)
            .map_err(SavedError::Unreadable)?;
        if found < wanted {
            let end = (HEADER + 4 * words.len() + found) as u64;
            return Err(SavedError::CutOff(end, about.bytes()));
        }
        words.extend(
            bytes
                .chunks_exact(4)
                .map(|word| u32::from_le_bytes([word[0], word[1], word[2], word[3]])),
        );
    }
    match input.read_to_end(&mut bytes).map_err(SavedError::Unreadable)? {
        0 => Ok(words),
        _ => Err(SavedError::TooLong(about.bytes())),
    }
}

/// FNV-1a of 64 bits over the bytes of words, the lowest first.
fn fingerprint<const N: usize>(words: [&[u32]; N]) -> u64 {
    let bytes = words.into_iter().flatten().flat_map(|word| word.to_le_bytes());
    bytes.fold(0xcbf2_9ce4_8422_2325, |print, byte| {
        (print ^ u64::from(byte)).wrapping_mul(0x0100_0000_01b3)
    })
}

#[cfg(test)]
mod tests {
    use super::*;

    const GAME: [u32; 6] = [1, 1, 0, 0, 0, 0];
    const SOLUTION: [u32; 2] = [0, 0];
    const CERTIFICATE: [u32; 3] = [0, 0, 0];

    fn saved() -> Vec<u8> {
        let mut bytes = Vec::new();
        write(&mut bytes, About::solution(&GAME, &SOLUTION), &CERTIFICATE)
            .expect("memory takes all");
        bytes
    }

    fn changed(byte: usize, to: u8) -> Vec<u8> {
        let mut bytes = saved();
        bytes[byte] = to;
        bytes
    }

    fn told(bytes: &[u8]) -> String {
        read(bytes, About::solution(&GAME, &SOLUTION)).expect_err("an error").to_string()
    }

    #[test]
    fn a_certificate_comes_back() {
        let about = About::solution(&GAME, &SOLUTION);
        assert_eq!(read(&*saved(), about).expect("a certificate"), CERTIFICATE);
        let large: Vec<u32> = (0..300_000).collect();
        let mut bytes = Vec::new();
        let about = About::solution(&[100_000, 7], &[]);
        write(&mut bytes, about, &large).expect("memory takes all");
        assert_eq!(read(&*bytes, about).expect("a certificate"), large);
        assert_eq!(bytes.len(), 32 + 1_200_000);
    }

    #[test]
    fn a_reductions_certificate_is_of_another_kind() {
        let about = About::reduction(&[3, 4], &[2], &[0, 1, 1]);
        let (words, mut bytes): (Vec<u32>, _) = ((0..13).collect(), Vec::new());
        write(&mut bytes, about, &words).expect("memory takes all");
        assert_eq!(bytes.len(), 32 + 4 * 13);
        assert_eq!(read(&*bytes, about).expect("a certificate"), words);
        let told = |bytes: &[u8], about: About| read(bytes, about).expect_err("none").to_string();
        let other = told(&bytes, About::reduction(&[3, 4], &[2], &[0, 1, 0]));
        assert!(other.starts_with("the certificate of another game or reduction"), "{other}");
        let other = told(&bytes, About::solution(&[3, 4], &[]));
        assert!(
            other.starts_with("no certificate of a solution, which begins with `rskjcert`"),
            "{other}"
        );
        let other = told(&saved(), About::reduction(&GAME, &GAME, &[0]));
        assert!(
            other.starts_with("no certificate of a reduction, which begins with `rskjredu`"),
            "{other}"
        );
        bytes[24..32].fill(0);
        let more = told(&bytes, About::reduction(&[3, 4], &[3], &[]));
        assert_eq!(more, "cut off: 84 bytes of 88; save or copy it again");
    }

    #[test]
    fn the_fingerprint_is_the_known_one() {
        assert_eq!(fingerprint([&[], &[]]), 0xcbf2_9ce4_8422_2325);
        assert_eq!(fingerprint([&[u32::from_le_bytes(*b"foob")], &[]]), 0xdd12_0e79_0c25_12af);
        let chongo = [*b"chon", *b"go w"].map(u32::from_le_bytes);
        assert_eq!(fingerprint([&chongo[..1], &chongo[1..]]), 0xd1ed_d10b_5073_44d0);
    }

    #[test]
    fn one_without_a_fingerprint_is_read() {
        let mut bytes = saved();
        bytes[24..32].fill(0);
        let about = About::solution(&GAME, &[1, 0]);
        assert_eq!(read(&*bytes, about).expect("a certificate"), CERTIFICATE);
    }

    #[test]
    fn every_cut_is_told() {
        let all = saved();
        for length in 1..all.len() {
            assert_eq!(
                told(&all[..length]),
                format!("cut off: {length} bytes of 44; save or copy it again")
            );
        }
        assert!(told(&[]).starts_with("no certificate"));
    }

    #[test]
    fn what_is_of_another_kind_is_told() {
        assert!(told(&changed(0, b'R')).starts_with("no certificate"));
        assert!(told(&changed(9, 1)).starts_with("no certificate"));
        assert!(told(&changed(12, 2)).starts_with("version 2 of the form"));
        assert!(told(&changed(16, 2))
            .starts_with("the certificate of a game with 2 vertices and 1 edges"));
        assert!(told(&changed(23, 1))
            .starts_with("the certificate of a game with 1 vertices and 16777217 edges"));
        assert!(told(&changed(31, 0)).starts_with("the certificate of another game"));
        let mut swapped = changed(8, 0);
        swapped[11] = 1;
        assert!(told(&swapped).starts_with("words with their highest byte first"));
        assert!(told(&[saved(), vec![0]].concat()).starts_with("more than the 44 bytes"));
        let other = read(&*saved(), About::solution(&GAME, &[0, 1])).expect_err("another solution");
        assert!(matches!(other, SavedError::OtherWords(SavedKind::Solution)));
    }
}
