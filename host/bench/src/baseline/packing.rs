//! Marks eight in a byte, from rows of bits and from bytes 0 and 1.

use super::bits::Row;

/// Bits that are written one after the other, the lowest of a byte first.
struct Bits<'a> {
    bytes: &'a mut [u8],
    /// The bytes that are written.
    done: usize,
    /// The bits that fill no byte yet, and their number.
    held: u64,
    count: usize,
}

impl Bits<'_> {
    /// Writes the first `count` bits of a word.
    fn push(&mut self, word: u64, count: usize) {
        let word = word & (u64::MAX >> (64 - count));
        let all = self.held as u128 | (word as u128) << self.count;
        let (whole, count) = ((self.count + count) / 8, (self.count + count) % 8);
        self.bytes[self.done..self.done + whole].copy_from_slice(&all.to_le_bytes()[..whole]);
        self.done += whole;
        (self.held, self.count) = ((all >> (8 * whole)) as u64, count);
    }

    /// Writes the byte that isn't full; its unused bits are 0.
    fn end(self) {
        if self.count > 0 {
            self.bytes[self.done] = self.held as u8;
        }
    }
}

/// Writes the marks of n vertices, whose rows these are.
pub fn write_rows(rows: &[Row], n: usize, marks: &mut [u8]) {
    let mut bits = Bits { bytes: marks, done: 0, held: 0, count: 0 };
    for row in &rows[..n] {
        for (k, &word) in row.words(n).iter().enumerate() {
            bits.push(word, (n - 64 * k).min(64));
        }
    }
    bits.end();
}

/// Writes marks that are given as bytes 0 and 1.
pub fn write_bytes(bytes: &[u8], marks: &mut [u8]) {
    for (eight, packed) in bytes.chunks(8).zip(marks) {
        *packed = eight.iter().rev().fold(0, |all, mark| all << 1 | mark);
    }
}
