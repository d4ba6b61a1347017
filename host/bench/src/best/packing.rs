//! Marks eight in a byte, eight bytes at a time.

use crate::baseline::bits::Row;

/// Writes the marks of n vertices, whose rows these are.
pub fn write_rows<const WORDS: usize>(rows: &[Row<WORDS>], n: usize, marks: &mut [u8]) {
    if n.is_multiple_of(64) {
        for (row, part) in rows.iter().zip(marks.chunks_exact_mut(n / 8)) {
            for (&word, eight) in row.words(n).iter().zip(part.chunks_exact_mut(8)) {
                eight.copy_from_slice(&word.to_le_bytes());
            }
        }
    } else {
        write_parts(rows, n, marks);
    }
}

/// The same where rows end within a word.
fn write_parts<const WORDS: usize>(rows: &[Row<WORDS>], n: usize, marks: &mut [u8]) {
    // The bits that fill no word yet, and their number.
    let (mut held, mut count) = (0u64, 0);
    let (words, rest) = marks.split_at_mut(n * n / 64 * 8);
    let mut words = words.chunks_exact_mut(8);
    for row in &rows[..n] {
        for (k, &word) in row.words(n).iter().enumerate() {
            let more = (n - 64 * k).min(64);
            held |= word << count;
            if count + more < 64 {
                count += more;
                continue;
            }
            if let Some(eight) = words.next() {
                eight.copy_from_slice(&held.to_le_bytes());
            }
            held = if count == 0 { 0 } else { word >> (64 - count) };
            count = count + more - 64;
        }
    }
    rest.copy_from_slice(&held.to_le_bytes()[..rest.len()]);
}
