//! Marks in memory: a bit for each pair of vertices, eight in a byte.

/// The bytes that the marks of n vertices take: n × n / 8, rounded up.
///
/// ```
/// assert_eq!([1, 3, 4, 512].map(raskjomi::mark_bytes), [1, 2, 2, 32_768]);
/// ```
pub fn mark_bytes(n: usize) -> usize {
    (n * n).div_ceil(8)
}

/// Whether the pair (v, w) of n vertices is marked. Its mark is number i = v × n + w: bit i mod 8 of byte
/// i div 8, where bit 0 is the lowest.
///
/// ```
/// // The pairs (0, 0), (0, 2), (1, 1), (2, 0) and (2, 2) of three vertices.
/// let marks = [0b0101_0101, 1];
/// assert!(raskjomi::is_marked(&marks, 3, 0, 2) && !raskjomi::is_marked(&marks, 3, 0, 1));
/// ```
///
/// # Panics
///
/// If the marks are too short for the pair.
#[inline]
pub fn is_marked(marks: &[u8], n: usize, v: usize, w: usize) -> bool {
    let i = v * n + w;
    marks[i / 8] >> (i % 8) & 1 == 1
}

/// The bytes of marks that are given one by one, in row order: (0, 0), (0, 1) and so on. Unused bits of the
/// last byte are 0, as the calls that judge a relation want them.
///
/// ```
/// let rows = [[true, false, true], [false, true, false], [true, false, true]];
/// assert_eq!(raskjomi::pack_marks(rows.concat()), [0b0101_0101, 1]);
/// ```
pub fn pack_marks(marks: impl IntoIterator<Item = bool>) -> Vec<u8> {
    let mut bytes = Vec::new();
    for (i, mark) in marks.into_iter().enumerate() {
        if i % 8 == 0 {
            bytes.push(0);
        }
        bytes[i / 8] |= (mark as u8) << (i % 8);
    }
    bytes
}
