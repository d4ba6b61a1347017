//! Classes by rows.

use crate::baseline::bits::Row;

/// The classes of a relation.
pub struct Classes<const ROWS: usize> {
    /// The lowest member of each vertex's class.
    pub lowest_of: [u16; ROWS],
    /// The lowest member of each class.
    pub lowest: [u16; ROWS],
    pub count: usize,
}

/// Writes the number of each vertex's class.
pub fn write<const WORDS: usize, const ROWS: usize>(
    marked: &[Row<WORDS>; ROWS],
    numbers: &mut [u16],
) -> Classes<ROWS> {
    let mut classes = Classes { lowest_of: [0; ROWS], lowest: [0; ROWS], count: 0 };
    for v in 0..numbers.len() {
        let shared = marked[v].find(|u| u >= v || marked[u].has(v));
        let lowest = shared.map_or(v, |u| u.min(v));
        classes.lowest_of[v] = lowest as u16;
        if lowest == v {
            classes.lowest[classes.count] = v as u16;
            numbers[v] = classes.count as u16;
            classes.count += 1;
        } else {
            numbers[v] = numbers[lowest];
        }
    }
    classes
}
