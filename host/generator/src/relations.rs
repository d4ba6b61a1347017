//! Relations for the acceptors: a mark for each pair, in row order.

use crate::Lcg;

/// A relation on n vertices made from the game's order, in one of several ways: the order, a part
/// of it, nothing, the equal pairs, one pair more, or any.
pub fn relation(lcg: &mut Lcg, order: &[bool], n: usize) -> Vec<bool> {
    let mut marks = order.to_vec();
    match lcg.below(7) {
        0 => {}
        1 => thin(lcg, &mut marks, 2),
        2 => thin(lcg, &mut marks, 20),
        3 => marks.fill(false),
        4 => only_equal_pairs(&mut marks, n),
        5 => add_pair(lcg, &mut marks),
        _ => random_marks(lcg, &mut marks),
    }
    marks
}

/// Takes one mark in `count` away, on average.
fn thin(lcg: &mut Lcg, marks: &mut [bool], count: usize) {
    for mark in marks {
        *mark &= !lcg.once_in(count);
    }
}

fn only_equal_pairs(marks: &mut [bool], n: usize) {
    for (i, mark) in marks.iter_mut().enumerate() {
        *mark = i / n == i % n;
    }
}

/// Marks a pair that isn't marked, if there is one.
fn add_pair(lcg: &mut Lcg, marks: &mut [bool]) {
    let unmarked: Vec<usize> = (0..marks.len()).filter(|&i| !marks[i]).collect();
    if !unmarked.is_empty() {
        marks[lcg.pick(&unmarked)] = true;
    }
}

fn random_marks(lcg: &mut Lcg, marks: &mut [bool]) {
    for mark in marks {
        *mark = lcg.once_in(2);
    }
}

/// Sets one or several of the bits that the last byte of n × n marks has to spare, if it has any.
pub fn set_unused_bits(lcg: &mut Lcg, bytes: &mut [u8], n: usize) {
    let used = n * n % 8;
    if let (Some(last), 1..) = (bytes.last_mut(), used) {
        *last |= match lcg.below(3) {
            0 => 1 << used,
            1 => 1 << 7,
            _ => (lcg.between(1, (1 << (8 - used)) - 1) << used) as u8,
        };
    }
}
