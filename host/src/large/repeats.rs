//! Successors that stand in their lines a second time.

use std::collections::HashSet;
use std::fmt;

/// The longest list that is searched without another one beside it.
const SHORT: usize = 16;

/// How many successors of a file stand in their lines a second time, and where the first of them does.
#[derive(Clone, Debug, PartialEq, Eq)]
#[non_exhaustive]
pub struct Repeats {
    /// How many there are.
    pub count: usize,
    /// The line of the vertex that has the first one.
    pub line: u64,
    /// That vertex's id.
    pub id: u64,
}

impl Repeats {
    /// Counts those of one more vertex.
    pub fn add(all: &mut Option<Repeats>, line: u64, id: u64, more: usize) {
        if more > 0 {
            all.get_or_insert(Repeats { count: 0, line, id }).count += more;
        }
    }
}

/// "line 2, id 0: a successor stands there twice, and is read as one edge"
impl fmt::Display for Repeats {
    fn fmt(&self, f: &mut fmt::Formatter) -> fmt::Result {
        let Repeats { count, line, id } = self;
        write!(f, "line {line}, id {id}: ")?;
        match count {
            1 => write!(f, "a successor stands there twice, and is read as one edge"),
            _ => write!(
                f,
                "a successor stands there twice, as {count} do in this file; each is read as one edge"
            ),
        }
    }
}

/// Leaves each of the last numbers, from a place on, where it stands first; returns how many were taken off.
#[inline]
pub(super) fn drop_repeats(all: &mut Vec<u32>, from: usize) -> usize {
    let last = &all[from..];
    let is_short = last.len() <= SHORT;
    if is_short && (1..last.len()).all(|place| !last[..place].contains(&last[place])) {
        return 0;
    }
    drop_later(all, from)
}

#[cold]
fn drop_later(all: &mut Vec<u32>, from: usize) -> usize {
    let (listed, mut seen) = (all.len(), HashSet::new());
    let mut kept = all.split_off(from);
    kept.retain(|&number| seen.insert(number));
    all.extend(kept);
    listed - all.len()
}

#[cfg(test)]
mod tests {
    use super::*;

    #[test]
    fn the_first_ones_stay() {
        let once: Vec<u32> = (0..40).collect();
        for count in [0, 1, 2, 7, 16, 17, 40] {
            let mut all = [&[3, 3], &once[..count]].concat();
            assert_eq!((drop_repeats(&mut all, 2), all.len()), (0, 2 + count));
            all.extend(once[..count].iter().rev());
            assert_eq!(drop_repeats(&mut all, 2), count);
            assert_eq!(all, [&[3, 3], &once[..count]].concat());
        }
    }
}
