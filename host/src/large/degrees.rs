//! The owners of a file's vertices and how many successors they have, in a byte each where that will do.

/// The least number of successors that has a place of its own.
const MANY: usize = 127;

/// Owners and numbers of successors, in the sequence of the file.
#[derive(Default)]
pub(super) struct Degrees {
    /// Twice the number of successors, or twice `MANY`, and the owner.
    bytes: Vec<u8>,
    /// The numbers of successors from `MANY` on.
    many: Vec<u32>,
}

impl Degrees {
    #[inline]
    pub fn push(&mut self, owner: u32, degree: usize) {
        self.bytes.push(2 * degree.min(MANY) as u8 + owner as u8);
        if degree >= MANY {
            self.many.push(degree as u32);
        }
    }

    /// The owner of each vertex and its number of successors.
    pub fn iter(&self) -> impl Iterator<Item = (u32, usize)> + '_ {
        let mut many = self.many.iter();
        self.bytes.iter().map(move |&byte| {
            let degree = usize::from(byte / 2);
            let degree = if degree < MANY {
                degree
            } else {
                many.next().map_or(MANY, |&degree| degree as usize)
            };
            (u32::from(byte % 2), degree)
        })
    }
}

#[cfg(test)]
mod tests {
    use super::*;

    #[test]
    fn they_come_back() {
        let all = [(0, 0), (1, 126), (1, 127), (0, 128), (0, 1), (1, 4_000_000_000), (0, 127)];
        let mut degrees = Degrees::default();
        all.iter().for_each(|&(owner, degree)| degrees.push(owner, degree));
        assert!(degrees.iter().eq(all));
    }
}
