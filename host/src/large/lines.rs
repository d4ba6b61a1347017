//! The lines where the entries of a file stand, kept where they aren't as expected.

/// The line of each entry.
#[derive(Clone, Debug, Default)]
pub(super) struct Lines {
    count: usize,
    /// An entry, its line, and by how much the lines of the next ones grow.
    steps: Vec<(usize, u64, u64)>,
    last: u64,
}

impl Lines {
    /// Takes the line of the next entry.
    #[inline]
    pub fn push(&mut self, line: u64) {
        if self.count == 0 || self.of(self.count) != line {
            self.steps.push((self.count, line, line - self.last));
        }
        self.last = line;
        self.count += 1;
    }

    pub fn is_empty(&self) -> bool {
        self.count == 0
    }

    /// How many entries there are.
    pub fn count(&self) -> usize {
        self.count
    }

    /// The line of an entry.
    pub fn of(&self, entry: usize) -> u64 {
        let place = match self.steps.last() {
            Some(last) if last.0 <= entry => self.steps.len(),
            _ => self.steps.partition_point(|step| step.0 <= entry),
        };
        let (first, line, by) = self.steps[place - 1];
        line + by * (entry - first) as u64
    }
}

#[cfg(test)]
mod tests {
    use super::*;

    #[test]
    fn lines_come_back() {
        let all = [2, 3, 4, 4, 4, 7, 8, 9, 100, 102, 104, 106, 106];
        let mut lines = Lines::default();
        all.iter().for_each(|&line| lines.push(line));
        assert!(all.iter().enumerate().all(|(entry, &line)| lines.of(entry) == line));
    }
}
