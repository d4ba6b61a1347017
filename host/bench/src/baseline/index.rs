//! Pairs grouped by their source, by counting.

/// The place of each source's first target, and the targets.
pub struct Index<'a> {
    starts: &'a [u16],
    targets: &'a [u16],
}

impl<'a> Index<'a> {
    /// Fills zeroed `starts`, one longer than there are sources, and `targets`.
    pub fn build(
        sources: &[u16],
        ends: &[u16],
        starts: &'a mut [u16],
        targets: &'a mut [u16],
    ) -> Index<'a> {
        sources.iter().for_each(|&source| starts[source as usize] += 1);
        let mut total = 0;
        for start in starts.iter_mut() {
            total += *start;
            *start = total;
        }
        for (&source, &end) in sources.iter().zip(ends).rev() {
            let place = &mut starts[source as usize];
            *place -= 1;
            targets[*place as usize] = end;
        }
        Index { starts, targets }
    }

    /// The targets of a source.
    pub fn of(&self, source: usize) -> &[u16] {
        &self.targets[self.starts[source] as usize..self.starts[source + 1] as usize]
    }
}
