//! A view of a game's words.

/// A game's words, told apart.
#[derive(Clone, Copy)]
pub(super) struct Table<'a> {
    pub n: usize,
    pub m: usize,
    pub priorities: &'a [u32],
    pub owners: &'a [u32],
    pub sources: &'a [u32],
    pub targets: &'a [u32],
}

impl<'a> Table<'a> {
    pub fn new(game: &'a [u32]) -> Table<'a> {
        let (n, m) = (game[0] as usize, game[1] as usize);
        let (priorities, rest) = game[2..].split_at(n);
        let (owners, rest) = rest.split_at(n);
        let (sources, targets) = rest.split_at(m);
        Table { n, m, priorities, owners, sources, targets }
    }
}
