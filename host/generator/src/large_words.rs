//! A game, a solution and a certificate as words, and changes of them.

use crate::{LargeTable, Lcg};

/// The refusals of the check of a solution, in sequence.
pub const LARGE_REFUSALS: [u32; 14] = [1, 2, 4, 5, 6, 81, 82, 83, 84, 85, 86, 87, 88, 89];

/// What the check of a solution reads.
#[derive(Clone, Debug, PartialEq, Eq)]
pub struct LargeWords {
    pub game: Vec<u32>,
    pub solution: Vec<u32>,
    pub certificate: Vec<u32>,
}

/// The certificate of the order in which the vertices stand: their places, they themselves, and for each place
/// the last of those after it that are over it without a gap.
pub fn certificate_of(game: &LargeTable, winners: &[u32], order: &[u32]) -> Vec<u32> {
    let n = game.n();
    let (mut places, mut ends) = (vec![0; n], vec![0; n]);
    for (i, &v) in order.iter().enumerate() {
        places[v as usize] = i as u32;
    }
    for i in (0..n).rev() {
        let priority = |place: usize| game.priorities[order[place] as usize];
        let own = priority(i) % 2 == winners[order[i] as usize];
        let over = |j: usize| priority(j) > priority(i) || (priority(j) == priority(i) && own);
        let mut next = i + 1;
        while next < n && over(next) {
            next = ends[next] as usize + 1;
        }
        ends[i] = next as u32 - 1;
    }
    [&places[..], order, &ends].concat()
}

/// The vertices in some order, not too far from their numbers' in one of two cases.
pub fn some_order(lcg: &mut Lcg, n: usize) -> Vec<u32> {
    let mut order: Vec<u32> = (0..n as u32).collect();
    if lcg.once_in(2) {
        lcg.shuffle(&mut order);
    } else {
        order.rotate_left(lcg.below(n));
    }
    order
}

/// Another word of a game's table.
pub(crate) fn change_table(table: &mut [u32], lcg: &mut Lcg) {
    let (n, place) = (table[0], lcg.below(table.len()));
    let old = table[place];
    let near = lcg.pick(&[old.wrapping_add(1), old.wrapping_sub(1), old ^ 1]);
    let any = lcg.below(n as usize) as u32;
    table[place] = lcg.pick(&[near, near, any, n, u32::MAX]);
}

/// Fewer words, or more.
pub(crate) fn change_length(words: &mut Vec<u32>, lcg: &mut Lcg) {
    let length = words.len();
    let any = lcg.below(length);
    words.resize(lcg.pick(&[0, 1, 2, length - 1, length + 1, length + 2, any]), 0);
}

impl LargeWords {
    fn n(&self) -> usize {
        self.solution.len() / 2
    }

    fn m(&self) -> usize {
        (self.game.len() - 2) / 2 - self.n()
    }

    /// Another winner at a vertex.
    pub fn spoil_winner(&mut self, lcg: &mut Lcg) {
        let v = lcg.below(self.n());
        self.solution[v] = 1 - self.solution[v];
    }

    /// Another edge, of the same vertex where there is one, as a vertex's move.
    pub fn spoil_move(&mut self, lcg: &mut Lcg) {
        let (n, m) = (self.n(), self.m());
        let v = lcg.below(n);
        let sources = &self.game[2 + 2 * n..2 + 2 * n + m];
        let own = |j: &usize| sources[*j] == v as u32 && *j as u32 != self.solution[n + v];
        let start = lcg.below(m);
        let other = (start..m).chain(0..start).find(own);
        self.solution[n + v] = other.unwrap_or_else(|| lcg.below(m + 1)) as u32;
    }

    /// Another word of the solution, one that is no winner or no edge now and then.
    pub fn spoil_solution(&mut self, lcg: &mut Lcg) {
        let (m, place) = (self.m() as u32, lcg.below(self.solution.len()));
        let old = self.solution[place];
        let near = [old.wrapping_add(1), old.wrapping_sub(1)];
        self.solution[place] = lcg.pick(&[near[0], near[1], 2, m, u32::MAX]);
    }

    /// Another word of the certificate: any number, or one near the old one.
    pub fn spoil_word(&mut self, lcg: &mut Lcg) {
        let (n, place) = (self.n(), lcg.below(self.certificate.len()));
        let old = self.certificate[place];
        self.certificate[place] = match lcg.below(8) {
            0 => lcg.pick(&[n as u32, n as u32 + 1, u32::MAX]),
            1..=3 => lcg.below(n) as u32,
            4 | 5 => old.wrapping_add(1),
            _ => old.wrapping_sub(1),
        };
    }

    /// The end of each run is any place from its own on.
    pub fn draw_ends(&mut self, lcg: &mut Lcg) {
        let n = self.n();
        for i in 0..n {
            self.certificate[2 * n + i] = lcg.between(i, n - 1) as u32;
        }
    }

    /// Two vertices change places; the ends of runs are as they were.
    pub fn swap_places(&mut self, lcg: &mut Lcg) {
        let n = self.n();
        let i = lcg.below(n);
        let j = if lcg.once_in(2) { lcg.below(n) } else { (i + 1) % n };
        let [v, w] = [i, j].map(|place| self.certificate[n + place] as usize);
        self.certificate.swap(v, w);
        self.certificate.swap(n + i, n + j);
    }

    /// Another word of the game.
    pub fn spoil_game(&mut self, lcg: &mut Lcg) {
        change_table(&mut self.game, lcg);
    }

    /// One of the three is shorter or longer.
    pub fn spoil_length(&mut self, lcg: &mut Lcg) {
        let words = match lcg.below(3) {
            0 => &mut self.game,
            1 => &mut self.solution,
            _ => &mut self.certificate,
        };
        change_length(words, lcg);
    }

    /// One change of any kind.
    pub fn spoil(&mut self, lcg: &mut Lcg) {
        match lcg.below(10) {
            0 => self.spoil_winner(lcg),
            1 => self.spoil_move(lcg),
            2 => self.spoil_solution(lcg),
            3 | 4 => self.spoil_word(lcg),
            5 | 6 => self.swap_places(lcg),
            7 | 8 => self.spoil_game(lcg),
            _ => self.spoil_length(lcg),
        }
    }
}
