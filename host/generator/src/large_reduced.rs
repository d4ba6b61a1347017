//! A game, a reduced game, classes and a certificate as words, and changes of them.

use crate::large_words::{change_length, change_table};
use crate::Lcg;

/// The refusals of the check of a reduction, in sequence.
pub const REDUCTION_REFUSALS: [u32; 20] =
    [1, 2, 4, 5, 6, 91, 92, 94, 95, 96, 97, 98, 99, 100, 101, 102, 103, 104, 105, 106];

/// What the check of a reduction reads.
#[derive(Clone, Debug, PartialEq, Eq)]
pub struct ReducedWords {
    pub game: Vec<u32>,
    pub reduced: Vec<u32>,
    pub classes: Vec<u32>,
    pub certificate: Vec<u32>,
}

impl ReducedWords {
    fn n(&self) -> usize {
        self.classes.len()
    }

    fn k(&self) -> usize {
        self.reduced[0] as usize
    }

    /// Another class of a vertex, one that isn't there now and then.
    pub fn spoil_class(&mut self, lcg: &mut Lcg) {
        let (v, k) = (lcg.below(self.n()), self.k() as u32);
        let any = lcg.below(self.k()) as u32;
        let near = self.classes[v].wrapping_add(lcg.pick(&[1, u32::MAX]));
        self.classes[v] = lcg.pick(&[any, any, near, near, k, u32::MAX]);
    }

    /// Another owner of a vertex or of a class.
    pub fn spoil_owner(&mut self, lcg: &mut Lcg) {
        let words = if lcg.once_in(3) { &mut self.reduced } else { &mut self.game };
        let count = words[0] as usize;
        let place = 2 + count + lcg.below(count);
        words[place] ^= 1;
    }

    /// Another word of the certificate: any number, one near the old one, or another of its words.
    pub fn spoil_image(&mut self, lcg: &mut Lcg) {
        let length = self.certificate.len();
        let place = lcg.below(length);
        let old = self.certificate[place];
        self.certificate[place] = match lcg.below(8) {
            0 => lcg.pick(&[length as u32, u32::MAX]),
            1 | 2 => lcg.below(length) as u32,
            3 => self.certificate[lcg.below(length)],
            4 | 5 => old.wrapping_add(1),
            _ => old.wrapping_sub(1),
        };
    }

    /// Two edges of the reduced game change places, neighbours in one of two cases.
    pub fn swap_edges(&mut self, lcg: &mut Lcg) {
        let (k, q) = (self.k(), self.reduced[1] as usize);
        let e = lcg.below(q);
        let other = if lcg.once_in(2) { lcg.below(q) } else { (e + 1) % q };
        let sources = 2 + 2 * k;
        self.reduced.swap(sources + e, sources + other);
        self.reduced.swap(sources + q + e, sources + q + other);
    }

    /// One of the four is shorter or longer.
    pub fn spoil_length(&mut self, lcg: &mut Lcg) {
        let words = match lcg.below(4) {
            0 => &mut self.game,
            1 => &mut self.reduced,
            2 => &mut self.classes,
            _ => &mut self.certificate,
        };
        change_length(words, lcg);
    }

    /// Two changes, of which the first in sequence is told: both games, or the sequence of the reduced game's edges
    /// and the number of classes.
    pub fn spoil_twice(&mut self, lcg: &mut Lcg) {
        if lcg.once_in(2) {
            change_table(&mut self.game, lcg);
            change_table(&mut self.reduced, lcg);
        } else {
            self.swap_edges(lcg);
            change_length(&mut self.classes, lcg);
        }
    }

    /// One change of any kind.
    pub fn spoil(&mut self, lcg: &mut Lcg) {
        match lcg.below(12) {
            0 => self.spoil_class(lcg),
            1 => self.spoil_owner(lcg),
            2..=5 => self.spoil_image(lcg),
            6 => self.swap_edges(lcg),
            7..=9 => change_table(&mut self.game, lcg),
            10 => change_table(&mut self.reduced, lcg),
            _ => self.spoil_length(lcg),
        }
    }
}
