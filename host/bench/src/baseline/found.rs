//! The positions and links of a plan that is carried, which are found one by one. Pairs with the same head are a chain.

use super::refused;
use raskjomi::exports::RaskjomiAnswer;

/// The end of a chain.
const NONE: u16 = u16::MAX;

/// What is found: at most P pairs, and L links between them.
pub struct Found<const P: usize, const L: usize, const HEADS: usize, const HASHED: bool> {
    pub positions: [u16; P],
    pub vertices: [u16; P],
    /// The pair found last for each head, and the one found before each pair. A head is an old position, or a hash of both.
    last: [u16; HEADS],
    before: [u16; P],
    pub p: usize,
    sources: [u16; L],
    targets: [u16; L],
    l: usize,
}

impl<const P: usize, const L: usize, const HEADS: usize, const HASHED: bool>
    Found<P, L, HEADS, HASHED>
{
    pub fn nothing() -> Found<P, L, HEADS, HASHED> {
        Found {
            positions: [0; P],
            vertices: [0; P],
            last: [NONE; HEADS],
            before: [NONE; P],
            p: 0,
            sources: [0; L],
            targets: [0; L],
            l: 0,
        }
    }

    /// The number of a pair, which is new if it isn't found yet.
    pub fn number(&mut self, position: u16, vertex: u16) -> Result<u16, RaskjomiAnswer> {
        let hash = 521 * position as usize + vertex as usize;
        let head = if HASHED { hash % HEADS } else { position as usize };
        let mut at = self.last[head];
        while at != NONE && !self.is_pair(at as usize, position, vertex) {
            at = self.before[at as usize];
        }
        if at != NONE {
            return Ok(at);
        }
        if self.p == P {
            return Err(refused(34, 0));
        }
        let new = self.p;
        (self.positions[new], self.vertices[new]) = (position, vertex);
        self.before[new] = self.last[head];
        self.last[head] = new as u16;
        self.p += 1;
        Ok(new as u16)
    }

    /// Whether one of a chain is this pair.
    fn is_pair(&self, at: usize, position: u16, vertex: u16) -> bool {
        self.vertices[at] == vertex && (!HASHED || self.positions[at] == position)
    }

    pub fn link(&mut self, from: usize, position: u16, vertex: u16) -> Result<(), RaskjomiAnswer> {
        let to = self.number(position, vertex)?;
        if self.l == L {
            return Err(refused(34, 0));
        }
        (self.sources[self.l], self.targets[self.l]) = (from as u16, to);
        self.l += 1;
        Ok(())
    }

    pub fn write(&self, output: &mut [u16]) -> Result<RaskjomiAnswer, RaskjomiAnswer> {
        let Found { p, l, .. } = *self;
        let words = 2 + p + 2 * l;
        if output.len() < words {
            return Err(refused(35, words));
        }
        (output[0], output[1]) = (p as u16, l as u16);
        output[2..2 + p].copy_from_slice(&self.vertices[..p]);
        output[2 + p..2 + p + l].copy_from_slice(&self.sources[..l]);
        output[2 + p + l..words].copy_from_slice(&self.targets[..l]);
        let (positions, links) = (p as u32, l as u32);
        Ok(RaskjomiAnswer { positions, links, ..RaskjomiAnswer::default() })
    }
}
