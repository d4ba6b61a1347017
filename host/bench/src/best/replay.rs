//! A trace replayed: each entry by rows of the edges that are there, and the table written once, at the end.

use super::{classes, reader};
use crate::baseline::bits::Row;
use crate::baseline::edit::{begun, replayed, to_replay};
use crate::baseline::{refused, EDGES, VERTICES};
use raskjomi::exports::RaskjomiAnswer;

/// A trace replayed, as the library's call of this name.
pub fn replay<const LISTS: bool>(
    table: &mut [u16],
    trace: &[u16],
    marks: &mut [u8],
    spare: &mut [u8],
    numbers: &mut [u16],
) -> RaskjomiAnswer {
    let lent = [marks.len(), spare.len(), numbers.len()];
    let (sizes, entries) = match to_replay(reader::read_whole, table, trace, lent) {
        Ok(read) => read,
        Err(refusal) => return refusal,
    };
    let (done, refusal) = by_width!(sizes.0, run[](table, sizes, entries));
    let k = classes::<LISTS>(begun(table), marks, spare, numbers).classes as usize;
    replayed(table, k, done, refusal)
}

/// Makes the edits until one is refused; the number of those that are made.
fn run<const WORDS: usize, const ROWS: usize>(
    table: &mut [u16],
    (n, m): (usize, usize),
    [from, to]: [&[u16]; 2],
) -> (u32, Option<RaskjomiAnswer>) {
    let mut edited = Edited::<WORDS, ROWS>::start(table, (n, m));
    let mut done = 0;
    let refusal = from.iter().zip(to).find_map(|(&source, &target)| {
        let refusal = edited.enter(source, target).err();
        done += refusal.is_none() as usize;
        refusal
    });
    let Edited { m: edges, most, .. } = edited;
    let (mut sources, mut targets) = ([0; EDGES], [0; EDGES]);
    edited.list([&from[..done], &to[..done]], &mut sources[..edges], &mut targets[..edges]);
    table[1] = edges as u16;
    let (words, behind) = table[2 + 2 * n..2 + 2 * n + 2 * most].split_at_mut(2 * edges);
    words[..edges].copy_from_slice(&sources[..edges]);
    words[edges..].copy_from_slice(&targets[..edges]);
    behind.fill(0);
    (done as u32, refusal)
}

/// A table as it is after some entries.
struct Edited<const WORDS: usize, const ROWS: usize> {
    /// The vertices and the edges at the start.
    n: usize,
    sources: [u16; EDGES],
    targets: [u16; EDGES],
    started: usize,
    /// Whether some edge stood there more than once.
    repeats: bool,
    /// The edges that are there, and those that left.
    there: [Row<WORDS>; ROWS],
    left: [Row<WORDS>; ROWS],
    /// The edges out of each vertex, and in all, with repeats; the most that were there, and that the buffer holds.
    degrees: [u16; VERTICES],
    m: usize,
    most: usize,
    room: usize,
}

impl<const WORDS: usize, const ROWS: usize> Edited<WORDS, ROWS> {
    fn start(table: &[u16], (n, m): (usize, usize)) -> Edited<WORDS, ROWS> {
        let (mut sources, mut targets, mut degrees) = ([0; EDGES], [0; EDGES], [0; VERTICES]);
        let words = &table[2 + 2 * n..];
        sources[..m].copy_from_slice(&words[..m]);
        targets[..m].copy_from_slice(&words[m..2 * m]);
        sources[..m].iter().for_each(|&source| degrees[source as usize] += 1);
        let there: [Row<WORDS>; ROWS] = reader::successors(begun(table));
        let different: u32 = there[..n].iter().map(|row| row.len()).sum();
        let (repeats, left) = ((different as usize) < m, [Row::EMPTY; ROWS]);
        let room = (words.len() / 2).min(EDGES);
        let (started, most) = (m, m);
        Edited { n, sources, targets, started, repeats, there, left, degrees, m, most, room }
    }

    /// An edge comes or goes, or is refused.
    fn enter(&mut self, from: u16, to: u16) -> Result<(), RaskjomiAnswer> {
        let (source, target) = (from as usize, to as usize);
        if source >= self.n || target >= self.n {
            return Err(refused(37, source));
        }
        if !self.there[source].has(target) {
            if self.m >= self.room {
                return Err(refused(39, self.m));
            }
            self.there[source].insert(target);
            self.degrees[source] += 1;
            self.m += 1;
            self.most = self.most.max(self.m);
            return Ok(());
        }
        let copies = self.copies(from, to);
        if self.degrees[source] == copies {
            return Err(refused(38, source));
        }
        self.there[source].remove(target);
        self.left[source].insert(target);
        self.degrees[source] -= copies;
        self.m -= copies as usize;
        Ok(())
    }

    /// How often an edge is there. One that came is there once; of the others one scan tells, where there are repeats.
    fn copies(&self, from: u16, to: u16) -> u16 {
        if !self.repeats || self.left[from as usize].has(to.into()) {
            return 1;
        }
        let edges = self.sources[..self.started].iter().zip(&self.targets);
        edges.filter(|&edge| edge == (&from, &to)).count().max(1) as u16
    }

    /// Lists the edges: those of the start that never left, then those that came last, in sequence.
    fn list(mut self, [from, to]: [&[u16]; 2], sources: &mut [u16], targets: &mut [u16]) {
        let mut kept = 0;
        for (&source, &target) in self.sources[..self.started].iter().zip(&self.targets) {
            if !self.left[source as usize].has(target.into()) {
                (sources[kept], targets[kept]) = (source, target);
                kept += 1;
            }
        }
        let mut end = self.m;
        for (&source, &target) in from.iter().zip(to).rev() {
            if self.there[source as usize].has(target.into()) {
                self.there[source as usize].remove(target.into());
                end -= 1;
                (sources[end], targets[end]) = (source, target);
            }
        }
    }
}
