//! The order by rows of bits: a pass goes from the rows that lost marks in the one before to the rows that can
//! lose some now.

use super::bits::{Row, Rows};
use super::edges::Edges;
use super::game::Game;
use super::{packing, reader, EDGES, STARTS, VERTICES};
use std::hint::black_box;
use std::time::{Duration, Instant};

/// Writes the order into both buffers, of as many bytes as its marks need; the number of passes.
pub fn write_order(game: &Game, marks: &mut [u8], spare: &mut [u8]) -> u32 {
    write(Rounds::start(game, false), game, marks, spare)
}

/// The same of the largest governed bisimulation.
pub fn write_governed(game: &Game, marks: &mut [u8], spare: &mut [u8]) -> u32 {
    write(Rounds::start(game, true), game, marks, spare)
}

fn write(mut rounds: Rounds, game: &Game, marks: &mut [u8], spare: &mut [u8]) -> u32 {
    let passes = rounds.passes();
    rounds.write(game.priorities.len(), marks, spare);
    passes
}

/// The order of an accepted table, into buffers of the exact length: how long reading takes, how long the rows
/// take, and how long packing them into the two buffers does.
pub fn timed(table: &[u16], marks: &mut [u8], spare: &mut [u8]) -> [Duration; 3] {
    let start = Instant::now();
    let (n, m) = reader::read(table).expect("an accepted table");
    let read = start.elapsed();
    let (mut starts, mut places) = ([0; STARTS], [0; EDGES]);
    let game = Game::new(table, n, m, &mut starts, &mut places);
    let mut rounds = Rounds::start(&game, false);
    black_box(rounds.passes());
    let rows = start.elapsed();
    rounds.write(n, marks, spare);
    [read, rows - read, start.elapsed() - rows]
}

/// The rows of a game and of its marks.
struct Rounds {
    edges: Edges,
    /// The w for which (v, w) is marked, for each v.
    marked: Rows,
    /// The rows that lost marks in the last pass.
    changed: Row,
    /// What each of these lost, and its fall.
    lost: Rows,
    falls: Rows,
    /// What rows lose in this pass.
    losses: Rows,
    /// Whether the reverse of what is lost is lost too.
    mirror: bool,
}

impl Rounds {
    /// The rows of a game, and pass 0.
    fn start(game: &Game, mirror: bool) -> Rounds {
        let none = [Row::EMPTY; VERTICES];
        let mut rounds = Rounds {
            edges: Edges::EMPTY,
            marked: none,
            changed: Row::EMPTY,
            lost: none,
            falls: none,
            losses: none,
            mirror,
        };
        let n = game.priorities.len();
        rounds.edges.set_owners(game.owners);
        for v in 0..n {
            game.next.of(v).iter().for_each(|&x| rounds.edges.insert(v, x as usize));
        }
        let all = Row::first(n);
        for v in 0..n {
            rounds.part(game.priorities, all, v);
        }
        rounds.changed = Row::of(&rounds.lost, |row| !row.is_empty());
        rounds
    }

    /// Pass 0 of v: of all pairs, those of unequal priorities are lost. Vertices of one priority lose the same.
    fn part(&mut self, priorities: &[u16], all: Row, v: usize) {
        let equal = priorities[..v].iter().position(|&other| other == priorities[v]);
        (self.marked[v], self.lost[v], self.falls[v]) = match equal {
            Some(u) => (self.marked[u], self.lost[u], self.falls[u]),
            None => {
                let lost = Row::of(priorities, |&other| other != priorities[v]);
                let left = all - lost;
                (left, lost, self.edges.fall_of_all(lost, left))
            }
        };
    }

    /// All passes; their number.
    fn passes(&mut self) -> u32 {
        let mut passes = 1;
        while self.pass() != 0 {
            passes += 1;
        }
        passes
    }

    /// Packs the marks of n vertices into both buffers.
    fn write(&self, n: usize, marks: &mut [u8], spare: &mut [u8]) {
        packing::write_rows(&self.marked, n, marks);
        spare.copy_from_slice(marks);
    }

    /// A pass, and how many marks it clears.
    fn pass(&mut self) -> u32 {
        let near = self.changed.union(&self.edges.predecessors);
        let losing = near.filter(|v| {
            self.losses[v] = self.loss(v);
            !self.losses[v].is_empty()
        });
        let losing = if self.mirror { self.mirrored(losing) } else { losing };
        self.take_out(losing)
    }

    /// Adds the reverse of each loss of these rows; the rows that lose something then.
    fn mirrored(&mut self, rows: Row) -> Row {
        let mut losing = rows;
        rows.each(|v| {
            self.losses[v].each(|w| {
                if !losing.has(w) {
                    self.losses[w] = Row::EMPTY;
                    losing.insert(w);
                }
                self.losses[w].insert(v);
            })
        });
        losing
    }

    /// What v loses, which has a successor whose row changed.
    fn loss(&self, v: usize) -> Row {
        let next = self.edges.successors[v];
        let changed = next & self.changed;
        if !self.edges.odd.has(v) {
            return self.marked[v] & changed.union(&self.falls);
        }
        let mut lost = changed.union(&self.lost);
        next.all(|x| {
            lost = lost - self.marked[x];
            !lost.is_empty()
        });
        if lost.is_empty() {
            return Row::EMPTY;
        }
        self.edges.fall_within(self.marked[v], lost, next.union(&self.marked))
    }

    /// Takes the losses of these rows out; how many marks they are.
    fn take_out(&mut self, rows: Row) -> u32 {
        let mut cleared = 0;
        rows.each(|v| {
            let lost = self.losses[v];
            let left = self.marked[v] - lost;
            (self.marked[v], self.lost[v]) = (left, lost);
            self.falls[v] = self.edges.fall(lost, left);
            cleared += lost.len();
        });
        self.changed = rows;
        cleared
    }
}
