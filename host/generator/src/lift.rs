//! A lift's controller.

use crate::Table;

/// The floors of a lift, and how many calls may be open at a time.
struct Lift {
    floors: usize,
    calls: usize,
}

impl Lift {
    /// The vertex of a player with the lift at a floor and a set of calls open.
    fn vertex(&self, floor: usize, open: usize, player: usize) -> u16 {
        ((floor << self.calls | open) * 2 + player) as u16
    }

    /// The calls that are answered at a floor; they are spread over all floors.
    fn answered(&self, floor: usize) -> usize {
        let place = |call: usize| call * (self.floors - 1) / (self.calls - 1).max(1);
        (0..self.calls).filter(|&call| place(call) == floor).fold(0, |all, call| all | 1 << call)
    }

    /// Odd opens a call or none.
    fn requests(&self, floor: usize, open: usize) -> Vec<(u16, u16)> {
        let from = self.vertex(floor, open, 1);
        let closed = (0..self.calls).filter(|call| open >> call & 1 == 0);
        let more = [open].into_iter().chain(closed.map(|call| open | 1 << call));
        more.map(|open| (from, self.vertex(floor, open, 0))).collect()
    }

    /// Even leaves the lift where it is or moves it by a floor, and answers the calls there.
    fn moves(&self, floor: usize, open: usize) -> Vec<(u16, u16)> {
        let from = self.vertex(floor, open, 0);
        let near = floor.saturating_sub(1)..=(floor + 1).min(self.floors - 1);
        near.map(|to| (from, self.vertex(to, open & !self.answered(to), 1))).collect()
    }
}

/// A lift that Even moves and Odd calls, of n vertices, where n is a power of 2 and at least 8; up to three calls are open
/// at a time. The priority is 0 where none is, else 1.
pub fn lift(n: usize) -> Table {
    let calls = [(64, 3), (32, 2)].iter().find(|(least, _)| n >= *least).map_or(1, |found| found.1);
    let lift = Lift { floors: n >> (calls + 1), calls };
    let mut game = Table { priorities: vec![], owners: vec![], edges: vec![] };
    for (floor, open) in (0..n / 2).map(|place| (place >> calls, place % (1 << calls))) {
        game.priorities.extend([(open != 0) as u16; 2]);
        game.owners.extend([0, 1]);
        game.edges.extend(lift.requests(floor, open));
        game.edges.extend(lift.moves(floor, open));
    }
    game
}
