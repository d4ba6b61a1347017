//! Direct simulations: the pair test, the order by passes, and the judge of foreign relations.

use crate::calls::{refuse_at, refuse_if};
use crate::{Game, Oracle, Refusal, Trap};

/// A relation between the vertices of one game and those of another, or of the same.
#[derive(Clone, Debug, PartialEq, Eq)]
pub struct Relation {
    columns: usize,
    cells: Vec<bool>,
}

impl Relation {
    /// The pairs (v, w), v below `rows` and w below `columns`, for which `holds`.
    pub fn of(rows: usize, columns: usize, holds: impl Fn(usize, usize) -> bool) -> Relation {
        let cells = (0..rows * columns).map(|i| holds(i / columns, i % columns)).collect();
        Relation { columns, cells }
    }

    /// Whether the pair is in the relation.
    pub fn has(&self, v: usize, w: usize) -> bool {
        self.cells[v * self.columns + w]
    }

    /// Whether each pair is in the relation, in row order.
    pub fn cells(&self) -> &[bool] {
        &self.cells
    }

    /// The marks, eight in a byte: byte j is the sum of 2 to the power k over all k below 8 for which mark
    /// 8 × j + k is there and set.
    pub fn bytes(&self) -> Vec<u8> {
        let byte = |marks: &[bool]| (0..).zip(marks).map(|(k, &set)| set as u8 * 2u8.pow(k)).sum();
        self.cells.chunks(8).map(byte).collect()
    }

    /// The pairs in row order.
    pub fn pairs(&self) -> impl Iterator<Item = (usize, usize)> + '_ {
        let marked = (0..self.cells.len()).filter(|&i| self.cells[i]);
        marked.map(|i| (i / self.columns, i % self.columns))
    }

    /// Takes the pair out.
    pub(crate) fn unmark(&mut self, v: usize, w: usize) {
        self.cells[v * self.columns + w] = false;
    }
}

/// The bytes that the marks of n vertices need: one begins with every eighth mark.
pub fn mark_bytes(n: usize) -> usize {
    (0..n * n).step_by(8).len()
}

impl Oracle {
    /// Whether mark i of lent bytes is set. Beyond their end none is.
    fn mark(&self, bytes: &[u8], i: usize) -> bool {
        let k = if self.falls_for(Trap::HighestBitFirst) { 7 - i % 8 } else { i % 8 };
        bytes.get(i / 8).is_some_and(|byte| byte / 2u8.pow(k as u32) % 2 == 1)
    }

    /// The test for v of `left` and w of `right`: the pair of owners decides which of the
    /// four conditions on their successors holds.
    pub(crate) fn test(&self, left: &Game, right: &Game, v: usize, w: usize, h: &Relation) -> bool {
        let (xs, ys) = (&left.successors[v], &right.successors[w]);
        let in_h = |x: &usize, y: &usize| h.has(*x, *y);
        let mut owners = (left.owner[v], right.owner[w]);
        if self.falls_for(Trap::MixedRowsExchanged) && owners.0 != owners.1 {
            owners = (owners.1, owners.0);
        }
        match owners {
            (0, 0) => xs.iter().all(|x| ys.iter().any(|y| in_h(x, y))),
            (0, _) => xs.iter().all(|x| ys.iter().all(|y| in_h(x, y))),
            (_, 0) => xs.iter().any(|x| ys.iter().any(|y| in_h(x, y))),
            _ => ys.iter().all(|y| xs.iter().any(|x| in_h(x, y))),
        }
    }

    /// Whether the relation is a direct simulation between the two games.
    pub fn simulation(&self, left: &Game, right: &Game, h: &Relation) -> bool {
        let alike = |v: usize, w: usize| left.priority[v] == right.priority[w];
        h.pairs().all(|(v, w)| alike(v, w) && self.test(left, right, v, w, h))
    }

    /// The order and the number of its passes.
    pub fn order_of(&self, game: &Game) -> (Relation, u32) {
        self.order_between(game, game)
    }

    /// The same between two games: v of `left` is below w of `right`.
    pub fn order_between(&self, left: &Game, right: &Game) -> (Relation, u32) {
        self.settled(left, right, |marks| self.pass(left, right, marks))
    }

    /// What passes leave of the pairs of equal priority, and their number.
    pub(crate) fn settled(
        &self,
        left: &Game,
        right: &Game,
        pass: impl Fn(&Relation) -> Relation,
    ) -> (Relation, u32) {
        let all = self.falls_for(Trap::PassZeroMarksAll);
        let alike = |v: usize, w: usize| all || left.priority[v] == right.priority[w];
        let mut marks = Relation::of(left.n(), right.n(), alike);
        let mut passes = 0;
        loop {
            passes += 1;
            let next = pass(&marks);
            if next == marks {
                let last = self.falls_for(Trap::LastPassUncounted) as u32;
                return (marks, passes - last);
            }
            marks = next;
        }
    }

    /// Whether each vertex of `game` has a vertex of `other` that is below it and that it is below.
    pub fn represents(&self, other: &Game, game: &Game) -> bool {
        let up = self.order_between(game, other).0;
        let all_below_some = (0..game.n()).all(|v| (0..other.n()).any(|x| up.has(v, x)));
        all_below_some && {
            let down = self.order_between(other, game).0;
            (0..game.n()).all(|v| (0..other.n()).any(|x| up.has(v, x) && down.has(x, v)))
        }
    }

    /// The marks without those pairs that fail the test under them.
    fn pass(&self, left: &Game, right: &Game, marks: &Relation) -> Relation {
        let mut next = marks.clone();
        for (v, w) in marks.pairs() {
            let at_once = self.falls_for(Trap::UnmarkDuringPass);
            let before = if at_once { &next } else { marks };
            if !self.test(left, right, v, w, before) {
                next.unmark(v, w);
            }
        }
        next
    }

    /// Judges marks from anywhere, as many bytes as are needed or more: refusals 41 and 10.
    pub(crate) fn judge_relation(&self, game: &Game, marks: &[u8]) -> Result<(), Refusal> {
        self.judge_marks(game, marks, |h| h.pairs().find(|&(v, w)| self.pair_fails(game, v, w, h)))
    }

    /// The same for any search for a bad pair.
    pub(crate) fn judge_marks(
        &self,
        game: &Game,
        marks: &[u8],
        find: impl Fn(&Relation) -> Option<(usize, usize)>,
    ) -> Result<(), Refusal> {
        let n = game.n();
        let h = Relation::of(n, n, |v, w| self.mark(marks, v * n + w));
        let bad_pair = refuse_at(find(&h).map(|(v, w)| v * n + w), 10);
        let unused = self.judge_unused(n, marks);
        if self.falls_for(Trap::PairsBeforeUnused) {
            bad_pair.and(unused)
        } else {
            unused.and(bad_pair)
        }
    }

    /// Refusal 41: a bit of the last byte needed is set, and no mark has it.
    fn judge_unused(&self, n: usize, marks: &[u8]) -> Result<(), Refusal> {
        let needed = mark_bytes(n);
        let judged = if self.falls_for(Trap::BitsBeyondJudged) { marks.len() } else { needed };
        let unused = (n * n..8 * judged).find(|&i| self.mark(marks, i));
        let place = match self.trap {
            Some(Trap::UnusedAtTheFirst) => 0,
            Some(Trap::UnusedAsMark) => unused.unwrap_or(0),
            _ => needed - 1,
        };
        refuse_if(unused.is_some() && !self.falls_for(Trap::UnusedTaken), 41, place)
    }

    /// Whether the pair has unequal priorities or fails the test.
    pub(crate) fn pair_fails(&self, game: &Game, v: usize, w: usize, h: &Relation) -> bool {
        let taken = self.falls_for(Trap::UnequalPrioritiesPass);
        let unequal = game.priority[v] != game.priority[w] && !taken;
        unequal || !self.test(game, game, v, w, h)
    }
}
