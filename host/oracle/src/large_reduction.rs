//! The check of a reduction of a game of any size: its refusals word by word, and whether the classes are a reduction.

use crate::calls::{refuse_at, refuse_if};
use crate::large::Game;
use crate::{Answer, Oracle, Refusal, Trap};
use std::collections::BTreeSet;
use std::ops::Range;

/// A game, a reduced game, and for each vertex of the one its class, a vertex of the other.
struct Classed<'a> {
    game: Game<'a>,
    reduced: Game<'a>,
    classes: &'a [u32],
    oracle: Oracle,
}

impl Classed<'_> {
    fn class(&self, v: usize) -> usize {
        self.classes[v] as usize
    }

    fn priority_differs(&self, v: usize) -> bool {
        let [own, of_class] = [self.game.priority(v), self.reduced.priority(self.class(v))];
        match self.oracle.falls_for(Trap::ParityCompared) {
            true => own % 2 != of_class % 2,
            false => own != of_class,
        }
    }

    /// Refusals 97 to 100.
    fn judge_classes(&self) -> Result<(), Refusal> {
        let (n, length) = (self.game.n, self.classes.len());
        let falls_for = |trap| self.oracle.falls_for(trap);
        let taken = length > n && falls_for(Trap::LongClassesTaken);
        let counted = refuse_if(length != n && !taken, 98, length);
        if falls_for(Trap::ClassesBeforeRows) {
            counted?;
        }
        let ends = |e: usize| match falls_for(Trap::TargetsAscend) {
            true => (self.reduced.source(e), self.reduced.target(e)),
            false => (self.reduced.source(e), 0),
        };
        let before = usize::from(falls_for(Trap::DescentAsBefore));
        let descent = (1..self.reduced.m).find(|&e| ends(e) < ends(e - 1));
        refuse_at(descent.map(|e| e - before), 97)?;
        counted?;
        refuse_at((0..n).find(|&v| self.class(v) >= self.reduced.n), 99)?;
        refuse_at((0..n).find(|&v| self.priority_differs(v)), 100)
    }

    /// The edges of each class, which stand by ascending source.
    fn rows(&self) -> Vec<Range<usize>> {
        let mut rows = vec![0..0; self.reduced.n];
        for e in 0..self.reduced.m {
            let row = &mut rows[self.reduced.source(e)];
            row.start = if row.end == 0 { e } else { row.start };
            row.end = e + 1;
        }
        rows
    }

    /// The successors of each vertex of a game.
    fn successors(game: &Game) -> Vec<BTreeSet<usize>> {
        let mut successors = vec![BTreeSet::new(); game.n];
        for j in 0..game.m {
            successors[game.source(j)].insert(game.target(j));
        }
        successors
    }

    /// Whether each vertex has a move, the priority of its class, the moves of its class and no others, and the
    /// owner of its class, unless the class has no choice; and each class has a member.
    fn is_merged(&self) -> bool {
        let [moves, of_class] = [&self.game, &self.reduced].map(Classed::successors);
        let fits = |v: usize| {
            let d = self.class(v);
            let images: BTreeSet<usize> = moves[v].iter().map(|&w| self.class(w)).collect();
            let governed = self.game.owner(v) == self.reduced.owner(d) || of_class[d].len() == 1;
            !images.is_empty()
                && images == of_class[d]
                && self.game.priority(v) == self.reduced.priority(d)
                && governed
        };
        let named: BTreeSet<u32> = self.classes.iter().copied().collect();
        (0..self.game.n).all(fits) && named.len() == self.reduced.n
    }
}

/// A certificate of such classes.
struct Certified<'a> {
    classed: Classed<'a>,
    rows: Vec<Range<usize>>,
    words: &'a [u32],
}

impl Certified<'_> {
    fn start(&self, v: usize) -> usize {
        self.words[v] as usize
    }

    fn member(&self, d: usize) -> usize {
        self.words[self.classed.game.n + d] as usize
    }

    fn image(&self, j: usize) -> usize {
        self.words[self.classed.game.n + self.classed.reduced.n + j] as usize
    }

    fn after(&self, j: usize) -> usize {
        let Game { n, m, .. } = self.classed.game;
        self.words[n + self.classed.reduced.n + m + j] as usize
    }

    /// The edges of the class of v.
    fn row(&self, v: usize) -> &Range<usize> {
        &self.rows[self.classed.class(v)]
    }

    fn falls_for(&self, trap: Trap) -> bool {
        self.classed.oracle.falls_for(trap)
    }

    /// Whether the member that class d names isn't one.
    fn lacks_member(&self, d: usize) -> bool {
        let member = self.member(d);
        member >= self.classed.game.n || self.classed.class(member) != d
    }

    /// Whether the image of edge j isn't an edge from the class of its source to that of its target.
    fn lacks_image(&self, j: usize) -> bool {
        let Classed { game, reduced, .. } = &self.classed;
        let image = self.image(j);
        if image >= reduced.m {
            return true;
        }
        let elsewhere = !self.row(game.source(j)).contains(&image);
        let astray = reduced.target(image) != self.classed.class(game.target(j));
        elsewhere && !self.falls_for(Trap::ImageByTarget)
            || astray && !self.falls_for(Trap::ImageBySource)
    }

    /// Whether the start of v isn't an edge of v whose image is the first of the row.
    fn lacks_start(&self, v: usize) -> bool {
        let Game { m, .. } = self.classed.game;
        let start = self.start(v);
        start >= m
            || self.classed.game.source(start) != v
            || self.image(start) != self.row(v).start && !self.falls_for(Trap::StartWithin)
    }

    /// Whether another player moves at v than at its class, and has a choice there.
    fn is_governed_otherwise(&self, v: usize) -> bool {
        let Classed { game, reduced, oracle, .. } = &self.classed;
        let own = || (0..game.m).filter(|&j| game.source(j) == v);
        let choice = match oracle.trap {
            Some(Trap::OwnersAgree) => true,
            Some(Trap::OwnersDiffer) => false,
            Some(Trap::ChoiceByVertex) => {
                BTreeSet::from_iter(own().map(|j| game.target(j))).len() > 1
            }
            _ => self.row(v).len() > 1,
        };
        choice && game.owner(v) != reduced.owner(self.classed.class(v))
    }

    /// Whether the row of edge j's image goes on, and the edge after j isn't one of the same source with the next
    /// image.
    fn lacks_after(&self, j: usize) -> bool {
        let game = &self.classed.game;
        let (after, next, v) = (self.after(j), self.image(j) + 1, game.source(j));
        let last = next == self.row(v).end;
        if last && !self.falls_for(Trap::AfterTheLast) {
            return false;
        }
        if after >= game.m {
            return true;
        }
        let other_source = match self.falls_for(Trap::AfterOfClass) {
            true => self.row(game.source(after)) != self.row(v),
            false => game.source(after) != v,
        };
        let other_image = match self.falls_for(Trap::AfterAnyLater) {
            true => self.image(after) < next,
            false => self.image(after) != next,
        };
        other_source || (other_image && !last)
    }

    /// Refusals 102 to 106.
    fn judge(&self) -> Result<(), Refusal> {
        let Classed { game, reduced, .. } = &self.classed;
        let empty = (0..reduced.n).find(|&d| self.lacks_member(d));
        refuse_at(empty.filter(|_| !self.falls_for(Trap::EmptyClassTaken)), 102)?;
        refuse_at((0..game.m).find(|&j| self.lacks_image(j)), 103)?;
        refuse_at((0..game.n).find(|&v| self.lacks_start(v)), 104)?;
        refuse_at((0..game.n).find(|&v| self.is_governed_otherwise(v)), 105)?;
        refuse_at((0..game.m).find(|&j| self.lacks_after(j)), 106)
    }
}

impl Oracle {
    /// The check of a reduction by a certificate.
    pub fn large_reduction(
        &self,
        game: &[u32],
        reduced: &[u32],
        classes: &[u32],
        certificate: &[u32],
    ) -> Answer {
        let judged = self.large_classed(game, reduced, classes).and_then(|classed| {
            let length = certificate.len();
            let asked = classed.game.n + classed.reduced.n + 2 * classed.game.m;
            refuse_if(length != asked, 101, length)?;
            Certified { rows: classed.rows(), classed, words: certificate }.judge()
        });
        self.answer(judged.map(|()| Answer::default()))
    }

    /// Whether the classes are a reduction of the game to the reduced game, whatever the sequence of edges.
    pub fn large_merged(&self, game: &[u32], reduced: &[u32], classes: &[u32]) -> bool {
        let [Ok(game), Ok(reduced)] = [game, reduced].map(|words| self.large_game(words)) else {
            return false;
        };
        let inside = classes.iter().all(|&d| (d as usize) < reduced.n);
        let classed = Classed { game, reduced, classes, oracle: *self };
        classes.len() == game.n && inside && classed.is_merged()
    }

    /// The game's refusals, those of the reduced game, then 97 to 100.
    fn large_classed<'a>(
        &self,
        game: &'a [u32],
        reduced: &'a [u32],
        classes: &'a [u32],
    ) -> Result<Classed<'a>, Refusal> {
        let more = if self.falls_for(Trap::ReducedAsGame) { 0 } else { 90 };
        let shifted = |Refusal { number, place }| Refusal { number: number + more, place };
        let read = self.large_game(reduced).map_err(shifted);
        if self.falls_for(Trap::ReducedFirst) {
            read.as_ref().map_err(|refusal| *refusal)?;
        }
        let game = self.large_game(game)?;
        let classed = Classed { game, reduced: read?, classes, oracle: *self };
        classed.judge_classes().map(|()| classed)
    }
}
