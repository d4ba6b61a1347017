//! The check of a solution of a game of any size: its refusals word by word, and whether the solution is right.

use crate::calls::{refuse_at, refuse_if};
use crate::{Answer, Oracle, Refusal, Trap};
use std::collections::{BTreeMap, BTreeSet};

/// The table of a game.
#[derive(Clone, Copy)]
pub(crate) struct Game<'a> {
    pub n: usize,
    pub m: usize,
    words: &'a [u32],
}

impl Game<'_> {
    pub fn priority(&self, v: usize) -> u32 {
        self.words[2 + v]
    }

    pub fn owner(&self, v: usize) -> u32 {
        self.words[2 + self.n + v]
    }

    pub fn source(&self, j: usize) -> usize {
        self.words[2 + 2 * self.n + j] as usize
    }

    pub fn target(&self, j: usize) -> usize {
        self.words[2 + 2 * self.n + self.m + j] as usize
    }
}

/// A game and its solution.
#[derive(Clone, Copy)]
struct Solved<'a> {
    game: Game<'a>,
    words: &'a [u32],
    oracle: Oracle,
}

impl Solved<'_> {
    fn winner(&self, v: usize) -> u32 {
        self.words[v]
    }

    fn choice(&self, v: usize) -> usize {
        self.words[self.game.n + v] as usize
    }

    /// Whether the priority of v is its winner's.
    fn is_own(&self, v: usize) -> bool {
        self.game.priority(v) % 2 == self.winner(v)
    }

    /// Whether the winner's strategy keeps edge j: the chosen one where the winner moves, each where it doesn't.
    fn keeps(&self, j: usize) -> bool {
        let v = self.game.source(j);
        match self.oracle.trap {
            Some(Trap::ChosenEdgesOnly) => self.choice(v) == j,
            Some(Trap::WinnersEdgesAllKept) => true,
            _ => self.winner(v) != self.game.owner(v) || self.choice(v) == j,
        }
    }

    /// Whether the chosen edge of v isn't one of its own.
    fn strays(&self, v: usize) -> bool {
        let chosen = self.choice(v);
        if self.oracle.falls_for(Trap::ChoiceAsTarget) {
            let mut edges = 0..self.game.m;
            return !edges.any(|j| self.game.source(j) == v && self.game.target(j) == chosen);
        }
        chosen >= self.game.m || self.game.source(chosen) != v
    }

    fn leaves(&self, j: usize) -> bool {
        self.keeps(j) && self.winner(self.game.source(j)) != self.winner(self.game.target(j))
    }

    /// The vertices that kept edges reach from v, through priorities no lower than its own.
    fn reached(&self, kept: &[Vec<usize>], v: usize) -> Vec<bool> {
        let (mut reached, mut open) = (vec![false; self.game.n], vec![v]);
        while let Some(from) = open.pop() {
            for &to in &kept[from] {
                if !reached[to] && self.game.priority(to) >= self.game.priority(v) {
                    reached[to] = true;
                    open.push(to);
                }
            }
        }
        reached
    }

    /// Whether a closed walk over kept edges has its lowest priority, which is the loser's, at v.
    fn loses_at(&self, kept: &[Vec<usize>], v: usize) -> bool {
        !self.is_own(v) && self.reached(kept, v)[v]
    }
}

/// A game, its solution and a certificate.
struct Placed<'a> {
    solved: Solved<'a>,
    words: &'a [u32],
}

impl Placed<'_> {
    fn n(&self) -> usize {
        self.solved.game.n
    }

    fn place(&self, v: usize) -> usize {
        self.words[v] as usize
    }

    fn vertex(&self, i: usize) -> usize {
        self.words[self.n() + i] as usize
    }

    /// The last place of the run of place i, as the certificate says.
    fn end(&self, i: usize) -> usize {
        self.words[2 * self.n() + i] as usize
    }

    fn priority(&self, i: usize) -> u32 {
        self.solved.game.priority(self.vertex(i))
    }

    fn falls_for(&self, trap: Trap) -> bool {
        self.solved.oracle.falls_for(trap)
    }

    /// Whether places of equal priority are over place i: where that priority is the winner's.
    fn takes_equals(&self, i: usize) -> bool {
        match self.solved.oracle.trap {
            Some(Trap::EqualIsOver) => true,
            Some(Trap::EqualIsNotOver) => false,
            _ => self.solved.is_own(self.vertex(i)),
        }
    }

    /// For each place the first one after it that isn't over it, n where all are: of a lower priority, or of the
    /// same where that isn't over it.
    fn stops(&self) -> Vec<usize> {
        let mut of_priority: BTreeMap<u32, Vec<usize>> = BTreeMap::new();
        for i in 0..self.n() {
            of_priority.entry(self.priority(i)).or_default().push(i);
        }
        let (mut stops, mut lower) = (vec![0; self.n()], BTreeSet::new());
        for places in of_priority.values() {
            let (before, after): (Vec<_>, Vec<_>) =
                places.iter().partition(|&&i| self.takes_equals(i));
            let stop = |i: usize, lower: &BTreeSet<usize>| {
                lower.range(i + 1..).next().copied().unwrap_or(self.n())
            };
            before.iter().for_each(|&i| stops[i] = stop(i, &lower));
            lower.extend(places);
            after.iter().for_each(|&i| stops[i] = stop(i, &lower));
        }
        stops
    }

    /// Whether the run of place i, which the place `stop` ends, isn't the one that the certificate says.
    fn run_fails(&self, i: usize, stop: usize) -> bool {
        let end = self.end(i);
        let short = (i..stop).contains(&end) && self.falls_for(Trap::ShortRunTaken);
        let back = end < i && stop == i + 1 && self.falls_for(Trap::RunBackTaken);
        end + 1 != stop && !short && !back
    }

    /// The last place whose run fails.
    fn bad_run(&self) -> Option<usize> {
        let stops = self.stops();
        let mut bad = (0..self.n()).filter(|&i| self.run_fails(i, stops[i]));
        match self.falls_for(Trap::FirstRunTold) {
            true => bad.next(),
            false => bad.next_back(),
        }
    }

    /// Whether edge j is kept, and goes beyond the run of its source or doesn't go down from a priority of the
    /// loser's to one no lower.
    fn climbs(&self, j: usize) -> bool {
        let game = &self.solved.game;
        let (v, w) = (game.source(j), game.target(j));
        let (from, to) = (self.place(v), self.place(w));
        let beyond = to > self.end(from) && !self.falls_for(Trap::RunsUnused);
        let no_lower = match self.falls_for(Trap::EqualLetUp) {
            true => game.priority(w) > game.priority(v),
            false => game.priority(w) >= game.priority(v),
        };
        self.solved.keeps(j) && (beyond || (to >= from && !self.solved.is_own(v) && no_lower))
    }

    /// Refusals 86 to 89.
    fn judge(&self) -> Result<(), Refusal> {
        let (n, m) = (self.n(), self.solved.game.m);
        refuse_at(self.words.iter().position(|&word| word as usize >= n), 86)?;
        let misplaced = |v: &usize| match self.falls_for(Trap::MisplacedByPlace) {
            true => self.place(self.vertex(*v)) != *v,
            false => self.vertex(self.place(*v)) != *v,
        };
        refuse_at((0..n).find(misplaced), 87)?;
        refuse_at(self.bad_run(), 88)?;
        refuse_at((0..m).find(|&j| self.climbs(j)), 89)
    }
}

impl Oracle {
    /// The reader of games of any size.
    pub fn large_read(&self, game: &[u32]) -> Answer {
        self.answer(self.large_game(game).map(|Game { n, m, .. }| Answer {
            vertices: n as u32,
            edges: m as u32,
            ..Answer::default()
        }))
    }

    /// The check of a solution by a certificate.
    pub fn large_solution(&self, game: &[u32], solution: &[u32], certificate: &[u32]) -> Answer {
        let judged = self.large_solved(game, solution).and_then(|solved| {
            let long = certificate.len() > 3 * solved.game.n;
            let taken = long && self.falls_for(Trap::LongCertificateTaken);
            let length = certificate.len();
            refuse_if(length != 3 * solved.game.n && !taken, 85, length)?;
            Placed { solved, words: &certificate[..3 * solved.game.n] }.judge()
        });
        self.answer(judged.map(|()| Answer::default()))
    }

    /// Whether the solution passes 81 to 84 and no closed walk over kept edges is the loser's. Then the winners
    /// are right, and so are the moves.
    pub fn large_right(&self, game: &[u32], solution: &[u32]) -> bool {
        let Ok(solved) = self.large_solved(game, solution) else { return false };
        let mut kept = vec![vec![]; solved.game.n];
        for j in (0..solved.game.m).filter(|&j| solved.keeps(j)) {
            kept[solved.game.source(j)].push(solved.game.target(j));
        }
        (0..solved.game.n).all(|v| !solved.loses_at(&kept, v))
    }

    /// Whether the edges of these numbers make a closed walk, all kept, whose lowest priority is the loser's. The
    /// solution passes 81 to 84.
    pub fn large_lost(&self, game: &[u32], solution: &[u32], walk: &[u32]) -> bool {
        let Ok(solved) = self.large_solved(game, solution) else { return false };
        let edges: Vec<usize> = walk.iter().map(|&j| j as usize).collect();
        let source = |i: usize| solved.game.source(edges[i % edges.len()]);
        let follows = |i: usize| solved.game.target(edges[i]) == source(i + 1);
        let lowest = (0..edges.len()).map(source).min_by_key(|&v| solved.game.priority(v));
        edges.iter().all(|&j| solved.keeps(j))
            && (0..edges.len()).all(follows)
            && lowest.is_some_and(|v| !solved.is_own(v))
    }

    /// Refusals 1, 2 and 4 to 6.
    pub(crate) fn large_game<'a>(&self, words: &'a [u32]) -> Result<Game<'a>, Refusal> {
        let length = words.len();
        refuse_if(length < 2, 1, length)?;
        let (n, m) = (words[0] as usize, words[1] as usize);
        let limited = self.falls_for(Trap::LimitsKept);
        refuse_if(n == 0 || (limited && n > 512), 2, 0)?;
        refuse_if(length != 2 + 2 * n + 2 * m, 4, length)?;
        let at_least = |from: usize, end: usize, limit: usize| {
            (from..end).find(|&place| words[place] as usize >= limit)
        };
        refuse_at(at_least(2 + n, 2 + 2 * n, 2), 5)?;
        refuse_at(at_least(2 + 2 * n, length, n), 6)?;
        let game = Game { n, m, words };
        let sink = |v: &usize| (0..m).all(|j| game.source(j) != *v);
        let asked = self.falls_for(Trap::EdgeAskedByReader);
        refuse_at(if asked { (0..n).find(sink) } else { None }, 8)?;
        Ok(game)
    }

    /// The reader's refusals, then 81 to 84.
    fn large_solved<'a>(
        &self,
        game: &'a [u32],
        solution: &'a [u32],
    ) -> Result<Solved<'a>, Refusal> {
        let game = self.large_game(game)?;
        refuse_if(solution.len() != 2 * game.n, 81, solution.len())?;
        let solved = Solved { game, words: solution, oracle: *self };
        refuse_at((0..game.n).find(|&v| solved.winner(v) > 1), 82)?;
        let stray = refuse_at((0..game.n).find(|&v| solved.strays(v)), 83);
        if !self.falls_for(Trap::LeavingBeforeStray) {
            stray?;
        }
        let leaving = (0..game.m).find(|&j| solved.leaves(j));
        let by_vertex = self.falls_for(Trap::LeavingByVertex);
        refuse_at(leaving.map(|j| if by_vertex { game.source(j) } else { j }), 84)?;
        stray.map(|()| solved)
    }
}
