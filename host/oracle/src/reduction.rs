//! Classes, quotient game and reduced game.

use crate::{Game, Oracle, Relation, Trap};

/// The classes of a game, numbered from 0.
#[derive(Clone, Debug)]
pub struct Classes {
    /// The class of each vertex.
    pub of: Vec<usize>,
    /// The vertices of each class, ascending.
    pub members: Vec<Vec<usize>>,
}

impl Classes {
    /// The number of classes.
    pub fn count(&self) -> usize {
        self.members.len()
    }

    /// The member that stands for the class in every comparison.
    pub(crate) fn lowest(&self, class: usize) -> usize {
        self.members[class][0]
    }
}

impl Oracle {
    /// Vertices that are below each other share a class; classes count by their lowest member.
    pub fn classes_of(&self, game: &Game, order: &Relation) -> Classes {
        let n = game.n();
        let shared = |v: usize, w: usize| order.has(v, w) && order.has(w, v);
        let members_with = |v: usize| (0..n).filter(|&w| shared(v, w)).collect::<Vec<usize>>();
        let mut members: Vec<Vec<usize>> = (0..n).map(members_with).collect();
        members.sort_by_key(|class| {
            if self.falls_for(Trap::ClassesByHighest) {
                *class.last().unwrap()
            } else {
                class[0]
            }
        });
        members.dedup();
        let class_of = |v: usize| members.iter().position(|class| class.contains(&v)).unwrap();
        Classes { of: (0..n).map(class_of).collect(), members }
    }

    /// The quotient game: an edge from C to D exactly if every member of C has a successor in D.
    pub fn quotient_of(&self, game: &Game, classes: &Classes) -> Game {
        let goes = |v: &usize, d: usize| game.successors[*v].iter().any(|&x| classes.of[x] == d);
        let edge = |c: usize, d: usize| {
            let members = &classes.members[c];
            if self.falls_for(Trap::SomeMemberHasEdge) {
                members.iter().any(|v| goes(v, d))
            } else if self.falls_for(Trap::LowestMemberDecides) {
                goes(&members[0], d)
            } else {
                members.iter().all(|v| goes(v, d))
            }
        };
        let mut edges: Vec<(usize, usize)> =
            Relation::of(classes.count(), classes.count(), edge).pairs().collect();
        if self.falls_for(Trap::RepeatWritten) {
            let twice = |&(c, d): &(usize, usize)| doubled(game, classes, c, d);
            edges.extend(edges.clone().into_iter().filter(twice));
        }
        let priority = classes.members.iter().map(|members| game.priority[members[0]]).collect();
        let owner = classes.members.iter().map(|members| self.class_owner(game, members)).collect();
        Game::new(priority, owner, edges)
    }

    fn class_owner(&self, game: &Game, members: &[usize]) -> u16 {
        let highest = self.falls_for(Trap::OwnerOfHighest);
        let owner_of = if highest { members.last() } else { members.first() };
        game.owner[*owner_of.unwrap()]
    }

    /// The quotient without its edges to little brothers: C to D goes where C has another edge to
    /// E, and C is Even's and D below E, or C is Odd's and E below D.
    pub fn reduced_of(&self, quotient: &Game, classes: &Classes, order: &Relation) -> Game {
        let below = |d: usize, e: usize| order.has(classes.lowest(d), classes.lowest(e));
        let prose = self.falls_for(Trap::LittleBrothersByProse);
        let dropped = |c: usize, d: usize| {
            let others = quotient.successors[c].iter().filter(|&&e| e != d);
            let evens_rule = (quotient.owner[c] == 0) != prose;
            others.into_iter().any(|&e| if evens_rule { below(d, e) } else { below(e, d) })
        };
        let kept = quotient.listed.iter().copied().filter(|&(c, d)| !dropped(c, d));
        Game::new(quotient.priority.clone(), quotient.owner.clone(), kept.collect())
    }

    /// The game of classes as its table lists it: by source class, then by target class, ascending.
    pub fn listed(&self, game: &Game) -> Game {
        let mut edges = Vec::new();
        for c in 0..game.n() {
            let of_c = game.listed.iter().filter(|edge| edge.0 == c);
            let mut targets: Vec<usize> = of_c.map(|edge| edge.1).collect();
            targets.sort();
            if self.falls_for(Trap::TargetsDescending) {
                targets.reverse();
            }
            if self.falls_for(Trap::LastTargetMissing) && targets.len() > 1 {
                targets.pop();
            }
            edges.extend(targets.into_iter().map(|d| (c, d)));
        }
        if self.falls_for(Trap::TargetBeforeSource) {
            edges.sort_by_key(|&(c, d)| (d, c));
        }
        Game::new(game.priority.clone(), game.owner.clone(), edges)
    }
}

/// Whether the lowest member of a class has an edge into another that the table repeats.
fn doubled(game: &Game, classes: &Classes, c: usize, d: usize) -> bool {
    let v = classes.lowest(c);
    game.successors[v].iter().any(|&x| classes.of[x] == d && game.times((v, x)) > 1)
}
