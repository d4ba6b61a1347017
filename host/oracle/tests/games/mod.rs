//! Games of document 01, and every word of the two tables that are written for each; plans that are
//! carried, and every word of those that are written.
#![allow(dead_code)]

pub const B: [u16; 14] = [3, 3, 0, 1, 0, 0, 0, 1, 0, 1, 2, 1, 1, 1];
pub const C: [u16; 26] =
    [5, 7, 2, 0, 0, 1, 4, 0, 0, 0, 0, 0, 0, 0, 1, 2, 2, 3, 4, 1, 2, 3, 3, 4, 3, 4];
/// C with vertex 0 Odd's.
pub const ODD_C: [u16; 26] =
    [5, 7, 2, 0, 0, 1, 4, 1, 0, 0, 0, 0, 0, 0, 1, 2, 2, 3, 4, 1, 2, 3, 3, 4, 3, 4];
/// C with a vertex 5 of priority 2, Even's, with an edge to 2.
pub const D: [u16; 30] =
    [6, 8, 2, 0, 0, 1, 4, 2, 0, 0, 0, 0, 0, 0, 0, 0, 1, 2, 2, 3, 4, 5, 1, 2, 3, 3, 4, 3, 4, 2];

/// B's vertices 0 and 2 are one class.
const OF_B: [u16; 10] = [2, 2, 0, 1, 0, 0, 0, 1, 1, 1];
/// C without 0 to 1.
const REDUCED_C: [u16; 24] =
    [5, 6, 2, 0, 0, 1, 4, 0, 0, 0, 0, 0, 0, 1, 2, 2, 3, 4, 2, 3, 3, 4, 3, 4];
/// C with vertex 0 Odd's, without 0 to 2.
const REDUCED_ODD_C: [u16; 24] =
    [5, 6, 2, 0, 0, 1, 4, 1, 0, 0, 0, 0, 0, 1, 2, 2, 3, 4, 1, 3, 3, 4, 3, 4];

/// Games with their quotient and reduced tables. In C no vertices share a class, so it is its own
/// quotient; D's vertex 5 shares the class of 0 and has no successor in the class of 1.
pub const TABLES: [(&[u16], &[u16], &[u16]); 4] = [
    (&B, &OF_B, &OF_B),
    (&C, &C, &REDUCED_C),
    (&ODD_C, &ODD_C, &REDUCED_ODD_C),
    (&D, &REDUCED_C, &REDUCED_C),
];

/// A plan that is carried to a vertex, from the reduced game if `class` says so, and the words written.
pub struct Carried {
    pub class: bool,
    pub game: &'static [u16],
    pub player: u32,
    pub plan: &'static [u16],
    pub vertex: u32,
    pub words: &'static [u16],
}

/// 0 is Odd's and leads to loops at 4 and 5, 1 is Even's and leads to loops at 2 and 3.
const TWO_WAYS: [u16; 30] =
    [6, 8, 0, 0, 4, 2, 2, 4, 1, 0, 0, 0, 0, 0, 0, 0, 1, 1, 2, 3, 4, 5, 4, 5, 2, 3, 2, 3, 4, 5];
/// Two of Odd's with all edges.
const BOTH_WAYS: [u16; 14] = [2, 4, 0, 0, 1, 1, 0, 0, 1, 1, 0, 1, 0, 1];
/// The same with the edges in another sequence, and that from 1 to 0 twice.
const BOTH_WAYS_DOUBLED: [u16; 16] = [2, 5, 0, 0, 1, 1, 1, 1, 1, 0, 0, 1, 0, 0, 1, 0];
const BOTH_WAYS_PLAN: [u16; 12] = [2, 4, 0, 1, 1, 0, 1, 0, 0, 1, 1, 0];
const BOTH_WAYS_CARRIED: [u16; 22] =
    [4, 8, 1, 0, 1, 0, 0, 0, 1, 1, 2, 2, 3, 3, 1, 2, 3, 0, 3, 0, 1, 2];
/// 0, Odd's, and 1, Even's, lead to loops of priority 1, at 2, Odd's, and at 3, Even's.
const LOOPS: [u16; 22] = [4, 6, 2, 2, 1, 1, 1, 0, 1, 0, 0, 0, 1, 1, 2, 3, 2, 3, 2, 3, 2, 3];
const LOOPS_PLAN: [u16; 13] = [3, 4, 0, 2, 3, 0, 0, 1, 2, 2, 1, 1, 2];
/// 0 leads to loops at 1 and 2, of different priorities.
const CHOICE: [u16; 16] = [3, 4, 0, 2, 4, 0, 0, 0, 0, 0, 1, 2, 1, 2, 1, 2];
/// All are Odd's. 0 leads to the loop at 2, of priority 0, and to that at 3, of priority 1; 1 to 3 alone.
const ONE_MORE: [u16; 20] = [4, 5, 2, 2, 0, 1, 1, 1, 1, 1, 0, 0, 1, 2, 3, 2, 3, 3, 2, 3];

pub const CARRIED: [Carried; 8] = [
    // The first link, to 4, keeps 3 alone; but 2, which the second keeps, is lower.
    Carried {
        class: false,
        game: &TWO_WAYS,
        player: 0,
        plan: &[3, 4, 0, 4, 5, 0, 0, 1, 2, 1, 2, 1, 2],
        vertex: 1,
        words: &[2, 2, 1, 2, 0, 1, 1, 1],
    },
    // Both links of a position keep, and the first in the table is followed.
    Carried {
        class: false,
        game: &BOTH_WAYS,
        player: 0,
        plan: &BOTH_WAYS_PLAN,
        vertex: 1,
        words: &BOTH_WAYS_CARRIED,
    },
    Carried {
        class: false,
        game: &BOTH_WAYS_DOUBLED,
        player: 0,
        plan: &BOTH_WAYS_PLAN,
        vertex: 1,
        words: &BOTH_WAYS_CARRIED,
    },
    // Odd's own vertices: 2 is the lowest successor that keeps.
    Carried {
        class: false,
        game: &LOOPS,
        player: 1,
        plan: &LOOPS_PLAN,
        vertex: 0,
        words: &[2, 2, 0, 2, 0, 1, 1, 1],
    },
    // From Odd's own vertex to the opponent's: both successors.
    Carried {
        class: false,
        game: &LOOPS,
        player: 1,
        plan: &LOOPS_PLAN,
        vertex: 1,
        words: &[3, 4, 1, 2, 3, 0, 0, 1, 2, 1, 2, 1, 2],
    },
    // The first link of the player's own position leads to 2.
    Carried {
        class: false,
        game: &CHOICE,
        player: 0,
        plan: &[3, 4, 0, 2, 1, 0, 0, 1, 2, 1, 2, 1, 2],
        vertex: 0,
        words: &[2, 2, 0, 2, 0, 1, 1, 1],
    },
    // 0 is below 1, and not the other way round.
    Carried {
        class: false,
        game: &ONE_MORE,
        player: 1,
        plan: &[2, 2, 1, 3, 0, 1, 1, 1],
        vertex: 0,
        words: &[2, 2, 0, 3, 0, 1, 1, 1],
    },
    // From class 0 to a vertex whose number no class has.
    Carried {
        class: true,
        game: &D,
        player: 0,
        plan: &[3, 3, 0, 2, 4, 0, 1, 2, 1, 2, 2],
        vertex: 5,
        words: &[3, 3, 5, 2, 4, 0, 1, 2, 1, 2, 2],
    },
];
