//! Refusals in words. Conditions and places are those of docs/CONTRACT.md, "Refusals".

use crate::exports;
use std::fmt;

/// A call turned its input, or the memory lent to it, down. All lent memory has its old content, but for
/// what [`carry`](crate::carry()), [`carry_class`](crate::carry_class()),
/// [`verdict`](crate::verdict()) and [`replay`](crate::replay()) say of theirs.
#[derive(Clone, Copy, Debug, PartialEq, Eq)]
pub struct Refusal {
    /// Which condition failed.
    pub number: u32,
    /// Where; what it counts depends on the number, see [`Explanation::place`].
    pub place: usize,
}

impl Refusal {
    /// What the refusal is about.
    pub fn kind(&self) -> Kind {
        Kind::of(self.number)
    }

    /// What the refusal means, what its place counts and what to do, in words.
    pub fn explanation(&self) -> Explanation {
        explain(self.number).unwrap_or(UNKNOWN)
    }
}

/// "refused", number and place, then one sentence.
///
/// ```
/// let refusal = raskjomi::read(&[1, 0, 0, 0]).unwrap_err();
/// assert_eq!(refusal.to_string(), "refused 8 at 0: a vertex has no edge out");
/// ```
impl fmt::Display for Refusal {
    fn fmt(&self, f: &mut fmt::Formatter) -> fmt::Result {
        write!(f, "refused {} at {}: {}", self.number, self.place, self.explanation().meaning)
    }
}

impl std::error::Error for Refusal {}

/// What a refusal number is about.
#[derive(Clone, Copy, Debug, PartialEq, Eq)]
#[non_exhaustive]
pub enum Kind {
    /// The number is no refusal's, or it is above 99, where the kinds end: the refusals 100 to 106 have none.
    None,
    /// The game table.
    Game,
    /// The relation.
    Relation,
    /// The plan.
    Plan,
    /// The lent memory.
    Memory,
    /// A number kept for later additions.
    Later,
}

impl Kind {
    /// The kind of any number.
    ///
    /// ```
    /// use raskjomi::Kind;
    /// assert_eq!(Kind::of(8), Kind::Game);
    /// assert_eq!(Kind::of(24), Kind::Memory);
    /// assert_eq!(Kind::of(17), Kind::None);
    /// assert_eq!((Kind::of(99), Kind::of(100)), (Kind::Later, Kind::None));
    /// ```
    pub fn of(number: u32) -> Kind {
        match exports::kind(number) {
            1 => Kind::Game,
            2 => Kind::Relation,
            3 => Kind::Plan,
            4 => Kind::Memory,
            5 => Kind::Later,
            _ => Kind::None,
        }
    }
}

impl fmt::Display for Kind {
    fn fmt(&self, f: &mut fmt::Formatter) -> fmt::Result {
        f.write_str(match self {
            Kind::None => "no refusal",
            Kind::Game => "the game table",
            Kind::Relation => "the relation",
            Kind::Plan => "the plan",
            Kind::Memory => "the lent memory",
            Kind::Later => "a later addition",
        })
    }
}

/// A refusal number in words.
#[derive(Clone, Copy, Debug, PartialEq, Eq)]
#[non_exhaustive]
pub struct Explanation {
    /// The condition that failed.
    pub meaning: &'static str,
    /// What the refusal's place counts.
    pub place: &'static str,
    /// What to do about it.
    pub remedy: &'static str,
}

const UNKNOWN: Explanation = row(
    "this number belongs to no refusal of the library",
    "unknown",
    "compare the versions of the library and of this program",
);

const fn row(meaning: &'static str, place: &'static str, remedy: &'static str) -> Explanation {
    Explanation { meaning, place, remedy }
}

/// The number in words, if it is one of the library's refusals, now or, as 7 and 9 are, of earlier times.
///
/// ```
/// let five = raskjomi::explain(5).unwrap();
/// assert_eq!(five.meaning, "an owner is above 1");
/// assert_eq!(five.place, "the first such word of the table");
/// assert!(raskjomi::explain(17).is_none());
/// ```
pub fn explain(number: u32) -> Option<Explanation> {
    let row = match number {
        1..=8 => &GAME[number as usize - 1],
        9..=10 => &RELATION[number as usize - 9],
        11..=16 => &PLAN[number as usize - 11],
        21..=24 => &MEMORY[number as usize - 21],
        31..=32 => &SEED[number as usize - 31],
        33..=35 => &CARRY[number as usize - 33],
        36 => &OVERSIZE,
        37..=39 => &EDIT[number as usize - 37],
        40 => &TRACE,
        41 => &UNUSED,
        81..=84 => &SOLUTION[number as usize - 81],
        85..=89 => &CERTIFICATE[number as usize - 85],
        91..=92 => &REDUCED[number as usize - 91],
        94..=97 => &REDUCED[number as usize - 92],
        98..=100 => &CLASSES[number as usize - 98],
        101..=106 => &IMAGES[number as usize - 101],
        _ => return None,
    };
    Some(*row)
}

const GAME: [Explanation; 8] = [
    row(
        "the table has fewer than 2 words",
        "the number of words",
        "begin the table with its sizes: the number of vertices, then the number of edges",
    ),
    row(
        "the number of vertices is 0 or, but for a large game, above 512",
        "word 0, which holds it",
        "give the table a vertex, and at most 512 where it isn't a large game's",
    ),
    row(
        "the number of edges is above 4,096",
        "word 1, which holds it",
        "give the table at most 4,096 edges",
    ),
    row(
        "the table's length doesn't fit its sizes",
        "the number of words",
        "write 2 sizes, n priorities, n owners, m sources and m targets: 2 + 2n + 2m words",
    ),
    row(
        "an owner is above 1",
        "the first such word of the table",
        "write 0 for Even's vertices and 1 for Odd's",
    ),
    row(
        "an edge starts or ends at a vertex that isn't there",
        "the first such word of the table",
        "vertices count from 0, so write a number below the number of vertices",
    ),
    row(
        "an edge is equal to an earlier one; it no longer occurs: since change request CR 2 such \
         edges count as one",
        "the source word of the first such edge",
        "take the library as it is since CR 2, or write each edge a single time",
    ),
    row(
        "a vertex has no edge out",
        "the lowest such vertex",
        "give every vertex a successor; a loop serves where play ends",
    ),
];

const RELATION: [Explanation; 2] = [
    row(
        "a mark is above 1; it no longer occurs: since change request CR 13 a mark is a bit, and 41 stands \
         for set bits that no mark has",
        "the first such byte",
        "take the library as it is since CR 13, or write 1 for a pair in the relation, else 0",
    ),
    row(
        "a marked pair has unequal priorities or fails the test on successors, or, in a check for \
         governed bisimulation, its reverse is unmarked",
        "the first such pair (v, w), as v × n + w",
        "the relation is no direct simulation, or isn't symmetric: unmark the pair, or mark the pairs \
         that it needs, of successors or its reverse",
    ),
];

const PLAN: [Explanation; 6] = [
    row("the player is neither 0 nor 1", "always 0", "name player 0 for Even or 1 for Odd"),
    row(
        "the plan's sizes are out of limits or don't fit its length",
        "always 0",
        "write 1 to 4,096 for the positions p, at most 16,384 for the links l, then p vertices, \
         l sources and l targets: 2 + p + 2l words",
    ),
    row(
        "a position's vertex or a link's end isn't there",
        "the first such word of the plan",
        "write a vertex below n, or a position below p",
    ),
    row(
        "a link follows no edge of the game",
        "the number of the first such link, from 0",
        "link only positions whose vertices have an edge between them",
    ),
    row(
        "a position lacks a link that it needs",
        "the lowest such position",
        "give the player's positions a link, and the opponent's one for every successor",
    ),
    row(
        "a closed walk has a lowest priority of the opponent's parity",
        "the lowest position that lies on such a walk and has its lowest priority",
        "the plan doesn't win: choose other links for the player on this walk",
    ),
];

const MEMORY: [Explanation; 4] = [
    row(
        "the marks are too short",
        "the length needed, n × n / 8 bytes, rounded up",
        "give n × n marks; in memory they stand eight in a byte",
    ),
    row(
        "the spare is too short",
        "the length needed, n × n / 8 bytes, rounded up",
        "lend at least so many bytes",
    ),
    row("the class words are too few", "the length needed, n words", "lend at least n words"),
    row(
        "the output, or a preview's second table, is too short",
        "the length needed, 2 + 2n + 2m words of the input's sizes",
        "lend an output or second table as long as the input table, even if the result is shorter",
    ),
];

const SEED: [Explanation; 2] = [
    row(
        "a game by the seed isn't within the limits",
        "always 0",
        "name 1 to 512 vertices, a degree of 1 to 16, 1 to 65,535 priorities, and at most 4,096 \
         edges in all",
    ),
    row(
        "the output is too short for a game by the seed",
        "the length needed, 2 + 2n + 2 × n × degree words",
        "lend at least so many words",
    ),
];

const CARRY: [Explanation; 3] = [
    row(
        "the vertex isn't there, or, to carry a plan, isn't in the order that its start needs",
        "the vertex",
        "name a vertex of the game; to carry a plan, for Even one that the plan's start is below, for Odd \
         one that is below the start",
    ),
    row(
        "the carried plan has more than 4,096 positions or 16,384 links",
        "always 0",
        "carry a plan with fewer positions, as one of a positional strategy",
    ),
    row(
        "the output is too short for the carried plan",
        "the length needed, 2 + p + 2l words for its p positions and l links",
        "lend at least so many words; 36,866 always suffice",
    ),
];

const OVERSIZE: Explanation = row(
    "the highest priority is 65,535 and this one is 0: converted, it would be 65,536, which fits no word",
    "the word of the first priority 0",
    "number the priorities in use anew, in the same sequence and each with its parity, below 65,535",
);

const EDIT: [Explanation; 3] = [
    row(
        "an end of the edge isn't there, or an added edge is there already, or a removed one isn't",
        "the edge's source, as it was given",
        "name two vertices; add an edge that the table doesn't have, or remove one that it has",
    ),
    row(
        "the edge is the last one out of its source, however often it stands there",
        "the vertex that it leaves",
        "add another edge out of the vertex first",
    ),
    row(
        "the table has 4,096 edges, or the buffer has no two words behind it",
        "the number m of edges in the table",
        "remove an edge first, or lend a buffer, or second table, two words longer than the table",
    ),
];

const TRACE: Explanation = row(
    "the trace has no words, or more than 4,096 entries, or a length that isn't 1 + 2 times its count",
    "0",
    "begin the trace with its count, at most 4,096; then write as many sources, then as many targets",
);

const UNUSED: Explanation = row(
    "an unused bit of the relation's last byte is set",
    "the last byte that the marks need, from 0",
    "clear the bits behind mark n × n − 1, the last one; if marks are meant there, the relation is of another game",
);

const SOLUTION: [Explanation; 4] = [
    row(
        "the solution's length isn't twice the number of vertices",
        "the number of words",
        "write the winner at each vertex, then the number of an edge for each: 2n words",
    ),
    row(
        "a winner is above 1",
        "the lowest such vertex",
        "write 0 where Even wins and 1 where Odd does",
    ),
    row(
        "the edge that is named for a vertex isn't there, or leaves another vertex",
        "the lowest such vertex",
        "name an edge out of the vertex by its number in the table, from 0; give a vertex that has none a \
         loop where play ends",
    ),
    row(
        "a move leads from a vertex that one player is said to win to one that the other is: the winner's own move, or any move of the loser",
        "the number of the first such edge, from 0",
        "the solution is wrong at one of the two vertices, or in the winner's move: take another edge for it, or another winner",
    ),
];

const CERTIFICATE: [Explanation; 5] = [
    row(
        "the certificate's length isn't three times the number of vertices",
        "the number of words",
        "write the place of each vertex, the vertex at each place, and the last place of each place's run: 3n words",
    ),
    row(
        "a word of the certificate isn't below the number of vertices",
        "the first such word",
        "places and vertices count from 0, so write a number below the number of vertices",
    ),
    row(
        "another vertex stands at a vertex's place",
        "the lowest such vertex",
        "at the place of each vertex write the vertex, so that both parts of the certificate give one order",
    ),
    row(
        "the last place that is named for a place isn't that of its run",
        "the highest such place",
        "go on from the place while the priority is higher than its own, or the same where that is the winner's, and name the last such \
         place; the place itself where the next one isn't so",
    ),
    row(
        "a kept edge climbs: it goes up beyond the run of its source's place, or it doesn't go down, though it leaves a priority of the \
         loser's for one no lower",
        "the number of the first such edge, from 0",
        "make the certificate anew; where there is none, the solution is wrong, and the loser wins a closed walk of kept edges",
    ),
];

const REDUCED: [Explanation; 6] = [
    row(
        "the reduced game's table has fewer than 2 words",
        "the number of words",
        "begin the table with its sizes: the number of classes, then the number of edges between them",
    ),
    row(
        "the reduced game has no vertices",
        "word 0, which holds their number",
        "give the reduced game a vertex for each class",
    ),
    row(
        "the reduced game's table has a length that doesn't fit its sizes",
        "the number of words",
        "write 2 sizes, k priorities, k owners, q sources and q targets: 2 + 2k + 2q words",
    ),
    row(
        "an owner in the reduced game is above 1",
        "the first such word of its table",
        "write 0 for Even's vertices and 1 for Odd's",
    ),
    row(
        "an edge of the reduced game starts or ends at a vertex that isn't there",
        "the first such word of its table",
        "classes count from 0, so write a number below the number of the reduced game's vertices",
    ),
    row(
        "an edge of the reduced game has a lower source than the edge before it",
        "the number of the first such edge in the reduced game, from 0",
        "write the reduced game's edges by ascending source; the numbers of the images change with it",
    ),
];

const CLASSES: [Explanation; 3] = [
    row(
        "the number of class words isn't the number of vertices",
        "the number of class words",
        "write the class of each vertex of the game: n words",
    ),
    row(
        "a vertex has a class that isn't there",
        "the lowest such vertex",
        "classes count from 0, so write a number below the number of the reduced game's vertices",
    ),
    row(
        "a vertex and its class have different priorities",
        "the lowest such vertex",
        "the reduction is wrong: put the vertex into a class of its priority, or give the class the priority of its members",
    ),
];

const IMAGES: [Explanation; 6] = [
    row(
        "the length of the reduction's certificate doesn't fit the sizes of the games",
        "the number of words",
        "write a start for each vertex, a member for each class, then an image and an edge after it for each edge of the game: n + k + 2m words",
    ),
    row(
        "the member that is named for a class isn't a vertex of the class",
        "the lowest such class",
        "name a vertex of the class; where it has none, leave the class out of the reduced game",
    ),
    row(
        "the image of an edge isn't an edge of the reduced game between the classes of the edge's ends",
        "the number of the first such edge in the game, from 0",
        "name such an edge by its number in the reduced game, from 0; where there is none, the reduced game lacks a move of a vertex, and the \
         reduction is wrong",
    ),
    row(
        "the start of a vertex isn't an edge out of it, or the image of its start isn't the first edge out of its class",
        "the lowest such vertex",
        "name an edge of the vertex to the class that the first edge out of its own class leads to; where there is none, the vertex lacks a move \
         of its class, or has none at all, and the reduction is wrong",
    ),
    row(
        "a vertex has another owner than its class, and the class has a second edge",
        "the lowest such vertex",
        "give the class the owner of its vertices; those of both players share a class only where it has one edge, and that is written a single time",
    ),
    row(
        "the edge that is named after an edge isn't one of the same source with the next image, though that is an edge out of the same class",
        "the number of the first such edge in the game, from 0",
        "name an edge of the same source whose image is the next edge of the reduced game; where there is none, the vertex lacks a move of its \
         class, and the reduction is wrong",
    ),
];
