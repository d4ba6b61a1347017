//! Games, plans and orders as decimal text, which [`Numbers`](super::Numbers) reads back.

use super::Vertices;
use crate::{Game, LargeGame, Order, Plan, Trace};
use std::fmt::{self, Display, Formatter};

/// Numbers in a line.
const A_LINE: usize = 20;

/// The parts of a table.
const PARTS: [&str; 5] = [
    "vertices, edges",
    "priorities",
    "owners: 0 Even, 1 Odd",
    "sources of the edges",
    "targets of the edges",
];

/// Numbers between blanks, in lines.
fn lines<T: Display>(f: &mut Formatter, numbers: &[T], a_line: usize) -> fmt::Result {
    for line in numbers.chunks(a_line) {
        let words: Vec<String> = line.iter().map(T::to_string).collect();
        writeln!(f, "{}", words.join(" "))?;
    }
    Ok(())
}

/// Numbers as decimal text, under a comment that names them.
pub struct Part<'a, T>(pub &'a str, pub &'a [T]);

/// ```
/// let classes = raskjomi::formats::Part("the class of each vertex", &[0, 1, 0]);
/// assert_eq!(classes.to_string(), "# the class of each vertex\n0 1 0\n");
/// ```
impl<T: Display> Display for Part<'_, T> {
    fn fmt(&self, f: &mut Formatter) -> fmt::Result {
        writeln!(f, "# {}", self.0)?;
        lines(f, self.1, A_LINE)
    }
}

/// Parts one under the other.
fn parts<'a, T: Display + 'a>(
    f: &mut Formatter,
    names: &[&'a str],
    parts: &[&'a [T]],
) -> fmt::Result {
    names.iter().zip(parts).try_for_each(|(name, part)| write!(f, "{}", Part(name, part)))
}

/// A game as decimal text under a title, with a comment for each vertex that has an id of its own or a name.
///
/// ```
/// let file = raskjomi::formats::read_game(b"parity 3; 3 1 0 3 \"door\";")?;
/// let text = raskjomi::formats::to_text(&file.game, &file.vertices, "a door");
/// let title = "# a door; the lowest priority decides, and p stands for 2 - p of the file\n";
/// assert!(text.starts_with(title) && text.contains("\n# vertex 0: id 3 \"door\"\n# vertices, edges\n1 1\n"));
/// # Ok::<(), raskjomi::formats::ReadError>(())
/// ```
pub fn to_text(game: &Game, vertices: &Vertices, title: &str) -> String {
    let converted = vertices.even().map(|even| {
        format!("; the lowest priority decides, and p stands for {even} - p of the file")
    });
    let names = vertices.comments(game.vertices());
    format!("# {title}{}{names}\n{game}", converted.unwrap_or_default())
}

/// Its table, each part under a comment. It can be read back.
///
/// ```
/// let game: raskjomi::Game = "1 1 / 4 / 1 / 0 / 0".parse()?;
/// assert!(game.to_string().starts_with("# vertices, edges\n1 1\n# priorities\n4\n# owners: "));
/// assert_eq!(game.to_string().parse::<raskjomi::Game>()?, game);
/// # Ok::<(), raskjomi::formats::ReadError>(())
/// ```
impl Display for Game {
    fn fmt(&self, f: &mut Formatter) -> fmt::Result {
        let sizes = &self.words()[..2];
        let table = [sizes, self.priorities(), self.owners(), self.sources(), self.targets()];
        parts(f, &PARTS, &table)
    }
}

/// Its table, each part under a comment.
impl Display for LargeGame {
    fn fmt(&self, f: &mut Formatter) -> fmt::Result {
        let (n, m) = (self.size().vertices, self.size().edges);
        let part = |from: usize, count: usize| &self.words()[from..from + count];
        let ends = 2 + 2 * n;
        parts(
            f,
            &PARTS,
            &[part(0, 2), part(2, n), part(2 + n, n), part(ends, m), part(ends + m, m)],
        )
    }
}

/// Its words, each part under a comment.
///
/// ```
/// let plan = raskjomi::Plan::new(&[3], &[(0, 0)]);
/// assert!(plan.to_string().starts_with("# positions, links\n1 1\n# vertex of each position\n3\n"));
/// assert_eq!(plan.to_string().parse::<raskjomi::Plan>()?, plan);
/// # Ok::<(), raskjomi::large::FileError>(())
/// ```
impl Display for Plan {
    fn fmt(&self, f: &mut Formatter) -> fmt::Result {
        let (sources, targets): (Vec<u16>, Vec<u16>) = self.links().unzip();
        let sizes = &self.words()[..self.words().len().min(2)];
        let names = [
            "positions, links",
            "vertex of each position",
            "sources of the links",
            "targets of the links",
        ];
        parts(f, &names, &[sizes, self.positions(), &sources, &targets])
    }
}

/// Its words, each part under a comment.
///
/// ```
/// let trace = raskjomi::Trace::new(&[(0, 2)]);
/// assert_eq!(trace.to_string().parse::<raskjomi::Trace>()?, trace);
/// # Ok::<(), raskjomi::large::FileError>(())
/// ```
impl Display for Trace {
    fn fmt(&self, f: &mut Formatter) -> fmt::Result {
        let (sources, targets): (Vec<u16>, Vec<u16>) = self.edges().unzip();
        let count = &self.words()[..self.words().len().min(1)];
        parts(f, &["entries", "sources", "targets"], &[count, &sources, &targets])
    }
}

/// Its marks, a row for each vertex.
///
/// ```
/// let game: raskjomi::Game = "3 3 / 0 1 0 / 0 0 1 / 0 1 2 / 1 1 1".parse()?;
/// assert_eq!(game.order().to_string(), "1 0 1\n0 1 0\n1 0 1\n");
/// # Ok::<(), raskjomi::formats::ReadError>(())
/// ```
impl Display for Order {
    fn fmt(&self, f: &mut Formatter) -> fmt::Result {
        let n = self.vertices();
        let marks: Vec<u8> = (0..n * n).map(|i| self.has(i / n, i % n) as u8).collect();
        lines(f, &marks, n)
    }
}
