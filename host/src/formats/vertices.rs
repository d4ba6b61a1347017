//! What the vertices of a game are called in messages, pictures and on the command line.

use crate::large::Identifiers;
use crate::members;

/// The vertices' ids and names, where a file gives them; else a vertex has its number alone.
///
/// ```
/// let file = raskjomi::formats::read_game(b"start 7; 3 2 0 7 \"door\"; 7 1 1 3,7;")?;
/// let vertices = &file.vertices;
/// assert_eq!((vertices.label(0), vertices.label(1)), ("id 3 \"door\"".into(), "id 7".into()));
/// assert_eq!(["door", "7", "1"].map(|word| vertices.find(word)), [Some(0), Some(1), None]);
/// # Ok::<(), raskjomi::formats::ReadError>(())
/// ```
#[derive(Clone, Debug, Default)]
pub struct Vertices {
    identifiers: Identifiers,
    have_ids: bool,
    of_pgsolver: bool,
    start: Option<usize>,
    even: Option<u32>,
}

impl Vertices {
    /// Vertices that have numbers alone, from 0.
    ///
    /// ```
    /// assert_eq!(raskjomi::formats::Vertices::numbers(3).find("2"), Some(2));
    /// ```
    pub fn numbers(count: usize) -> Vertices {
        Vertices { identifiers: Identifiers::numbers(count), ..Vertices::default() }
    }

    /// Vertices of a PGSolver file, and its start.
    pub(super) fn named(identifiers: Identifiers, start: Option<u32>) -> Vertices {
        Vertices::of_part(identifiers, true, start, None)
    }

    /// Vertices with the ids and names of a file that has more of them, which may be in another format than PGSolver's: those of a part of its
    /// game. What a priority and the file's own add up to is `even`.
    ///
    /// ```
    /// use raskjomi::formats::Vertices;
    /// use raskjomi::large::Identifiers;
    /// let part = Identifiers::numbers(9).among(&[3, 7]);
    /// let vertices = Vertices::of_part(part, false, None, None);
    /// assert_eq!((vertices.label(1), vertices.find("7")), ("id 7".into(), Some(1)));
    /// ```
    pub fn of_part(
        identifiers: Identifiers,
        of_pgsolver: bool,
        start: Option<u32>,
        even: Option<u32>,
    ) -> Vertices {
        let start = start.map(|vertex| vertex as usize);
        Vertices { identifiers, have_ids: true, of_pgsolver, start, even }
    }

    /// What the classes of these vertices are called: by their numbers, each with the name of its lowest member; in a part of a game without
    /// one, with its id.
    ///
    /// ```
    /// let file = raskjomi::formats::read_game(b"parity; 5 0 0 5; 7 1 0 5 \"a\"; 9 1 0 5 \"b\";")?;
    /// let classes = file.vertices.of_classes(&file.game.classes());
    /// assert_eq!((classes.label(0), classes.label(1)), ("0".into(), "1 \"a\"".into()));
    /// # Ok::<(), raskjomi::formats::ReadError>(())
    /// ```
    pub fn of_classes(&self, classes: &[u16]) -> Vertices {
        let lowest: Vec<u32> = members(classes).iter().map(|members| members[0] as u32).collect();
        Vertices {
            identifiers: self.identifiers.renumbered(&lowest),
            start: self.start.map(|vertex| classes[vertex].into()),
            ..*self
        }
    }

    /// The vertices of a file whose priority q is now `even` - q.
    pub(super) fn converted(self, even: u32) -> Vertices {
        Vertices { even: Some(even), ..self }
    }

    /// Whether a PGSolver file gave them.
    ///
    /// ```
    /// let file = raskjomi::formats::read_game(b"start 7; 3 2 0 7 \"door\"; 7 1 1 3,7;")?;
    /// assert!(file.vertices.of_pgsolver());
    /// # Ok::<(), raskjomi::formats::ReadError>(())
    /// ```
    pub fn of_pgsolver(&self) -> bool {
        self.of_pgsolver
    }

    /// Whether they have ids of their own.
    ///
    /// ```
    /// assert!(!raskjomi::formats::Vertices::numbers(3).have_ids());
    /// ```
    pub fn have_ids(&self) -> bool {
        self.have_ids
    }

    /// What a priority and the file's own add up to, where the highest decides in the file.
    ///
    /// ```
    /// let file = raskjomi::formats::read_game(b"start 7; 3 2 0 7 \"door\"; 7 1 1 3,7;")?;
    /// assert_eq!((file.game.priority(1), file.vertices.even()), (1, Some(2)));
    /// # Ok::<(), raskjomi::formats::ReadError>(())
    /// ```
    pub fn even(&self) -> Option<u32> {
        self.even
    }

    /// The vertex that the file names as the start, if it names one.
    ///
    /// ```
    /// let file = raskjomi::formats::read_game(b"start 7; 3 2 0 7 \"door\"; 7 1 1 3,7;")?;
    /// assert_eq!(file.vertices.start(), Some(1));
    /// # Ok::<(), raskjomi::formats::ReadError>(())
    /// ```
    pub fn start(&self) -> Option<usize> {
        self.start
    }

    /// The ids and names.
    ///
    /// ```
    /// let file = raskjomi::formats::read_game(b"start 7; 3 2 0 7 \"door\"; 7 1 1 3,7;")?;
    /// assert_eq!(file.vertices.identifiers().id(1), 7);
    /// # Ok::<(), raskjomi::formats::ReadError>(())
    /// ```
    pub fn identifiers(&self) -> &Identifiers {
        &self.identifiers
    }

    /// The vertex's id, which is its number where no file gives another.
    ///
    /// ```
    /// let file = raskjomi::formats::read_game(b"start 7; 3 2 0 7 \"door\"; 7 1 1 3,7;")?;
    /// assert_eq!(file.vertices.id(1), 7);
    /// # Ok::<(), raskjomi::formats::ReadError>(())
    /// ```
    pub fn id(&self, vertex: usize) -> u32 {
        self.identifiers.id(vertex as u32)
    }

    /// The vertex's name, if it has one.
    ///
    /// ```
    /// let file = raskjomi::formats::read_game(b"start 7; 3 2 0 7 \"door\"; 7 1 1 3,7;")?;
    /// assert_eq!((file.vertices.name(0), file.vertices.name(1)), (Some("door".into()), None));
    /// # Ok::<(), raskjomi::formats::ReadError>(())
    /// ```
    pub fn name(&self, vertex: usize) -> Option<String> {
        self.identifiers.name(vertex as u32)
    }

    /// The vertex as a message names it: its number, or its id where ids aren't the numbers, and its name.
    ///
    /// ```
    /// let file = raskjomi::formats::read_game(b"start 7; 3 2 0 7 \"door\"; 7 1 1 3,7;")?;
    /// assert_eq!(file.vertices.label(0), "id 3 \"door\"");
    /// # Ok::<(), raskjomi::formats::ReadError>(())
    /// ```
    pub fn label(&self, vertex: usize) -> String {
        self.identifiers.label(vertex as u32)
    }

    /// A priority as the file has it.
    ///
    /// ```
    /// let file = raskjomi::formats::read_game(b"start 7; 3 2 0 7 \"door\"; 7 1 1 3,7;")?;
    /// assert_eq!(file.vertices.priority(file.game.priority(0)), 2);
    /// # Ok::<(), raskjomi::formats::ReadError>(())
    /// ```
    pub fn priority(&self, priority: u16) -> u32 {
        self.even.map_or(priority.into(), |even| even - u32::from(priority))
    }

    /// A comment for each of the vertices that has an id of its own or a name, behind another comment.
    ///
    /// ```
    /// let file = raskjomi::formats::read_game(b"start 7; 3 2 0 7 \"door\"; 7 1 1 3,7;")?;
    /// assert_eq!(file.vertices.comments([0, 1]), "\n# vertex 0: id 3 \"door\"\n# vertex 1: id 7");
    /// # Ok::<(), raskjomi::formats::ReadError>(())
    /// ```
    pub fn comments(&self, vertices: impl IntoIterator<Item = usize>) -> String {
        let has_gaps = self.identifiers.has_gaps();
        let vertices =
            vertices.into_iter().filter(|&vertex| has_gaps || self.name(vertex).is_some());
        vertices.map(|vertex| format!("\n# vertex {vertex}: {}", self.label(vertex))).collect()
    }

    /// A list as people write it: "1, 2 and 3".
    ///
    /// ```
    /// assert_eq!(raskjomi::formats::Vertices::numbers(4).listed(&[1, 2, 3]), "1, 2 and 3");
    /// ```
    pub fn listed(&self, vertices: &[usize]) -> String {
        let words: Vec<String> = vertices.iter().map(|&vertex| self.label(vertex)).collect();
        match words.split_last() {
            Some((last, rest)) if !rest.is_empty() => format!("{} and {last}", rest.join(", ")),
            _ => words.concat(),
        }
    }

    /// The vertex of an id.
    ///
    /// ```
    /// let file = raskjomi::formats::read_game(b"start 7; 3 2 0 7 \"door\"; 7 1 1 3,7;")?;
    /// assert_eq!((file.vertices.find_id(7), file.vertices.find_id(1)), (Some(1), None));
    /// # Ok::<(), raskjomi::formats::ReadError>(())
    /// ```
    pub fn find_id(&self, id: u32) -> Option<usize> {
        self.identifiers.vertex(id).map(|vertex| vertex as usize)
    }

    /// The vertex that a word means: an id, or a name that one vertex alone has.
    ///
    /// ```
    /// let file = raskjomi::formats::read_game(b"start 7; 3 2 0 7 \"door\"; 7 1 1 3,7;")?;
    /// assert_eq!((file.vertices.find("door"), file.vertices.find("7")), (Some(0), Some(1)));
    /// # Ok::<(), raskjomi::formats::ReadError>(())
    /// ```
    pub fn find(&self, word: &str) -> Option<usize> {
        self.identifiers.find(word).map(|vertex| vertex as usize)
    }

    /// That several vertices have this name, if so.
    ///
    /// ```
    /// let file = raskjomi::formats::read_game(b"0 0 0 0 \"a\"; 1 0 0 1 \"a\";")?;
    /// assert_eq!(file.vertices.ambiguous("a").as_deref(), Some("2 vertices are called a: those with the ids 0, 1"));
    /// # Ok::<(), raskjomi::formats::ReadError>(())
    /// ```
    pub fn ambiguous(&self, word: &str) -> Option<String> {
        self.identifiers.ambiguous(word)
    }

    /// What may stand for a vertex of a game with so many, in words.
    ///
    /// ```
    /// let file = raskjomi::formats::read_game(b"start 7; 3 2 0 7 \"door\"; 7 1 1 3,7;")?;
    /// assert_eq!(file.vertices.range(2), "its 2 ids are from 3 to 7");
    /// # Ok::<(), raskjomi::formats::ReadError>(())
    /// ```
    pub fn range(&self, count: usize) -> String {
        let [first, last] = [0, count - 1].map(|vertex| self.id(vertex));
        match self.identifiers.has_gaps() {
            true => format!("its {count} ids are from {first} to {last}"),
            false => format!("its vertices are 0 to {last}"),
        }
    }
}
