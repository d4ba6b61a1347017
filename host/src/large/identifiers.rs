//! What the vertices of a large game are called.

use super::components::NONE;
use super::file_error::FileError;
use super::lines::Lines;
use crate::formats::number;
use crate::MOST_VERTICES;

/// The most characters of a name that a message shows.
const SHOWN: usize = 40;

/// The most vertices of one name that a message shows.
const SHOWN_IDS: usize = 8;

/// The ids and names of a game's vertices, as far as they take little memory beside the game.
#[derive(Clone, Debug, Default)]
pub struct Identifiers {
    count: usize,
    /// The first id, where all follow each other.
    first: u32,
    /// The ids, where they don't.
    list: Vec<u32>,
    names: Names,
    /// Whether these are some vertices of a file alone.
    of_part: bool,
}

impl Identifiers {
    /// Vertices that have numbers alone, from 0.
    pub fn numbers(count: usize) -> Identifiers {
        Identifiers { count, ..Identifiers::default() }
    }

    /// Numbers from 0 on in place of these vertices, each with the name of its vertex. Of a part of a game, a vertex without a name is
    /// called by its id.
    pub fn renumbered(&self, vertices: &[u32]) -> Identifiers {
        let mut names = self.names.in_sequence(vertices);
        if self.of_part {
            names = Names { left_out: names.left_out, ..Names::default() };
            for (number, &vertex) in (0..).zip(vertices) {
                let id = || self.id(vertex).to_string().into_bytes();
                names.add(number, &self.names.of(vertex).map_or_else(id, <[u8]>::to_vec));
            }
        }
        Identifiers { count: vertices.len(), names, ..Identifiers::default() }
    }

    /// The ids and names of some vertices, ascending, as those of a [`Part`](super::Part).
    pub fn among(&self, vertices: &[u32]) -> Identifiers {
        let mut kept = Identifiers { of_part: true, ..Identifiers::default() };
        vertices.iter().for_each(|&vertex| kept.push(self.id(vertex)));
        kept.names = self.names.in_sequence(vertices);
        kept
    }

    /// The vertex's id, which is its number where no file gives another.
    pub fn id(&self, vertex: u32) -> u32 {
        if self.list.is_empty() {
            return self.first + vertex;
        }
        self.list[vertex as usize]
    }

    /// The vertex with an id, if there is one.
    pub fn vertex(&self, id: u32) -> Option<u32> {
        if self.list.is_empty() {
            return id.checked_sub(self.first).filter(|&vertex| (vertex as usize) < self.count);
        }
        self.list.binary_search(&id).ok().map(|vertex| vertex as u32)
    }

    /// The vertex's name, if it has one that was kept.
    pub fn name(&self, vertex: u32) -> Option<String> {
        let bytes = self.names.of(vertex)?;
        Some(name_text(bytes))
    }

    /// The bytes of the vertex's name in its file.
    pub fn name_bytes(&self, vertex: u32) -> Option<&[u8]> {
        self.names.of(vertex)
    }

    /// The vertex with this name, if there is exactly one.
    pub fn named(&self, name: &str) -> Option<u32> {
        match self.called(name)[..] {
            [vertex] => Some(vertex),
            _ => None,
        }
    }

    /// The vertices with this name.
    fn called(&self, name: &str) -> Vec<u32> {
        let is_it = |&vertex: &u32| self.name(vertex).as_deref() == Some(name);
        self.names.whose.iter().copied().filter(is_it).collect()
    }

    /// The vertex that a word means: an id, or a name that one vertex alone has, which may stand in quotes.
    ///
    /// ```
    /// let file = raskjomi::large::read_game(&b"3 2 0 7 \"door\"; 7 1 1 3,7;"[..], None, false)?;
    /// assert_eq!(["7", "door", "\"door\"", "0"].map(|word| file.vertices.find(word)), [Some(1), Some(0), Some(0), None]);
    /// # Ok::<(), raskjomi::large::FileError>(())
    /// ```
    pub fn find(&self, word: &str) -> Option<u32> {
        match number(word, u32::MAX) {
            Some(id) => self.vertex(id),
            None => self.named(unquoted(word)),
        }
    }

    /// That several vertices have the name that a word is, if so: in words, with their ids.
    pub fn ambiguous(&self, word: &str) -> Option<String> {
        let called = self.called(unquoted(word));
        if called.len() < 2 {
            return None;
        }
        let mut ids: Vec<String> =
            called.iter().take(SHOWN_IDS).map(|&vertex| self.id(vertex).to_string()).collect();
        if ids.len() < called.len() {
            ids.push("..".into());
        }
        let (count, ids) = (called.len(), ids.join(", "));
        Some(format!("{count} vertices are called {word}: those with the ids {ids}"))
    }

    /// Whether names were left out, as they would take more memory than the game.
    pub fn left_out(&self) -> bool {
        self.names.left_out
    }

    /// Whether an id is no vertex's number.
    pub fn has_gaps(&self) -> bool {
        self.first > 0 || !self.list.is_empty()
    }

    /// The vertex as a message names it: its number, or its id where ids aren't the numbers, and its name.
    pub fn label(&self, vertex: u32) -> String {
        let id =
            if self.has_gaps() { format!("id {}", self.id(vertex)) } else { vertex.to_string() };
        let Some(name) = self.name(vertex) else { return id };
        let shown: String = name.chars().take(SHOWN).collect();
        let more = if shown.len() < name.len() { ".." } else { "" };
        format!("{id} \"{shown}{more}\"")
    }

    /// Takes the id of the next vertex of a file.
    #[inline]
    pub(super) fn push(&mut self, id: u32) {
        if self.count == 0 {
            self.first = id;
        }
        if self.list.is_empty() {
            if u64::from(id) == u64::from(self.first) + self.count as u64 {
                self.count += 1;
                return;
            }
            self.list = (self.first..).take(self.count).collect();
        }
        self.list.push(id);
        self.count += 1;
    }

    /// Takes the name of the last vertex, for a game of so many edges so far.
    pub(super) fn push_name(&mut self, name: &[u8], edges: usize) {
        self.names.push(self.count as u32 - 1, name, edges);
    }

    /// Sorts the ids, and returns the file's entries in that sequence, or none where they stand so.
    pub(super) fn sort(&mut self, lines: &Lines) -> Result<Option<Vec<u32>>, FileError> {
        if self.list.is_sorted_by(|id, next| id < next) {
            return Ok(None);
        }
        let list = &self.list;
        let mut entries: Vec<u32> = (0..self.count as u32).collect();
        entries.sort_by_key(|&entry| list[entry as usize]);
        let same = |pair: &&[u32]| list[pair[0] as usize] == list[pair[1] as usize];
        // Of all second entries the first one in the file, as a reader comes upon it.
        if let Some(pair) = entries.windows(2).filter(same).min_by_key(|pair| pair[1]) {
            let [before, line] = [pair[0], pair[1]].map(|entry| lines.of(entry as usize));
            let what = format!("line {before} has this id already");
            return Err(FileError::at(
                line,
                Some(list[pair[0] as usize]),
                what,
                "give each vertex an id of its own",
            ));
        }
        let sorted = entries.iter().map(|&entry| list[entry as usize]).collect();
        self.list = sorted;
        self.names = self.names.in_sequence(&entries);
        if self
            .list
            .last()
            .is_some_and(|&last| u64::from(last - self.list[0]) + 1 == self.count as u64)
        {
            self.first = self.list[0];
            self.list = Vec::new();
        }
        Ok(Some(entries))
    }

    /// Turns ids into the vertices that have them; else returns the place of the first that no vertex has.
    pub(super) fn resolve(&self, ids: &mut [u32]) -> Result<(), usize> {
        let (first, count) = (self.first, self.count);
        if self.list.is_empty() {
            if let Some(place) = ids.iter().position(|id| id.wrapping_sub(first) as usize >= count)
            {
                return Err(place);
            }
            ids.iter_mut().for_each(|id| *id -= first);
            return Ok(());
        }
        let table = self.table();
        for (place, id) in ids.iter_mut().enumerate() {
            let vertex = match &table {
                Some(table) => table.get(*id as usize).copied().filter(|&vertex| vertex != NONE),
                None => self.vertex(*id),
            };
            *id = vertex.ok_or(place)?;
        }
        Ok(())
    }

    /// The vertex of each id, where that takes little memory.
    fn table(&self) -> Option<Vec<u32>> {
        let last = *self.list.last()? as usize;
        if last / 4 > self.count {
            return None;
        }
        let mut table = vec![NONE; last + 1];
        for (vertex, &id) in (0..).zip(&self.list) {
            table[id as usize] = vertex;
        }
        Some(table)
    }
}

/// A word without the quotes that it may stand in.
fn unquoted(word: &str) -> &str {
    word.strip_prefix('"').and_then(|word| word.strip_suffix('"')).unwrap_or(word)
}

/// A name as it is shown: in UTF-8, or else in Latin-1, with a question mark for each control character.
pub fn name_text(bytes: &[u8]) -> String {
    let latin = || bytes.iter().map(|&byte| char::from(byte)).collect();
    let text = std::str::from_utf8(bytes).map_or_else(|_| latin(), String::from);
    text.replace(char::is_control, "?")
}

/// Names one behind the other, with the vertices whose they are and their ends.
#[derive(Clone, Debug, Default)]
struct Names {
    bytes: Vec<u8>,
    whose: Vec<u32>,
    ends: Vec<u32>,
    left_out: bool,
}

impl Names {
    /// The memory that names may take, besides 8 bytes for each edge, where there are more vertices than a small game has.
    const FREE: usize = 1 << 20;

    fn push(&mut self, vertex: u32, name: &[u8], edges: usize) {
        let size = self.bytes.len() + name.len() + 8 * (self.whose.len() + 1);
        let is_much = vertex as usize >= MOST_VERTICES && size > Names::FREE + 8 * edges;
        if self.left_out || is_much || size > u32::MAX as usize {
            *self = Names { left_out: true, ..Names::default() };
            return;
        }
        self.add(vertex, name);
    }

    fn add(&mut self, vertex: u32, name: &[u8]) {
        self.bytes.extend_from_slice(name);
        self.whose.push(vertex);
        self.ends.push(self.bytes.len() as u32);
    }

    fn of(&self, vertex: u32) -> Option<&[u8]> {
        let place = self.whose.binary_search(&vertex).ok()?;
        Some(self.at(place))
    }

    fn at(&self, place: usize) -> &[u8] {
        let start = place.checked_sub(1).map_or(0, |before| self.ends[before]);
        &self.bytes[start as usize..self.ends[place] as usize]
    }

    /// The names for vertices that stand in the sequence of these entries.
    fn in_sequence(&self, entries: &[u32]) -> Names {
        let mut sorted = Names { left_out: self.left_out, ..Names::default() };
        for (vertex, &entry) in (0..).zip(entries) {
            if let Some(name) = self.of(entry) {
                sorted.add(vertex, name);
            }
        }
        sorted
    }
}
