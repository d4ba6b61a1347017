//! Edges that come and go.

use super::{granted, part, word, Game, Memory};
use crate::{Edited, Refusal};

/// A call that adds or removes an edge, and one that previews that.
type Edit = fn(&mut [u16], u32, u32, &mut [u8], &mut [u8], &mut [u16]) -> Result<Edited, Refusal>;
type Preview =
    fn(&[u16], u32, u32, &mut [u16], &mut [u8], &mut [u8], &mut [u16]) -> Result<Edited, Refusal>;

/// A game after edits, with its classes.
#[derive(Clone, Debug, PartialEq, Eq)]
#[non_exhaustive]
pub struct Changed {
    /// The game.
    pub game: Game,
    /// The class of each vertex.
    pub classes: Vec<u16>,
}

impl Changed {
    /// A game and the class of each of its vertices, which nobody judges.
    ///
    /// ```
    /// let game: raskjomi::Game = "1 1 / 0 / 0 / 0 / 0".parse()?;
    /// let changed = raskjomi::Changed::new(game.clone(), game.classes());
    /// assert_eq!((changed.game, changed.classes), (game, vec![0]));
    /// # Ok::<(), raskjomi::formats::ReadError>(())
    /// ```
    pub fn new(game: Game, classes: Vec<u16>) -> Changed {
        Changed { game, classes }
    }
}

/// A list of edges that come and go, by its words.
///
/// ```
/// use raskjomi::{Game, Trace};
/// let game = Game::new(vec![2, 2, 0, 1, 0, 0, 0, 1, 1, 1])?;
/// let after = game.replay(&Trace::new(&[(0, 0), (0, 1)])).unwrap();
/// assert_eq!(after.game.words(), [2, 2, 0, 1, 0, 0, 1, 0, 1, 0]);
/// // Vertex 1 keeps its last edge: no entry is done before that one.
/// let (refusal, done) = game.replay(&Trace::new(&[(1, 1)])).unwrap_err();
/// assert_eq!((refusal.number, done), (38, 0));
/// # Ok::<(), raskjomi::Refusal>(())
/// ```
#[derive(Clone, Debug, PartialEq, Eq)]
pub struct Trace {
    words: Vec<u16>,
}

impl Trace {
    /// The trace of these edges, in sequence.
    ///
    /// ```
    /// assert_eq!(raskjomi::Trace::new(&[(0, 2), (1, 0)]).words(), [2, 0, 1, 2, 0]);
    /// ```
    pub fn new(edges: &[(u16, u16)]) -> Trace {
        let (sources, targets): (Vec<u16>, Vec<u16>) = edges.iter().copied().unzip();
        Trace { words: [&[word(edges.len())], &sources[..], &targets].concat() }
    }

    /// The trace of words from elsewhere, which no call has judged yet.
    ///
    /// ```
    /// assert!(raskjomi::Trace::from_words(vec![1, 0, 2]).edges().eq([(0, 2)]));
    /// ```
    pub fn from_words(words: Vec<u16>) -> Trace {
        Trace { words }
    }

    /// Its words.
    ///
    /// ```
    /// assert_eq!(raskjomi::Trace::new(&[(0, 2)]).words(), [1, 0, 2]);
    /// ```
    pub fn words(&self) -> &[u16] {
        &self.words
    }

    /// Its edges in sequence, as far as the words have them.
    ///
    /// ```
    /// assert!(raskjomi::Trace::new(&[(0, 2), (1, 0)]).edges().eq([(0, 2), (1, 0)]));
    /// ```
    pub fn edges(&self) -> impl Iterator<Item = (u16, u16)> + '_ {
        let count = self.words.first().copied().unwrap_or_default().into();
        let [sources, targets] = [1, 1 + count].map(|from| part(&self.words, from, count));
        sources.iter().copied().zip(targets.iter().copied())
    }
}

impl Game {
    /// Adds an edge; gives the class of each vertex after it. Refused, the game stays as it was.
    ///
    /// ```
    /// let mut game: raskjomi::Game = "3 3 / 0 1 0 / 0 0 1 / 0 1 2 / 1 1 1".parse()?;
    /// assert_eq!(game.add_edge(0, 2)?, [0, 1, 2]);
    /// assert_eq!(game.add_edge(0, 2).unwrap_err().number, 37, "it is there");
    /// # Ok::<(), Box<dyn std::error::Error>>(())
    /// ```
    ///
    /// # Errors
    ///
    /// Refusals 37 and 39, as [`add_edge`](crate::add_edge()) has them.
    pub fn add_edge(&mut self, source: u32, target: u32) -> Result<Vec<u16>, Refusal> {
        self.edited(crate::add_edge, source, target)
    }

    /// Removes an edge, every copy of it; gives the class of each vertex after it. Refused, the game stays as it was.
    ///
    /// ```
    /// let mut game: raskjomi::Game = "3 4 / 0 1 0 / 0 0 1 / 0 1 2 0 / 1 1 1 2".parse()?;
    /// assert_eq!(game.remove_edge(0, 2)?, [0, 1, 0]);
    /// assert_eq!(game.remove_edge(0, 1).unwrap_err().number, 38, "it is the last of 0");
    /// # Ok::<(), Box<dyn std::error::Error>>(())
    /// ```
    ///
    /// # Errors
    ///
    /// Refusals 37 and 38, as [`remove_edge`](crate::remove_edge()) has them.
    pub fn remove_edge(&mut self, source: u32, target: u32) -> Result<Vec<u16>, Refusal> {
        self.edited(crate::remove_edge, source, target)
    }

    fn edited(&mut self, edit: Edit, source: u32, target: u32) -> Result<Vec<u16>, Refusal> {
        let Memory { mut marks, mut spare, mut classes, .. } = Memory::of(self);
        let mut words = self.with_room(2);
        let edited = edit(&mut words, source, target, &mut marks, &mut spare, &mut classes)?;
        *self = after(words, edited);
        Ok(classes)
    }

    /// What adding an edge would make of the game, which stays as it is.
    ///
    /// ```
    /// let game: raskjomi::Game = "3 3 / 0 1 0 / 0 0 1 / 0 1 2 / 1 1 1".parse()?;
    /// let seen = game.preview_add(0, 2)?;
    /// assert_eq!((seen.classes, seen.game.size().edges), (vec![0, 1, 2], 4));
    /// assert_eq!(game.size().edges, 3);
    /// # Ok::<(), Box<dyn std::error::Error>>(())
    /// ```
    ///
    /// # Errors
    ///
    /// Those of [`Game::add_edge`].
    pub fn preview_add(&self, source: u32, target: u32) -> Result<Changed, Refusal> {
        self.previewed(crate::preview_add, source, target)
    }

    /// What removing an edge would make of the game, which stays as it is.
    ///
    /// ```
    /// let game: raskjomi::Game = "3 4 / 0 1 0 / 0 0 1 / 0 1 2 0 / 1 1 1 2".parse()?;
    /// assert_eq!(game.preview_remove(0, 2)?.classes, [0, 1, 0]);
    /// assert_eq!(game.preview_remove(1, 1).unwrap_err().number, 38);
    /// # Ok::<(), Box<dyn std::error::Error>>(())
    /// ```
    ///
    /// # Errors
    ///
    /// Those of [`Game::remove_edge`].
    pub fn preview_remove(&self, source: u32, target: u32) -> Result<Changed, Refusal> {
        self.previewed(crate::preview_remove, source, target)
    }

    fn previewed(&self, preview: Preview, source: u32, target: u32) -> Result<Changed, Refusal> {
        let Memory { mut marks, mut spare, mut classes, .. } = Memory::of(self);
        let (game, mut words) = (self.words(), vec![0; self.words().len() + 2]);
        let edited =
            preview(game, source, target, &mut words, &mut marks, &mut spare, &mut classes)?;
        Ok(Changed { game: after(words, edited), classes })
    }

    /// The game after the entries of a trace, with its classes.
    ///
    /// ```
    /// use raskjomi::{Game, Trace};
    /// let game: Game = "3 3 / 0 1 0 / 0 0 1 / 0 1 2 / 1 1 1".parse()?;
    /// // The edge from 0 to 2 comes, the one from 0 to 1 goes, and 1 would lose its last one.
    /// let (refusal, done) = game.replay(&Trace::new(&[(0, 2), (0, 1), (1, 1)])).unwrap_err();
    /// assert_eq!((refusal.number, done), (38, 2));
    /// assert_eq!(game.replay(&Trace::new(&[(0, 2), (0, 1)])).unwrap().classes, [0, 1, 2]);
    /// # Ok::<(), raskjomi::formats::ReadError>(())
    /// ```
    ///
    /// # Errors
    ///
    /// The first refusal, 37 to 40 as [`replay`](crate::replay()) has them, and the number of entries done
    /// before it.
    pub fn replay(&self, trace: &Trace) -> Result<Changed, (Refusal, usize)> {
        let Memory { mut marks, mut spare, mut classes, .. } = Memory::of(self);
        let mut words = self.with_room(trace.words().len());
        let replay = crate::replay(&mut words, trace.words(), &mut marks, &mut spare, &mut classes);
        let edited = replay.verdict.map_err(|refusal| (refusal, replay.entries))?;
        Ok(Changed { game: after(words, edited), classes })
    }

    /// The words of the table, and so many behind it.
    fn with_room(&self, more: usize) -> Vec<u16> {
        let mut words = self.words().to_vec();
        words.resize(words.len() + more, 0);
        words
    }
}

/// The game that begins the words after an edit.
fn after(mut words: Vec<u16>, edited: Edited) -> Game {
    words.truncate(edited.words());
    granted(Game::new(words))
}
