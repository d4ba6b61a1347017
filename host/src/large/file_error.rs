//! What is wrong with a file.

use std::fmt;

/// What is wrong with a file, where, and what to do.
///
/// ```
/// let error = raskjomi::formats::read_game(b"parity 1;\n0 2 0 5;").unwrap_err();
/// let raskjomi::formats::ReadError::File(error) = error else { panic!("5 is no vertex") };
/// assert_eq!((error.line, error.id), (Some(2), Some(0)));
/// assert_eq!(error.what, "successor 5 is no vertex of the file");
/// assert_eq!(error.remedy, "add a line for 5, or take it off the list");
/// ```
#[derive(Clone, Debug, PartialEq, Eq)]
#[non_exhaustive]
pub struct FileError {
    /// The line, counted from 1; none if it isn't about one.
    pub line: Option<u64>,
    /// The vertex's id, if it is about a line for a vertex.
    pub id: Option<u32>,
    /// What else of the line it is about, in words: "word 3", "column 5", "vertex 0".
    pub part: Option<String>,
    /// What is wrong.
    pub what: String,
    /// What to do.
    pub remedy: String,
    /// What can help besides.
    pub kind: FileErrorKind,
}

/// What can help with a file that is wrong.
#[derive(Clone, Copy, Debug, Default, PartialEq, Eq)]
#[non_exhaustive]
pub enum FileErrorKind {
    /// Nothing but what the error says.
    #[default]
    Plain,
    /// The game is above the limits: as a [`large`](crate::large) one it can be read.
    AboveLimits,
    /// It may be binary: it can be read where a [`FileForm`](crate::large::FileForm) says so.
    MaybeBinary,
}

/// "line 3, id 1: what is wrong; what to do"
impl fmt::Display for FileError {
    fn fmt(&self, f: &mut fmt::Formatter) -> fmt::Result {
        let line = self.line.map(|line| format!("line {line}"));
        let id = self.id.map(|id| format!("id {id}"));
        let place: Vec<String> = [line, id, self.part.clone()].into_iter().flatten().collect();
        if !place.is_empty() {
            write!(f, "{}: ", place.join(", "))?;
        }
        write!(f, "{}; {}", self.what, self.remedy)
    }
}

impl std::error::Error for FileError {}

impl FileError {
    pub(crate) fn at(
        line: u64,
        id: Option<u32>,
        what: impl Into<String>,
        remedy: impl Into<String>,
    ) -> FileError {
        FileError { line: Some(line), id, ..FileError::of_file(what, remedy) }
    }

    /// One that is about no line.
    pub(crate) fn of_file(what: impl Into<String>, remedy: impl Into<String>) -> FileError {
        let (what, remedy, kind) = (what.into(), remedy.into(), FileErrorKind::Plain);
        FileError { line: None, id: None, part: None, what, remedy, kind }
    }
}
