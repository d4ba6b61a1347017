//! Where the numbers of a file stand.

/// The line and the vertex's id that a number comes from.
pub(super) type Place = (u64, Option<u32>);

/// What a number of a file is.
#[derive(Clone, Copy, Debug, PartialEq, Eq)]
pub enum Unit {
    /// 16 bits, low byte first.
    Word,
    /// A mark, 0 or 1, in text; in binary a byte of eight marks. An input of exactly so many bytes, all that the
    /// marks need, is binary whatever it holds.
    Mark(usize),
}

/// Where the numbers stand.
#[derive(Clone, Debug)]
pub(super) enum Places {
    /// The line and the vertex's id that each number comes from.
    Pgsolver(Vec<Place>),
    /// The line and the word of each number, both counted from 1.
    Text(Vec<(usize, usize)>),
    /// One after the other, and why they are read so.
    Binary(Unit, Why),
    /// One after the other in the table of a part, which no file has.
    Part,
}

/// Why an input is read as binary.
#[derive(Clone, Copy, Debug)]
pub(super) enum Why {
    /// It is asked for.
    Said,
    /// It has the length of the marks.
    Length,
    /// This byte, counted from 0, is the first that no text has.
    Control(usize),
}

impl Places {
    /// Where one of `count` numbers stands, or where they end, in words and with a detail.
    pub(super) fn at(&self, index: usize, count: usize, detail: &str) -> String {
        let place = match count {
            0 => "no number in it".to_string(),
            _ if index < count => self.place(index),
            _ => format!("after {}, the last of {count}", self.place(count - 1)),
        };
        let detail = if detail.is_empty() { String::new() } else { format!(" ({detail})") };
        let form = match self {
            Places::Text(_) | Places::Pgsolver(_) | Places::Part => String::new(),
            Places::Binary(_, Why::Said) => ", read as binary".into(),
            Places::Binary(_, Why::Control(byte)) => {
                format!(", read as binary since byte {byte} is a control character")
            }
            Places::Binary(_, Why::Length) => {
                format!(", read as binary since it has the {count} bytes that the marks need")
            }
        };
        format!("{place}{detail}{form}")
    }

    fn place(&self, index: usize) -> String {
        match self {
            Places::Pgsolver(places) => match places[index] {
                (line, Some(id)) => format!("line {line}, id {id}"),
                (line, None) => format!("line {line}"),
            },
            Places::Text(places) => format!("line {}, word {}", places[index].0, places[index].1),
            Places::Part => format!("word {index} from 0 of its table"),
            Places::Binary(Unit::Word, _) => format!("word {index} from 0"),
            Places::Binary(Unit::Mark(_), _) => format!("byte {index} from 0"),
        }
    }
}
