//! The calls that edit a table, by an edge or by a trace, and those that preview an edit. An edit works on a
//! fresh copy of the table, whose making counts for both sides; a preview makes its own.

use crate::baseline::edit::{self, Ways};
use crate::calls::{LIBRARY, SIDES};
use crate::{baseline, best, Figures};
use raskjomi::exports::{self, RaskjomiAnswer};
use raskjomi::mark_bytes;

/// A call that edits a table.
type Edit = fn(&mut [u16], u32, u32, &mut [u8], &mut [u8], &mut [u16]) -> RaskjomiAnswer;
/// A call that previews an edit.
type Preview = fn(&[u16], u32, u32, &mut [u16], &mut [u8], &mut [u8], &mut [u16]) -> RaskjomiAnswer;

/// The library's calls that remove an edge and that add one.
const EDIT: [Edit; 2] = [exports::remove_edge, exports::add_edge];
const PREVIEW: [Preview; 2] = [exports::preview_remove, exports::preview_add];
/// How the sides after the library do both: the baseline and the two best.
const WAYS: [Ways; 3] = [edit::WAYS, best::ways::<false>(), best::ways::<true>()];

/// An edge that is added or removed.
#[derive(Clone, Copy)]
pub struct Change {
    pub source: u32,
    pub target: u32,
    pub add: bool,
}

/// A call that replays a trace.
type Replay = fn(&mut [u16], &[u16], &mut [u8], &mut [u8], &mut [u16]) -> RaskjomiAnswer;

const REPLAY: [Replay; SIDES] =
    [exports::replay, baseline::replay, best::replay::<false>, best::replay::<true>];

/// The memory that a side works in.
#[derive(Clone, PartialEq, Eq)]
pub struct Memory {
    pub table: Vec<u16>,
    pub marks: Vec<u8>,
    pub spare: Vec<u8>,
    pub classes: Vec<u16>,
}

impl Memory {
    pub fn for_game(game: &[u16]) -> Memory {
        let n = game[0] as usize;
        let (table, marks) = ([game, &[7; 2]].concat(), vec![7; mark_bytes(n)]);
        Memory { table, spare: marks.clone(), marks, classes: vec![7; n] }
    }

    pub fn edit(&mut self, side: usize, game: &[u16], change: Change) -> RaskjomiAnswer {
        let Memory { table, marks, spare, classes } = self;
        let Change { source, target, add } = change;
        table[..game.len()].copy_from_slice(game);
        match side {
            LIBRARY => EDIT[add as usize](table, source, target, marks, spare, classes),
            _ => edit::edit(&WAYS[side - 1], table, source, target, marks, spare, classes, add),
        }
    }

    pub fn preview(&mut self, side: usize, game: &[u16], change: Change) -> RaskjomiAnswer {
        let Memory { table, marks, spare, classes } = self;
        let Change { source, target, add } = change;
        if side == LIBRARY {
            return PREVIEW[add as usize](game, source, target, table, marks, spare, classes);
        }
        let ways = &WAYS[side - 1];
        edit::preview(ways, game, source, target, table, marks, spare, classes, add)
    }

    pub fn replay(&mut self, side: usize, game: &[u16], trace: &[u16]) -> RaskjomiAnswer {
        let Memory { table, marks, spare, classes } = self;
        table[..game.len()].copy_from_slice(game);
        REPLAY[side](table, trace, marks, spare, classes)
    }
}

/// What the row of an edit shows.
pub fn figures(game: &[u16], change: Change) -> Figures {
    let call = |side: usize, memory: &mut Memory| memory.edit(side, game, change);
    let (figures, answer) = crate::figures(Memory::for_game(game), call);
    assert_eq!(answer.number, 0, "the edit is accepted");
    figures
}

/// What the row of a preview shows.
pub fn preview_figures(game: &[u16], change: Change) -> Figures {
    let call = |side: usize, memory: &mut Memory| memory.preview(side, game, change);
    let (figures, answer) = crate::figures(Memory::for_game(game), call);
    assert_eq!(answer.number, 0, "the preview is accepted");
    figures
}

/// What the row of a replay shows. The baseline writes the order before the first entry and after the last, and
/// goes over all edges once for each entry.
pub fn replay_figures(game: &[u16], trace: &[u16]) -> Figures {
    let call = |side: usize, memory: &mut Memory| memory.replay(side, game, trace);
    let (figures, answer) = crate::figures(Memory::for_game(game), call);
    assert_eq!((answer.number, answer.entries), (0, trace[0] as u32), "every entry is accepted");
    figures
}
