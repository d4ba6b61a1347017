//! How an edit reads a table, and writes the order and the classes of one.

use super::{classes, reader};
use crate::baseline::edit::Ways;

pub const fn ways<const LISTS: bool>() -> Ways {
    Ways {
        read: reader::read_whole,
        fill: |table, marks, spare, numbers| {
            classes::<LISTS>(table, marks, spare, numbers).classes as usize
        },
    }
}
