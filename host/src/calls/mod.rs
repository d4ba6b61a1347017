//! The calls in lent memory.

mod classes;
mod edits;
mod plans;
mod relations;
mod tables;

pub use classes::{classes, governed_classes, quotient, reduce};
pub use edits::{add_edge, preview_add, preview_remove, remove_edge, replay};
pub use plans::{accept_plan, carry, carry_class, verdict};
pub use relations::{accept_governed, accept_relation, governed_order, order};
pub use tables::{convert, read, seed};
