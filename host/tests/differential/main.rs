//! The library against the oracle: many games, damaged tables, relations, plans and buffers, every
//! byte compared after every call.

#[path = "../common/mod.rs"]
mod common;

mod agreement;
mod calls;
mod carries;
mod conversions;
mod decided;
mod edits;
mod families;
mod fixed_point;
mod governed;
mod large;
mod large_random;
mod large_reductions;
mod large_reductions_random;
mod large_reductions_spoilt;
mod large_spoilt;
mod lifts;
mod limits;
mod minimal;
mod previews;
mod repeats;
mod replays;
mod samples;
mod seeds;
mod tables;
mod threads;
mod traps;
mod verdicts;
mod walks;
mod winners;
