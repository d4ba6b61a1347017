//! The built command line: each command, each output form, each kind of error.

#[path = "../common/mod.rs"]
mod common;
#[path = "../../oracle/tests/games/mod.rs"]
mod games;

mod batch;
mod browser;
mod check_reduction;
mod commands;
mod completions;
mod drawings;
mod dropped;
mod errors;
mod habits;
mod html;
mod inputs;
mod json;
mod large;
mod large_reductions;
mod options;
mod outputs;
mod page;
mod page_browser;
mod page_files;
mod page_picture;
mod page_reasons;
mod parsed;
mod pgsolver;
mod questions;
mod reachable;
mod refusals;
mod run;
mod solutions;
mod statuses;
mod traces;
mod winners;
mod workflow;
