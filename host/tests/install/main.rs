//! What ./install puts into a folder: programs and libraries that work there, all or nothing of it, and its removal.

#[allow(dead_code)]
#[path = "../../archives/mod.rs"]
mod archives;
#[path = "../common/mod.rs"]
mod common;

mod changes;
mod folder;
mod library;
mod packages;
mod page;
mod refused;
