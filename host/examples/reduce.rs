//! Reduces the game of a file and writes the reduced game in PGSolver's format, with what was merged on standard error:
//! `cargo run --example reduce -- games/d.txt`.

use raskjomi::formats::read_game;
use std::error::Error;
use std::io::{self, Write};
use std::process::ExitCode;
use std::{env, fs};

fn main() -> ExitCode {
    match reduce() {
        Ok(()) => ExitCode::SUCCESS,
        Err(error) => {
            eprintln!("reduce: {error}");
            ExitCode::FAILURE
        }
    }
}

fn reduce() -> Result<(), Box<dyn Error>> {
    let path = env::args().nth(1).ok_or("no game; name a file")?;
    let file = read_game(&fs::read(path)?)?;
    let reduced = file.game.reduce();
    let [before, after] = [file.game.size(), reduced.game.size()];
    eprintln!(
        "{} vertices and {} edges before, {} and {} after",
        before.vertices, before.different, after.vertices, after.edges
    );
    for (class, members) in reduced.members().iter().enumerate() {
        if members.len() > 1 {
            eprintln!("class {class}: vertices {}", file.vertices.listed(members));
        }
    }
    io::stdout().write_all(&file.of_classes(reduced).to_pgsolver(false)?)?;
    Ok(())
}
