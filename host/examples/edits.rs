//! Adds edges to a game as long as its classes stay few: each is previewed first, and made only if no class falls apart:
//! `cargo run --example edits -- games/b.txt 0:2 1:0`.

use raskjomi::formats::{read_game, Vertices};
use raskjomi::members;
use std::error::Error;
use std::process::ExitCode;
use std::{env, fs};

fn main() -> ExitCode {
    match edit() {
        Ok(()) => ExitCode::SUCCESS,
        Err(error) => {
            eprintln!("edits: {error}");
            ExitCode::FAILURE
        }
    }
}

fn edit() -> Result<(), Box<dyn Error>> {
    let mut arguments = env::args().skip(1);
    let path = arguments.next().ok_or("no game; name a file, then edges as 0:2")?;
    let file = read_game(&fs::read(path)?)?;
    let (mut game, mut classes) = (file.game.clone(), file.game.classes());
    for edge in arguments {
        let (source, target) = ends(&edge, &file.vertices)?;
        match game.preview_add(source, target) {
            Err(refusal) => println!("{edge}: {refusal}; {}", refusal.explanation().remedy),
            Ok(seen) => {
                let [before, after] = [&classes, &seen.classes].map(|of| members(of).len());
                println!("{edge}: {before} classes before, {after} after");
                if after <= before {
                    classes = game.add_edge(source, target)?;
                }
            }
        }
    }
    let size = game.size();
    println!(
        "{} vertices, {} edges, {} classes",
        size.vertices,
        size.edges,
        members(&classes).len()
    );
    Ok(())
}

/// The vertices of an edge, by their ids or names.
fn ends(edge: &str, vertices: &Vertices) -> Result<(u32, u32), String> {
    let ends = edge.split_once(':').and_then(|(source, target)| {
        Some((vertices.find(source)? as u32, vertices.find(target)? as u32))
    });
    ends.ok_or(format!("no edge `{edge}`; write two vertices of the game, as 0:2"))
}
