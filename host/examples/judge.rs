//! Judges a partner's relation on a game, rows of 0 and 1 or packed marks, and names the place of what fails:
//! `cargo run --example judge -- games/b.txt relation.txt`.

use raskjomi::formats::{read_game, Numbers, Unit};
use raskjomi::Refusal;
use std::error::Error;
use std::process::ExitCode;
use std::{env, fs};

fn main() -> ExitCode {
    match judge() {
        Ok(()) => ExitCode::SUCCESS,
        Err(error) => {
            eprintln!("judge: {error}");
            ExitCode::FAILURE
        }
    }
}

fn judge() -> Result<(), Box<dyn Error>> {
    let files: Vec<String> = env::args().skip(1).collect();
    let [game, relation] = &files[..] else { return Err("name a game and a relation".into()) };
    let file = read_game(&fs::read(game)?)?;
    let (n, size) = (file.game.size().vertices, file.game.size());
    let relation = Numbers::read(&fs::read(relation)?, Unit::Mark(size.marks()), None)?;
    match file.game.accept_relation(&relation.packed(n * n)) {
        Ok(()) => println!("accepted: it is a direct simulation"),
        Err(refusal) => {
            let told = refusal.explanation();
            println!("{refusal}");
            println!("the place is {}", told.place);
            if let Refusal { number: 10, place } = refusal {
                let [v, w] = [place / n, place % n].map(|vertex| file.vertices.label(vertex));
                let at = if relation.is_text() { place } else { place / 8 };
                println!("the pair {v}, {w} fails, at {}", relation.place(at, ""));
            }
            println!("what to do: {}", told.remedy);
        }
    }
    Ok(())
}
