//! The commands that change a game's edges.

use crate::arguments::Arguments;
use crate::commands::{class_of_each, Written};
use crate::failure::Failure;
use crate::game_input::GameInput;
use crate::input::{Input, Unit};
use crate::locate::{edit_refused, replay_refused};
use crate::output::{form_given, Output};
use crate::progress::watched;
use crate::{text, trace};
use raskjomi::{Changed, Game, Refusal, Trace};

/// `edit`.
pub fn edit(arguments: &Arguments) -> Written {
    let form = form_given(arguments, "edit")?;
    ends_given(arguments)?;
    let game = GameInput::load_buffer(arguments.file(0))?;
    let (edits, vertices) = (edits(arguments, &game)?, game.vertices());
    let preview = arguments.has("--preview");
    let after = match preview {
        true => watched("the previews", || previewed(&game.game, &edits)),
        false => watched("the edits", || edited(&game.game, &edits)),
    };
    let after = after.map_err(|(i, refusal)| {
        let (option, edge) = &arguments.repeated()[i];
        edit_refused(refusal, &game, &format!("{option} {edge}"))
    })?;
    if preview {
        return Ok(text::preview(&class_of_each(&game.game), &after.classes, vertices).into());
    }
    if arguments.has("--classes") {
        return Ok(text::changes(&class_of_each(&game.game), &after.classes, vertices).into());
    }
    let title = format!("after {}", told(&edits));
    Output { title, game: &after.game, vertices }.written(form, arguments)
}

/// An edge to add or to remove.
#[derive(Clone, Copy, Debug)]
struct Edit {
    add: bool,
    source: u32,
    target: u32,
}

/// A game after edits, in sequence; or the refusal of one, with its number from 0.
fn edited(game: &Game, edits: &[Edit]) -> Result<Changed, (usize, Refusal)> {
    let mut after = game.clone();
    let mut classes = Vec::new();
    for (i, &Edit { add, source, target }) in edits.iter().enumerate() {
        let edit = if add { Game::add_edge } else { Game::remove_edge };
        classes = edit(&mut after, source, target).map_err(|refusal| (i, refusal))?;
    }
    Ok(Changed::new(after, classes))
}

/// The same by previews: none writes the table that it reads, and each makes the one that the next one reads.
fn previewed(game: &Game, edits: &[Edit]) -> Result<Changed, (usize, Refusal)> {
    let mut after = Changed::new(game.clone(), Vec::new());
    for (i, &Edit { add, source, target }) in edits.iter().enumerate() {
        let preview = if add { Game::preview_add } else { Game::preview_remove };
        after = preview(&after.game, source, target).map_err(|refusal| (i, refusal))?;
    }
    Ok(after)
}

/// The ends that `--add` and `--remove` name, as they are written.
fn ends_given(arguments: &Arguments) -> Result<Vec<(&str, &str)>, Failure> {
    let given = arguments.repeated();
    if given.is_empty() {
        return Err(Failure::usage("edit: no edit; write --add V:W or --remove V:W"));
    }
    let ends = given
        .iter()
        .map(|(option, edge)| edge.split_once(':').ok_or_else(|| no_edge(option, edge, "")));
    ends.collect()
}

/// The edits, between vertices of the game; whether it can have them, the library judges.
fn edits(arguments: &Arguments, game: &GameInput) -> Result<Vec<Edit>, Failure> {
    let vertices = game.vertices();
    let find = |word| vertices.find(word).map(|vertex| vertex as u32);
    let range = format!("; {}", vertices.range(game.game.size().vertices));
    let edits = ends_given(arguments)?.into_iter().zip(arguments.repeated());
    let edits = edits.map(|((source, target), (option, edge))| {
        let ends = find(source).zip(find(target));
        let (source, target) = ends.ok_or_else(|| {
            let several = [source, target].into_iter().find_map(|end| vertices.ambiguous(end));
            no_edge(option, edge, &several.map_or(range.clone(), |told| format!("; {told}")))
        })?;
        Ok(Edit { add: option == "--add", source, target })
    });
    edits.collect()
}

fn no_edge(option: &str, edge: &str, range: &str) -> Failure {
    Failure::usage(format!(
        "edit: {option}: no edge `{edge}`; write two vertices, as {option} 0:2{range}"
    ))
}

/// `replay`.
pub fn replay(arguments: &Arguments) -> Written {
    let form = form_given(arguments, "replay")?;
    let game = GameInput::load_buffer(arguments.file(0))?;
    let trace = match arguments.has("--names") {
        true => trace::read(arguments.file(1), &game)?,
        false => Input::read(arguments.file(1), Unit::Word)?,
    };
    let words = Trace::from_words(trace.numbers.clone());
    let after = watched("the replay", || game.game.replay(&words))
        .map_err(|(refusal, done)| replay_refused(refusal, &game, &trace, done))?;
    let vertices = game.vertices();
    if arguments.has("--classes") {
        return Ok(text::changes(&class_of_each(&game.game), &after.classes, vertices).into());
    }
    let entries = trace.numbers[0];
    let title = format!("after {entries} entries of a trace");
    Output { title, game: &after.game, vertices }.written(form, arguments)
}

/// How many edges come and go.
fn told(edits: &[Edit]) -> String {
    let added = edits.iter().filter(|edit| edit.add).count();
    format!("edits: {added} added, {} removed", edits.len() - added)
}
