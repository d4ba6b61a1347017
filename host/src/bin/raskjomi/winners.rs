//! The command that tells the winners of a game of any size by a solution of its reduced game.

use crate::answers::Answered;
use crate::arguments::Arguments;
use crate::check_solution::{judge, made};
use crate::commands::Written;
use crate::failure::Failure;
use crate::help::{Command, Opt};
use crate::large::{Loaded, Solved};
use crate::progress::watch;
use crate::reduced::{chained, classes_of, Reduced};
use crate::source::Source;
use raskjomi::large::{Decided, NO_WINNER};
use raskjomi::{Certificate, LargeReduction};

/// It comes after the checks.
pub const COMMANDS: [Command; 1] = [Command {
    name: "winners",
    usage: "winners GAME SOLUTION [--large] [--as text|solution | --json]",
    summary: "the winner at each vertex of a game of any size, by a solution of its reduced game",
    details:
        "SOLUTION is a solver's solution of the game that `reduce GAME` writes, without --then-order: its ids are the numbers of the classes. \
         GAME is reduced again, and the solution is checked on the reduced game with a certificate of its own. For a game within the limits \
         that is all: it is proved that the winner at a vertex is the winner at its class. Above the limits, and with --large for a solution of \
         what `reduce GAME --large` writes, it then becomes a solution of GAME, where each vertex has its class's winner and moves as its class \
         does, and this is checked on GAME itself, as check-solution does. So the answer doesn't rest on the solver. The first line is that \
         of check-solution, and a line for each vertex has its winner. --as solution writes the solution of GAME itself, as a solver would: the \
         winner at each vertex, and a move at each one of its winner's own. It is checked on GAME before it is written, whatever its size. \
         SOLUTION may leave out classes: their vertices, and those from which its moves may come to such a class, are not shown, and the status \
         is 4.",
    example: "./raskjomi winners games/lift-doors.txt games/lift-doors.sol",
    files: 2..=2,
    options: &[
        Opt { name: "--large", value: None },
        Opt { name: "--as", value: Some("a form") },
        Opt { name: "--json", value: None },
    ],
    run: winners,
}];

/// The form of the answer.
#[derive(Clone, Copy, PartialEq, Eq)]
enum Form {
    Text,
    Json,
    Solution,
}

/// A game with its classes, and how they were found.
struct Merged {
    of: Loaded,
    classes: Vec<u32>,
    by: By,
}

enum By {
    /// The order, which takes a game within the limits.
    Order {
        game: raskjomi::Game,
        reduced: raskjomi::Game,
    },
    Moves(LargeReduction),
}

/// `winners`.
fn winners(arguments: &Arguments) -> Written {
    let form = form(arguments)?;
    let of = Loaded::load(arguments.file(0))?;
    let (merged, of_classes) = match of.game.within_limits().filter(|_| !arguments.has("--large")) {
        Some(game) => by_order(of, game),
        None => by_moves(of)?,
    };
    let solved = Solved::load_partial(of_classes, arguments.file(1))?;
    let answered = answered(merged, solved, form)?;
    match form {
        Form::Solution => answered.solution(),
        Form::Json => answered.answer(format!("{}\n", answered.value())),
        Form::Text => answered.answer(answered.text()),
    }
}

/// The answers for a game within the limits, and the solution of its reduced game where it decides.
pub fn within(
    of: Loaded,
    game: raskjomi::Game,
    source: Source,
) -> Result<(Answered, Decided), Failure> {
    let (merged, of_classes) = by_order(of, game);
    let solved = Solved::load_partial(of_classes, source)?;
    let decided = solved.of.game.decided(&solved.solution);
    Ok((answered(merged, solved, Form::Text)?, decided))
}

fn answered(merged: Merged, solved: Solved, form: Form) -> Result<Answered, Failure> {
    match solved.winners().contains(&NO_WINNER) {
        true => in_part(merged, solved, form),
        false => in_whole(merged, solved, form),
    }
}

fn form(arguments: &Arguments) -> Result<Form, Failure> {
    match arguments.value("--as") {
        None if arguments.has("--json") => Ok(Form::Json),
        None | Some("text") => Ok(Form::Text),
        Some("solution") => Ok(Form::Solution),
        Some(other) => Err(Failure::usage(format!(
            "winners: no form `{other}`; write --as text or --as solution"
        ))),
    }
}

/// With the reduced game that the order gives. That the winner at a vertex is the winner at its class is proved of it.
fn by_order(of: Loaded, game: raskjomi::Game) -> (Merged, Loaded) {
    let vertices: Vec<u32> = (0..of.game.size().vertices as u32).collect();
    let by_order = game.reduce();
    let (reduced, classes) = chained(&vertices, &by_order);
    let of_classes = classes_of(&of, &classes, reduced);
    let by = By::Order { game, reduced: by_order.game };
    (Merged { of, classes, by }, of_classes)
}

/// With the game of vertices merged by their moves.
fn by_moves(of: Loaded) -> Result<(Merged, Loaded), Failure> {
    let reduced = Reduced::make(of)?;
    let of_classes = reduced.game_of_classes();
    let Reduced { of, reduction } = reduced;
    let classes = reduction.classes().to_vec();
    Ok((Merged { of, classes, by: By::Moves(reduction) }, of_classes))
}

/// By a solution of the whole reduced game. The solution that follows for the game itself is checked, too, where it is asked for or the order
/// isn't known.
fn in_whole(merged: Merged, solved: Solved, form: Form) -> Result<Answered, Failure> {
    let json = form == Form::Json;
    let certificate = made(&solved, json)?;
    judge(&solved, &certificate, None)?;
    if matches!(merged.by, By::Order { .. }) && form != Form::Solution {
        let Merged { of, classes, .. } = merged;
        return Ok(Answered::by_classes(of, classes, solved.winners()));
    }
    let (lifted, classes) = lift(merged, &solved, &certificate)?;
    judge(&lifted, &made(&lifted, json)?, None)?;
    Ok(Answered::lifted(lifted, classes))
}

/// The solution of the game that follows one of the reduced game.
fn lift(
    merged: Merged,
    solved: &Solved,
    certificate: &Certificate,
) -> Result<(Solved, Vec<u32>), Failure> {
    let Merged { of, classes, by } = merged;
    let solution = match by {
        By::Order { game, .. } => game.lift(&solved.solution, certificate),
        By::Moves(reduction) => reduction.lift(&of.game, &solved.solution),
    };
    let solution = solution.map_err(|refusal| {
        Failure::refused(refusal, format!("{}: the lifted solution is {refusal}", solved.name))
    })?;
    let name = format!("the solution of {} that follows {}", of.name, solved.name);
    Ok((Solved { of, name, solution }, classes))
}

/// By a solution that leaves out classes: it is checked where it decides. Within the limits the plan from each class that it decides is judged on
/// the reduced game itself, too.
fn in_part(merged: Merged, solved: Solved, form: Form) -> Result<Answered, Failure> {
    let part = solved.of.game.decided(&solved.solution);
    let of = Loaded { game: part.game.clone(), ..solved.of };
    let solved = Solved { of, solution: part.solution.clone(), ..solved };
    judge(&solved, &made(&solved, form == Form::Json)?, None)?;
    let Merged { of, classes, by } = merged;
    if let By::Order { reduced, .. } = by {
        accept_plans(&reduced, &part, &solved)?;
    }
    Ok(Answered::by_some_classes(of, classes, &solved, &part.open))
}

/// Judges the plan from each class that is decided.
fn accept_plans(reduced: &raskjomi::Game, part: &Decided, solved: &Solved) -> Result<(), Failure> {
    let _watch = watch("the plans");
    for class in 0..part.open.len() as u32 {
        let (Some(plan), Some(winner)) = (part.plan(class), part.solution.winner(class)) else {
            continue;
        };
        reduced.accept_plan(winner, &plan).map_err(|refusal| {
            let (name, label) = (&solved.name, solved.of.vertices.label(class));
            let fault = "the fault is this program's: tell its makers of both files";
            Failure::refused(
                refusal,
                format!("{name}: the plan from class {label} is {refusal}; {fault}"),
            )
        })?;
    }
    Ok(())
}
