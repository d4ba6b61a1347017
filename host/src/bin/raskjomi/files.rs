//! The commands about other tools' files.

use crate::arguments::Arguments;
use crate::commands::{self, as_words, vertex_given, Written};
use crate::game_input::GameInput;
use crate::help::{Command, Opt};
use crate::input::{unreadable, Input};
use crate::locate::made_plan_refused;
use crate::progress::watched;
use crate::text;
use crate::values::{self, pairs, Called, Fields};
use raskjomi::formats::json::{self, Value};
use raskjomi::formats::{to_bytes, Solution};
use raskjomi::{Plan, Player};

/// They come after the others in the help.
pub const COMMANDS: [Command; 2] = [
Command {
    name: "pgsolver",
    usage: "pgsolver [GAME]",
    summary: "the game in PGSolver's format, for tools where the highest priority decides",
    details: "Priorities go through the conversion of `convert`; with --lowest they stay as they are. Ids \
              and names are those of the file, or the vertices' numbers. Copies of an edge are \
              written once. `quotient`, `reduce`, `edit`, `replay`, `seed` and `convert` \
              write the format with --as pgsolver.",
    example: "./raskjomi pgsolver games/c.txt | ./raskjomi reduce",
    files: 0..=1,
    options: &[],
    run: commands::pgsolver,
},
Command {
    name: "plan",
    usage: "plan GAME SOLUTION [--vertex V] [--as text|words | --json]",
    summary: "a plan for the winner of a vertex, from a solver's solution, judged",
    details: "SOLUTION is a file as PGSolver and Oink write it: `paritysol N;`, which may be missing, then `id winner strategy;` \
              for each vertex, 0 for Even and 1 for Odd, with a strategy where the vertex is its \
              winner's. The strategy becomes a plan that starts at V, for the player who is said to win \
              there. It is written only if `check-plan` accepts it, so a solution with a mistake is found \
              where it matters for V. A plan on the reduced game goes on to `verdict` and `carry --class`.",
    example: "./raskjomi plan games/c.txt games/c.sol --vertex 0",
    files: 2..=2,
    options: &[
        Opt { name: "--vertex", value: Some("a vertex") },
        Opt { name: "--as", value: Some("text or words") },
        Opt { name: "--json", value: None },
    ],
    run: plan,
}];

/// `plan`.
fn plan(arguments: &Arguments) -> Written {
    let as_words = as_words(arguments, "plan")?;
    let game = GameInput::load(arguments.file(0))?;
    let word = vertex_given(arguments, game.vertices(), "the plan is to start at")?;
    let (name, text) = Input::solution(arguments.file(1))?;
    let vertex = game.vertex(&word, "--vertex")?;
    let (vertices, label) = (game.vertices(), game.vertices().label(vertex));
    let (winner, plan) = Solution::parse(&text)
        .and_then(|solution| solution.plan(&game.game, vertices, vertex))
        .map_err(|error| unreadable(&name, error))?;
    watched("the plan", || game.game.accept_plan(winner, &plan)).map_err(|refusal| {
        let claim = format!("{name}: {winner} is said to win from vertex {label}");
        made_plan_refused(refusal, &game, claim, &plan)
    })?;
    if as_words {
        return Ok(to_bytes(plan.words()));
    }
    let sentence = format!("This plan wins for {winner} from vertex {label}.");
    if arguments.has("--json") {
        return Ok(values::line(value(winner, vertices.fields_of(vertex), &plan, sentence)));
    }
    Ok(text::plan(&sentence, &plan, vertices).into())
}

/// A plan as a value: the vertex of each position, and the links between positions.
fn value(winner: Player, at: Fields, plan: &Plan, sentence: String) -> Value {
    let positions = plan.positions().iter().map(|&vertex| usize::from(vertex));
    let links = plan.links().map(|(source, target)| (source.into(), target.into()));
    json::object([
        ("winner", Value::Text(winner.to_string())),
        ("at", json::object(at)),
        ("positions", json::list(positions)),
        ("links", pairs(links)),
        ("sentence", Value::Text(sentence)),
    ])
}
