//! Where in the user's files a refusal points.

use crate::causes;
use crate::check_solution::LARGER;
use crate::failure::Failure;
use crate::game_input::GameInput;
use crate::input::Input;
use raskjomi::formats::Refused;
use raskjomi::formats::Vertices;
use raskjomi::{Game, Kind, Plan, Refusal};

/// A refusal of a game, told with its place in the game's file.
pub fn refused(name: &str, told: Refused) -> Failure {
    Failure::refused(told.refusal, format!("{name}: {told}"))
}

/// A refusal of the game, with what the command line can do besides.
pub fn game_refused(refusal: Refusal, game: &Input) -> Failure {
    let mut failure = refused(&game.name, game.refused(refusal));
    if refusal.number == 3 || (refusal.number == 2 && game.numbers[0] > 0) {
        failure.message += &format!("; {LARGER}");
    }
    failure
}

/// A refusal of a relation on a game that is accepted.
pub fn relation_refused(refusal: Refusal, game: &GameInput, relation: &Input) -> Failure {
    let (place, text) = (refusal.place, relation.is_text());
    let (index, detail) = match refusal.number {
        10 => return pair_refused(refusal, game, relation),
        21 if text => (relation.numbers.len(), format!("{} marks are needed", game.pairs())),
        21 => (relation.numbers.len(), format!("{place} bytes are needed")),
        41 => (place, format!("its bits from {} on belong to no pair", game.pairs() % 8)),
        _ => return game_refused(refusal, &game.input),
    };
    tell(refusal, relation.at(index, &detail))
}

/// A marked pair that fails, told with the failing successor.
fn pair_refused(refusal: Refusal, game: &GameInput, relation: &Input) -> Failure {
    let (place, n, vertices) = (refusal.place, game.game.size().vertices, game.vertices());
    let (v, w) = (place / n, place % n);
    let pair = format!("pair {}, {}", vertices.label(v), vertices.label(w));
    let (index, detail) = match relation.is_text() {
        true => (place, pair),
        false => (place / 8, format!("{pair}, bit {} from 0", place % 8)),
    };
    let cause = causes::of_pair(&game.game, vertices, &relation.packed(game.pairs()), v, w);
    tell_cause(refusal, relation.at(index, &detail), &cause)
}

/// A refusal of a plan, or of the game itself.
pub fn plan_refused(refusal: Refusal, game: &Input, plan: &Input) -> Failure {
    if refusal.kind() == Kind::Game {
        return game_refused(refusal, game);
    }
    let (vertices, place) = (&game.vertices, place_in_plan(refusal, plan, &game.vertices));
    let cause = Game::new(game.numbers.clone())
        .map(|game| cause_in_plan(refusal, &game, vertices, &plan_of(plan)));
    tell_cause(refusal, place, &cause.unwrap_or_default())
}

/// A refusal of a plan that was made from something, told with what it was to show.
pub fn made_plan_refused(
    refusal: Refusal,
    game: &GameInput,
    claim: String,
    plan: &Plan,
) -> Failure {
    let vertices = game.vertices();
    let vertex = vertices.label(plan.positions()[refusal.place].into());
    let cause = cause_in_plan(refusal, &game.game, vertices, plan);
    tell_cause(refusal, format!("{claim}, but vertex {vertex} shows that the plan fails"), &cause)
}

/// The missing link or the walk that a refusal of a plan is about, in words.
fn cause_in_plan(refusal: Refusal, game: &Game, vertices: &Vertices, plan: &Plan) -> String {
    match refusal.number {
        15 => causes::of_missing(game, vertices, plan, refusal.place),
        16 => causes::of_walk(game, vertices, plan, refusal.place),
        _ => String::new(),
    }
}

/// The plan of an input.
pub fn plan_of(input: &Input) -> Plan {
    Plan::from_words(input.numbers.clone())
}

/// Where in its file a refusal of a plan points.
fn place_in_plan(refusal: Refusal, plan: &Input, vertices: &Vertices) -> String {
    let (place, count) = (refusal.place, plan.numbers.len());
    let number = |index: usize| plan.numbers[index] as usize;
    let vertex = |position: usize| vertices.label(number(2 + position));
    let (index, detail) = match refusal.number {
        12 if count >= 2 => {
            let (p, l) = (number(0), number(1));
            let needed = 2 + p + 2 * l;
            (place, format!("p is {p} and l is {l}, so {needed} words, and it has {count}"))
        }
        13 if place < 2 + number(0) => (place, format!("vertex {}", number(place))),
        13 => (place, format!("position {}", number(place))),
        14 => {
            let source = 2 + number(0) + place;
            let (v, w) = (vertex(number(source)), vertex(number(source + number(1))));
            (source, format!("link {place}, from vertex {v} to {w}"))
        }
        15 | 16 => (2 + place, format!("position {place}, at vertex {}", vertex(place))),
        _ => (place, String::new()),
    };
    plan.at(index, &detail)
}

/// A refusal to carry a plan, on the game or on the reduced game, to a vertex, or to give a verdict by one on
/// the reduced game.
pub fn carry_refused(
    refusal: Refusal,
    game: &GameInput,
    plan: &Input,
    vertex: u32,
    class: bool,
) -> Failure {
    let of = if class { " of the reduced game" } else { "" };
    let vertices = game.vertices();
    let reduced = class.then(|| game.game.reduce());
    let classes = reduced.as_ref().map(|reduced| vertices.of_classes(&reduced.classes));
    let of_plan = classes.as_ref().unwrap_or(vertices);
    let place = match refusal.number {
        33 => {
            let start = of_plan.label(plan.numbers[2].into());
            let start = plan.at(2, &format!("the plan starts at vertex {start}{of}"));
            let vertex = vertices.label(vertex as usize);
            format!("{}: vertex {vertex}; {start}", game.input.name)
        }
        34 => format!("{}, carried to vertex {}", plan.name, vertices.label(vertex as usize)),
        _ if class => format!("{}, on the reduced game", place_in_plan(refusal, plan, of_plan)),
        _ => place_in_plan(refusal, plan, of_plan),
    };
    let game = reduced.as_ref().map_or(&game.game, |reduced| &reduced.game);
    tell_cause(refusal, place, &cause_in_plan(refusal, game, of_plan, &plan_of(plan)))
}

/// A refusal of an edit, told with the option that asked for it.
pub fn edit_refused(refusal: Refusal, game: &GameInput, edit: &str) -> Failure {
    let range = game.vertices().range(game.game.size().vertices);
    tell(refusal, format!("{}: {edit} ({range})", game.input.name))
}

/// A refusal of a trace, told with its words, or with the entry that it ends at and the entries done.
pub fn replay_refused(refusal: Refusal, game: &GameInput, trace: &Input, done: usize) -> Failure {
    if refusal.number == 40 {
        let words = trace.numbers.len();
        let detail = match trace.numbers.first() {
            Some(&count) => format!("its count is {count}, and it has {words} words"),
            None => "a trace begins with its count".into(),
        };
        return tell(refusal, trace.at(0, &detail));
    }
    let count = trace.numbers[0] as usize;
    let (vertices, last) = (game.vertices(), game.game.size().vertices - 1);
    let [source, target] = [1 + done, 1 + count + done].map(|word| {
        let vertex = usize::from(trace.numbers[word]);
        if vertex > last {
            vertex.to_string()
        } else {
            vertices.label(vertex)
        }
    });
    let detail = format!(
        "entry {done} from 0, edge {source} to {target}; the vertices of {} are 0 to {last}; {done} of {count} \
         entries done",
        game.input.name
    );
    tell(refusal, trace.at(1 + done, &detail))
}

/// A refusal of the numbers of a game by the seed.
pub fn seed_refused(refusal: Refusal, [_, n, degree, priorities]: [u32; 4]) -> Failure {
    tell(refusal, format!("{n} vertices, degree {degree}, {priorities} priorities"))
}

/// Place, refusal and remedy in one line.
fn tell(refusal: Refusal, place: String) -> Failure {
    tell_cause(refusal, place, "")
}

/// The same with a cause, if there is one.
fn tell_cause(refusal: Refusal, place: String, cause: &str) -> Failure {
    let remedy = refusal.explanation().remedy;
    let cause = if cause.is_empty() { String::new() } else { format!("; here {cause}") };
    Failure::refused(refusal, format!("{place}: {refusal}{cause}; {remedy}"))
}
