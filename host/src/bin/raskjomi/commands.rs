//! The commands.

use crate::arguments::{Arguments, Form};
use crate::failure::Failure;
use crate::game_input::GameInput;
use crate::help::{self, Command};
use crate::input::{self, number, Input, Unit};
use crate::locate::{
    carry_refused, game_refused, plan_of, plan_refused, relation_refused, seed_refused,
};
use crate::output::{form_given, Output};
use crate::progress::watched;
use crate::source::plain_error;
use crate::svg::{self, Layout};
use crate::values::{sizes, Called};
use crate::{reduced, reduced_value, suggest, tell, text, whole};
use raskjomi::formats::dot::{self as picture, Kept};
use raskjomi::formats::json::{self, Value};
use raskjomi::formats::{to_bytes, Vertices};
use raskjomi::{members, Game, Kind, Order, Reduced, Refusal, Verdict};
use std::ffi::{OsStr, OsString};
use std::fs;

/// What a command writes to standard output, or how it fails.
pub type Written = Result<Vec<u8>, Failure>;

/// Runs the command that the words name.
pub fn run(words: &[OsString]) -> Written {
    let Some((name, rest)) = words.split_first() else {
        return Err(Failure::usage("no command; `raskjomi --help` lists the commands"));
    };
    let name = name.to_string_lossy();
    if matches!(&*name, "--version" | "-V") {
        return Ok(help::version().into());
    }
    if matches!(&*name, "--help" | "-h" | "help") {
        let of = |name: &OsString| named(&name.to_string_lossy()).map(help::of);
        return Ok(rest.first().map_or(Ok(help::overview()), of)?.into());
    }
    let command = named(&name)?;
    if rest.iter().take_while(|word| *word != "--").any(|word| word == "--help" || word == "-h") {
        return Ok(help::of(command).into());
    }
    let arguments = Arguments::parse(command, rest)?;
    let run = || {
        (command.run)(&arguments).map_err(|failure| match arguments.has("--json") {
            true => failure.with_json(),
            false => failure,
        })
    };
    match arguments.output() {
        Some(path) if command.keeps_files() => {
            whole::to_file(path, arguments.has(help::FORCE), run)
        }
        Some(path) => to_file(path, run()),
        None => run(),
    }
}

/// Writes to a file what a command answers.
fn to_file(path: &OsStr, written: Written) -> Written {
    let write = |output: &[u8]| {
        fs::write(path, output).map_err(|error| {
            let (path, error) = (path.to_string_lossy(), plain_error(&error));
            Failure::usage(format!("{path}: {error}; name a file that can be written after -o"))
        })
    };
    match written {
        Ok(output) => write(&output).map(|()| Vec::new()),
        Err(mut failure) if failure.is_answer() => {
            write(std::mem::take(&mut failure.output).as_bytes())?;
            Err(failure)
        }
        failed => failed,
    }
}

fn named(name: &str) -> Result<&'static Command, Failure> {
    help::commands().find(|command| command.name == name).ok_or_else(|| {
        let near = suggest::near(name, help::commands().map(|command| command.name));
        Failure::usage(format!("no command `{name}`{near}; `raskjomi --help` lists the commands"))
    })
}

/// `report`: the lines of the report program, or a sentence on one vertex.
pub fn report(arguments: &Arguments) -> Written {
    let game = GameInput::load(arguments.file(0)).map_err(Failure::with_verdict)?;
    let reduced = reduced_of(&game.game);
    if let Some(vertex) = arguments.value("--vertex") {
        return vertex_sentence(&game, &reduced, vertex).map(Vec::from);
    }
    if arguments.has("--json") {
        return Ok(format!("{}\n", report_value(&game, &reduced)).into());
    }
    let (size, classes) = (game.game.size(), &reduced.classes);
    let mut report = format!("game {} {}\n", size.vertices, size.different);
    report += &format!(
        "passes {}\nclasses {}\n",
        order_of(&game.game).passes,
        reduced.game.size().vertices
    );
    for (vertex, class) in classes.iter().enumerate() {
        report += &format!("vertex {} class {class}\n", game.vertices().label(vertex));
    }
    let (mut all_members, mut all_edges) = (0, 0);
    for (class, members) in reduced.members().iter().map(Vec::len).enumerate() {
        let edges = reduced.game.successors(class).count();
        report += &format!("class {class} members {members} edges {edges}\n");
        (all_members, all_edges) = (all_members + members, all_edges + edges);
    }
    report += &format!("total {all_members} {all_edges}\n");
    let size = reduced.game.size();
    report += &format!("reduced {} {}\n", size.vertices, size.edges);
    Ok(report.into())
}

/// The report as a value.
fn report_value(game: &GameInput, reduced: &Reduced) -> Value {
    let sizes = |game: &Game| sizes(game.size().vertices, game.size().different);
    let class = |(class, members): (usize, &Vec<usize>)| {
        json::object([
            ("class", Value::from(class)),
            ("members", json::list(members.iter().copied())),
            ("edges", Value::from(reduced.game.successors(class).count())),
        ])
    };
    json::object([
        ("game", sizes(&game.game)),
        ("passes", Value::Number(order_of(&game.game).passes.into())),
        ("vertices", vertex_values(game, &reduced.classes)),
        ("classes", Value::List(reduced.members().iter().enumerate().map(class).collect())),
        ("reduced", sizes(&reduced.game)),
    ])
}

/// The vertices with their ids, names and classes, as a value.
fn vertex_values(game: &GameInput, classes: &[u16]) -> Value {
    let value = |(vertex, &class): (usize, &u16)| vertex_value(game, vertex, class);
    Value::List(classes.iter().enumerate().map(value).collect())
}

/// A vertex with its id, name and class, as a value.
fn vertex_value(game: &GameInput, vertex: usize, class: u16) -> Value {
    let class = ("class", Value::Number(class.into()));
    json::object(game.vertices().fields_of(vertex).into_iter().chain([class]))
}

/// The vertex's class, its other members, and what that means for a win.
fn vertex_sentence(game: &GameInput, reduced: &Reduced, vertex: &str) -> Result<String, Failure> {
    let v = game.vertex(vertex, "--vertex")?;
    let class = reduced.classes[v];
    let mut others = reduced.members().swap_remove(class as usize);
    others.retain(|&other| other != v);
    let (v, listed) = (game.vertices().label(v), game.vertices().listed(&others));
    let (company, equals) = match others.len() {
        0 => ("is alone in".to_string(), String::new()),
        1 => (format!("and vertex {listed} share"), format!("from vertex {listed}, and ")),
        _ => (format!("and vertices {listed} share"), format!("from each of {listed}, and ")),
    };
    Ok(format!(
        "Vertex {v} {company} class {class}: a player wins from {v} exactly if the player wins \
         {equals}from vertex {class} of the reduced game.\n"
    ))
}

/// The order of a game.
pub fn order_of(game: &Game) -> Order {
    watched("the order", || game.order())
}

/// The reduced game of a game.
pub fn reduced_of(game: &Game) -> Reduced {
    watched("the game of classes", || game.reduce())
}

/// The class of each vertex of a game.
pub fn class_of_each(game: &Game) -> Vec<u16> {
    watched("the classes", || game.classes())
}

/// `order`.
pub fn order(arguments: &Arguments) -> Written {
    marks(arguments, 0, Game::order, text::ORDER)
}

/// The marks that a call writes, under a title, for the game that is argument number `file`.
fn marks(arguments: &Arguments, file: usize, write: fn(&Game) -> Order, title: &str) -> Written {
    let form = no_table(arguments)?;
    let game = GameInput::load(arguments.file(file))?;
    let order = watched("the order", || write(&game.game));
    Ok(match form {
        Form::Words => order.marks,
        Form::Dot => picture::order(&game.game, game.vertices(), &order).into(),
        _ => text::marks(title, &order).into(),
    })
}

/// `classes`.
pub fn classes(arguments: &Arguments) -> Written {
    class_list(arguments, 0, Game::classes)
}

fn class_list(arguments: &Arguments, file: usize, write: fn(&Game) -> Vec<u16>) -> Written {
    let form = no_table(arguments)?;
    let game = GameInput::load(arguments.file(file))?;
    let classes = watched("the classes", || write(&game.game));
    if arguments.has("--json") {
        let members = members(&classes);
        let members = members.iter().map(|members| json::list(members.iter().copied())).collect();
        let value = json::object([
            ("vertices", vertex_values(&game, &classes)),
            ("classes", Value::List(members)),
        ]);
        return Ok(format!("{value}\n").into());
    }
    Ok(match form {
        Form::Words => to_bytes(&classes),
        Form::Dot => {
            let reduced = reduced_of(&game.game);
            let kept = (classes == reduced.classes).then(|| Kept::new(&reduced));
            picture::game(&game.game, game.vertices(), &classes, kept.as_ref()).into()
        }
        _ => text::classes(&classes, game.vertices()).into(),
    })
}

/// The form, for what is no game.
fn no_table(arguments: &Arguments) -> Result<Form, Failure> {
    match arguments.form()? {
        Form::Pgsolver => Err(Failure::usage(
            "no form `pgsolver` of what is no game; write --as text, --as words or --as dot",
        )),
        form => Ok(form),
    }
}

/// `quotient`.
pub fn quotient(arguments: &Arguments) -> Written {
    let form = arguments.form()?;
    let game = GameInput::load(arguments.file(0))?;
    let merged = watched("the game of classes", || game.game.quotient());
    table(arguments, form, "quotient", &game, &merged)
}

/// A game of classes in a form.
pub fn table(
    arguments: &Arguments,
    form: Form,
    name: &str,
    game: &GameInput,
    merged: &Reduced,
) -> Written {
    let (vertices, with_classes) = (game.vertices(), arguments.has("--with-classes"));
    let is_text = arguments.value("--as").map_or(!vertices.of_pgsolver(), |form| form == "text");
    if with_classes && !is_text {
        return Err(Failure::usage(
            "the classes are comments, for text alone; write --with-classes --as text, or see raskjomi merged",
        ));
    }
    let classes: Vec<u32> = merged.classes.iter().map(|&class| class.into()).collect();
    if let Some(path) = arguments.value("--classes") {
        reduced::save_classes(path, &classes)?;
    }
    if arguments.has("--json") {
        return Ok(reduced_value::by_order(game, merged, &classes));
    }
    if form == Form::Dot {
        return Ok(picture::merged(name, merged, vertices, &reduced_of(&game.game)).into());
    }
    let comments = text::class_comments(&merged.classes, vertices);
    let vertices = &vertices.of_classes(&merged.classes);
    let output = Output { title: format!("{name} game"), game: &merged.game, vertices };
    let mut written = output.written(arguments.has("--as").then_some(form), arguments)?;
    if with_classes {
        written.extend(comments.bytes());
    }
    Ok(written)
}

/// A game and a plan.
fn two_inputs(arguments: &Arguments) -> Result<(Input, Input), Failure> {
    Ok((Input::game(arguments.file(0))?, Input::read(arguments.file(1), Unit::Word)?))
}

/// `check-relation`.
pub fn check_relation(arguments: &Arguments) -> Written {
    judged(arguments, 0, Game::accept_relation)
}

/// A relation on the game that is argument number `file`, judged. Like the library, it judges the marks of the game's pairs alone.
fn judged(
    arguments: &Arguments,
    file: usize,
    accept: fn(&Game, &[u8]) -> Result<(), Refusal>,
) -> Written {
    let game = GameInput::load(arguments.file(file)).map_err(Failure::with_verdict)?;
    let relation = Input::read(arguments.file(file + 1), Unit::Mark(game.game.size().marks()))?;
    tell_surplus(&relation, &game);
    let marks = relation.packed(game.pairs());
    match watched("the relation", || accept(&game.game, &marks)) {
        Ok(()) if arguments.has("--json") => Ok("{\"accepted\":true}\n".into()),
        Ok(()) => Ok("accepted\n".into()),
        Err(refusal) => Err(relation_refused(refusal, &game, &relation).with_verdict()),
    }
}

/// `governed`: as `order`, `classes` and `check-relation`, of governed bisimulations.
pub fn governed(arguments: &Arguments) -> Written {
    match arguments.word(0).as_str() {
        "order" | "classes" if arguments.has_file(2) => Err(Failure::usage(
            "governed: a game alone; a relation is for governed check GAME RELATION",
        )),
        "check" if !arguments.has_file(2) || arguments.has("--as") => {
            Err(Failure::usage("governed: write governed check GAME RELATION, without --as"))
        }
        "order" if arguments.has("--json") => {
            Err(Failure::usage("governed: --json is for governed classes and governed check"))
        }
        "order" => marks(arguments, 1, Game::governed_order, text::GOVERNED),
        "classes" => class_list(arguments, 1, Game::governed_classes),
        "check" => judged(arguments, 1, Game::accept_governed),
        other => Err(Failure::usage(format!(
            "governed: no `{other}`; write governed order, governed classes or governed check"
        ))),
    }
}

/// A relation with more marks than the game has pairs may belong to another one.
fn tell_surplus(relation: &Input, game: &GameInput) {
    let (needed, what) = match relation.is_text() {
        true => (game.pairs(), "marks"),
        false => (game.game.size().marks(), "bytes"),
    };
    let count = relation.numbers.len();
    if count > needed {
        let place = relation.at(needed, "");
        tell(&format!("{place}: only the first {needed} of {count} {what} are judged"));
    }
}

/// `check-plan`.
pub fn check_plan(arguments: &Arguments) -> Written {
    let player = arguments.player()?;
    let (game, plan) = two_inputs(arguments)?;
    match watched("the plan", || raskjomi::accept_plan(&game.numbers, player, &plan.numbers)) {
        Ok(()) if arguments.has("--json") => Ok("{\"accepted\":true}\n".into()),
        Ok(()) => Ok("accepted\n".into()),
        Err(refusal) => Err(plan_refused(refusal, &game, &plan).with_verdict()),
    }
}

/// `carry`.
pub fn carry(arguments: &Arguments) -> Written {
    let player = arguments.player()?;
    let as_words = as_words(arguments, "carry")?;
    let (game, plan) = two_inputs(arguments)?;
    let vertex = vertex_given(arguments, &game.vertices, "the plan is to start at")?;
    let game = GameInput::of(game)?;
    let vertex = game.vertex(&vertex, "--vertex")? as u32;
    let class = arguments.has("--class");
    let write = if class { Game::carry_class } else { Game::carry };
    let carry = || write(&game.game, player, &plan_of(&plan), vertex);
    let carried = watched("the carried plan", carry)
        .map_err(|refusal| carry_refused(refusal, &game, &plan, vertex, class))?;
    if as_words {
        return Ok(to_bytes(carried.words()));
    }
    let vertices = game.vertices();
    let (vertex, start) = (vertices.label(vertex as usize), plan.numbers[2]);
    let origin =
        if class { format!("{start} of the reduced game") } else { vertices.label(start.into()) };
    let sentence =
        format!("This plan wins for {player} from vertex {vertex}, carried from vertex {origin}.");
    Ok(text::plan(&sentence, &carried, vertices).into())
}

/// `verdict`: in a sentence, what is confirmed of a player and a vertex, or what is left open.
pub fn verdict(arguments: &Arguments) -> Written {
    let player = arguments.player()?;
    let (game, plan) = two_inputs(arguments)?;
    let vertex = vertex_given(arguments, &game.vertices, "the verdict is about")?;
    let game = GameInput::of(game).map_err(Failure::with_verdict)?;
    let vertex = game.vertex(&vertex, "--vertex")? as u32;
    let judge = || game.game.verdict(vertex, player, &plan_of(&plan));
    let verdict = watched("the verdict", judge);
    if let Verdict::Refused(refusal) = verdict {
        return Err(carry_refused(refusal, &game, &plan, vertex, true).with_verdict());
    }
    let (shown, v) = (matches!(verdict, Verdict::Wins(_)), vertex as usize);
    let (name, start) = (player.to_string(), plan.numbers[2]);
    let class = class_of_each(&game.game)[v];
    if arguments.has("--json") {
        let value = json::object([
            ("accepted", Value::Bool(true)),
            ("shown", Value::Bool(shown)),
            ("player", Value::Text(name)),
            ("at", vertex_value(&game, v, class)),
            ("plan_starts_at_class", Value::Number(start.into())),
        ]);
        return answer(shown, format!("{value}\n"));
    }
    let sentence = text::verdict(player, start, &game.vertices().label(v), class);
    answer(shown, sentence + "\n")
}

/// What is said of what is shown, or isn't.
fn answer(shown: bool, output: String) -> Written {
    match shown {
        true => Ok(output.into()),
        false => Err(Failure::not_shown(output)),
    }
}

/// The word of `--vertex`, or the id of the start that the game's file names, for what it is used.
pub fn vertex_given(
    arguments: &Arguments,
    vertices: &Vertices,
    use_of_it: &str,
) -> Result<String, Failure> {
    let start = || vertices.start().map(|start| vertices.id(start).to_string());
    arguments.value("--vertex").map(String::from).or_else(start).ok_or_else(|| {
        Failure::usage(format!("no vertex; write --vertex with the vertex that {use_of_it}"))
    })
}

/// Whether `--as` names words, for commands that write no game and draw no picture.
pub fn as_words(arguments: &Arguments, command: &str) -> Result<bool, Failure> {
    match arguments.form()? {
        Form::Text => Ok(false),
        Form::Words => Ok(true),
        _ => {
            let form = arguments.value("--as").unwrap_or_default();
            Err(Failure::usage(format!(
                "{command}: no form `{form}`; write --as text or --as words"
            )))
        }
    }
}

/// `seed`.
pub fn seed(arguments: &Arguments) -> Written {
    let form = form_given(arguments, "seed")?;
    if arguments.has("--lowest") && form != Some(Form::Pgsolver) {
        return Err(Failure::usage(
            "seed: --lowest is for PGSolver's format alone; write --as pgsolver --lowest",
        ));
    }
    let numbers = seed_numbers(arguments)?;
    let [seed, n, degree, priorities] = numbers;
    let game = Game::seed(seed, n, degree, priorities)
        .map_err(|refusal| seed_refused(refusal, numbers))?;
    let title =
        format!("game of seed {seed}: vertices {n}, degree {degree}, priorities {priorities}");
    Output { title, game: &game, vertices: &Vertices::default() }.written(form, arguments)
}

/// The seed, and the numbers of vertices, of edges out of each, and of priorities.
fn seed_numbers(arguments: &Arguments) -> Result<[u32; 4], Failure> {
    let mut numbers = [0; 4];
    for (i, (number, name)) in numbers.iter_mut().zip(help::SEED_NUMBERS).enumerate() {
        let word = arguments.word(i);
        *number = input::number(&word, u32::MAX).ok_or_else(|| {
            let most = u32::MAX;
            Failure::usage(format!(
                "seed: {name} `{word}` is no number from 0 to {most}; see raskjomi seed --help"
            ))
        })?;
    }
    Ok(numbers)
}

/// `convert`.
pub fn convert(arguments: &Arguments) -> Written {
    let form = Some(form_given(arguments, "convert")?.unwrap_or(Form::Text));
    let game = GameInput::load(arguments.file(0))?;
    let (title, vertices) = ("converted".to_string(), game.vertices());
    if vertices.even().is_some() {
        return Output { title, game: &game.game, vertices }.written(form, arguments);
    }
    let converted = game.game.convert().map_err(|refusal| game_refused(refusal, &game.input))?;
    let even = u32::from(game.game.priority(0)) + u32::from(converted.priority(0));
    let title = format!("{title}: the lowest priority decides; a priority p was {even} - p before");
    Output { title, game: &converted, vertices }.written(form, arguments)
}

/// `pgsolver`.
pub fn pgsolver(arguments: &Arguments) -> Written {
    let game = GameInput::load(arguments.file(0))?;
    let (title, vertices) = (game.input.name.clone(), game.vertices());
    Output { title, game: &game.game, vertices }.written(Some(Form::Pgsolver), arguments)
}

/// `explain`.
pub fn explain(arguments: &Arguments) -> Written {
    let word = arguments.word(0);
    let number = number(&word, u16::MAX).map(u32::from);
    let (number, told) =
        number.and_then(|n| Some((n, raskjomi::explain(n)?))).ok_or_else(|| {
            Failure::usage(format!("`{word}` is no refusal number; they are {}", help::NUMBERS))
        })?;
    // The kinds end at 99; what came after is a later addition as well.
    let kind = if number > 99 { Kind::Later } else { Kind::of(number) };
    let lines = [
        format!("refusal {number}, about {kind}"),
        format!("meaning: {}", told.meaning),
        format!("place: {}", told.place),
        format!("what to do: {}", told.remedy),
    ];
    Ok((lines.join("\n") + "\n").into())
}

/// `dot`.
pub fn dot(arguments: &Arguments) -> Written {
    let game = GameInput::load(arguments.file(0))?;
    let (reduced, vertices) = (reduced_of(&game.game), game.vertices());
    let (classes, kept) = (&reduced.classes, Kept::new(&reduced));
    let of_classes = arguments.has("--reduced");
    let drawn = if of_classes { &reduced.game } else { &game.game };
    let layout = arguments.has("--svg").then(|| Layout::of(drawn));
    let text = match layout {
        _ if of_classes => picture::merged("reduced", &reduced, vertices, &reduced),
        Some(Layout::Forces) => picture::unframed(&game.game, vertices, classes, &kept),
        _ => picture::game(&game.game, vertices, classes, Some(&kept)),
    };
    match layout {
        Some(layout) => svg::drawn(text, layout),
        None => Ok(text.into()),
    }
}
