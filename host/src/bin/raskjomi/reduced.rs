//! Reductions of games of any size, made and judged, and the commands that show them.

use crate::arguments::{Arguments, Form};
use crate::commands::Written;
use crate::failure::Failure;
use crate::large::Loaded;
use crate::output::form_given;
use crate::progress::watch;
use crate::source::plain_error;
use crate::stats::{Outcome, Sizes, Steps};
use crate::{reduced_value, tell, text};
use raskjomi::large::{write_game_as, Style};
use raskjomi::{LargeGame, LargeReduction};
use std::fs;

/// What holds for the commands that reduce games of any size.
pub const LARGE: &str =
    "`reduce`, `merged` and `why` take games above the limits as well, and any game in the same way with --large: then vertices are merged by \
     their moves alone, those of one priority whose moves lead to the same classes, and of one owner where these are several. A proved check \
     judges such a reduction before anything is written. Up to the limits the order of all pairs merges more: `reduce --then-order` goes on \
     with it where the result fits, and writes the game and the classes of both steps in a row.";

/// A game with the reduction that this program makes of it, which the proved check accepts.
pub struct Reduced {
    pub of: Loaded,
    pub reduction: LargeReduction,
}

impl Reduced {
    /// Reduces a game.
    pub fn make(of: Loaded) -> Result<Reduced, Failure> {
        Reduced::timed(of, &mut Steps::default())
    }

    /// Reduces a game, and tells the steps apart.
    fn timed(of: Loaded, steps: &mut Steps) -> Result<Reduced, Failure> {
        let reduction = steps.time("reduce", || {
            let _watch = watch("the reduction");
            of.game.reduce()
        });
        let reduction = reduction.map_err(|misfit| {
            let number = |number: u32| number.to_string();
            let label = |vertex: u32| of.vertices.label(vertex);
            let told = misfit.told(label, number, |(p, q)| (of.priority(p), of.priority(q)));
            let message = format!("{}: {told}; {}", of.name, misfit.remedy());
            Failure::told(String::new(), message, 1)
        })?;
        let verdict = steps.time("check", || {
            let _watch = watch("the check");
            of.game.check_reduction(&reduction)
        });
        verdict.map_err(|refusal| {
            let fault =
                "nothing is written, and this program has a fault: please report it with the game";
            Failure::refused(refusal, format!("{}: its reduction is {refusal}; {fault}", of.name))
        })?;
        Ok(Reduced { of, reduction })
    }

    /// The reduced game as a file of it would give it: a class has its number for an id, and the name of its lowest member.
    pub fn game_of_classes(&self) -> Loaded {
        let game = self.reduction.reduced().clone();
        classes_of(&self.of, self.reduction.classes(), game)
    }
}

/// A game of classes of another one.
pub fn classes_of(of: &Loaded, classes: &[u32], game: LargeGame) -> Loaded {
    let mut lowest = vec![u32::MAX; game.size().vertices];
    for (vertex, &class) in (0..).zip(classes) {
        lowest[class as usize] = vertex.min(lowest[class as usize]);
    }
    Loaded {
        name: format!("the reduced game of {}", of.name),
        vertices: of.vertices.renumbered(&lowest),
        start: of.start.map(|vertex| classes[vertex as usize]),
        even: of.even,
        in_pgsolver: of.in_pgsolver,
        game,
    }
}

/// `reduce` for a game that is handled as large ones are, of these sizes.
pub fn reduce(
    arguments: &Arguments,
    of: Loaded,
    before: Sizes,
    mut steps: Steps,
) -> Result<Outcome, Failure> {
    let form = form_given(arguments, "reduce")?;
    if arguments.has("--with-classes") {
        return Err(Failure::usage(format!(
            "{}: --with-classes is for games within the limits; write the classes to a file by --classes FILE",
            of.name
        )));
    }
    let Reduced { of, reduction } = Reduced::timed(of, &mut steps)?;
    let within = reduction.reduced().within_limits();
    let told = told(&of, reduction.reduced(), within.is_some());
    let by_order = within.filter(|_| arguments.has("--then-order"));
    let by_order = by_order.map(|game| steps.time("order", || game.reduce()));
    let (game, classes) = match &by_order {
        None => (reduction.reduced().clone(), reduction.classes().to_vec()),
        Some(second) => chained(reduction.classes(), second),
    };
    if let Some(path) = arguments.value("--classes") {
        save_classes(path, &classes)?;
    }
    let after = Sizes { vertices: game.size().vertices, edges: game.size().edges };
    let reduced = classes_of(&of, &classes, game);
    let output = steps.time("format", || match arguments.has("--json") {
        true => Ok(reduced_value::by_moves(&of, &reduced, &classes, by_order.is_some())),
        false => written(&reduced, form, arguments.has("--lowest")),
    })?;
    if by_order.is_none() {
        tell(&told);
    }
    Ok(Outcome { output, before, after, passes: None, steps })
}

/// What merging by moves has come to, and what the order of all pairs can do.
fn told(of: &Loaded, reduced: &LargeGame, within: bool) -> String {
    let (n, size) = (of.game.size().vertices, reduced.size());
    let (name, k, q) = (&of.name, size.vertices, size.edges);
    let more = match within {
        true => "the contract's own reducer, by the order of all pairs, may make it smaller yet: --then-order runs it",
        false => "up to 512 vertices and 4,096 edges the contract's own reducer, by the order of all pairs, may make a game smaller yet",
    };
    let edges = if q == 1 { "edge" } else { "edges" };
    format!("{name}: {n} vertices merged by their moves into {k}, with {q} {edges}; {more}")
}

/// The game of a second reduction after a first one, and the classes of both in a row.
pub fn chained(classes: &[u32], second: &raskjomi::Reduced) -> (LargeGame, Vec<u32>) {
    let classes = classes.iter().map(|&class| second.classes[class as usize].into()).collect();
    (LargeGame::from(&second.game), classes)
}

/// Writes the class of each vertex to a file.
pub fn save_classes(path: &str, classes: &[u32]) -> Result<(), Failure> {
    fs::write(path, text::class_list(classes)).map_err(|error| {
        let error = plain_error(&error);
        Failure::usage(format!("{path}: {error}; name a file that can be written after --classes"))
    })
}

/// A game in a form; where none is named, in the format that it came in.
fn written(of: &Loaded, form: Option<Form>, lowest: bool) -> Written {
    let came_in = if of.in_pgsolver { Form::Pgsolver } else { Form::Text };
    let words = of.game.words();
    match form.unwrap_or(came_in) {
        Form::Words => Ok(words.iter().flat_map(|word| word.to_le_bytes()).collect()),
        Form::Pgsolver => {
            let mut bytes = Vec::new();
            let style = Style { lowest, even: of.even, start: of.start };
            let written = write_game_as(&mut bytes, words, &of.vertices, style);
            written.map_err(|error| Failure::usage(format!("{}: {error}", of.name)))?;
            Ok(bytes)
        }
        _ => {
            let mut title = String::from("reduced game");
            if let Some(even) = of.even {
                title += &format!("; the lowest priority decides, and p stands for {even} - p in PGSolver's format");
            }
            for class in (0..words[0]).filter(|&class| of.vertices.name(class).is_some()) {
                title += &format!("\n# vertex {class}: {}", of.vertices.label(class));
            }
            Ok(format!("# {title}\n{}", of.game).into())
        }
    }
}
