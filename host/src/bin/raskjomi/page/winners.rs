//! Who wins at each vertex, as far as a plan or a solution of the reduced game shows it.

use crate::arguments::Arguments;
use crate::failure::Failure;
use crate::game_input::GameInput;
use crate::input::{Input, Unit};
use crate::large::Loaded;
use crate::locate::{carry_refused, plan_of};
use crate::progress::watch;
use crate::source::Source;
use crate::text;
use crate::winners::within;
use raskjomi::{Game, Plan, Player, Reduced, Verdict};
use std::ffi::OsStr;
use std::thread;

/// What the winners are known by.
pub enum Shown {
    /// A plan of this player's on the reduced game, which starts at this class.
    Plan { player: Player, start: u16 },
    /// A solution of the reduced game.
    Solution,
}

/// What is known of a vertex.
pub struct At {
    /// The winner, if it is shown.
    pub winner: Option<Player>,
    /// How it is known, or why it isn't.
    pub known: String,
    /// The numbers of positions and of links of the plan that is carried to the vertex, or why none is.
    pub carried: Result<(usize, usize), String>,
}

/// The winners, and the file that shows them, as a command line names it.
pub struct Winners {
    pub shown: Shown,
    pub words: String,
    pub at: Vec<At>,
}

/// What `--plan` or `--solution` shows, if one is given.
pub fn known(
    arguments: &Arguments,
    bytes: &[u8],
    game: &GameInput,
    reduced: &Reduced,
) -> Result<Option<Winners>, Failure> {
    let source = |path| Source { path: OsStr::new(path), ..arguments.file(0) };
    match (arguments.value("--plan"), arguments.value("--solution")) {
        (Some(path), _) => by_plan(arguments.player()?, source(path), game, reduced).map(Some),
        (_, _) if arguments.has("--player") => Err(Failure::usage(
            "page: --player is for a plan; write --plan PLAN --player even or --player odd",
        )),
        (_, Some(path)) => {
            let of = Loaded::read_again(arguments.file(0), bytes)?;
            by_solution(of, source(path), &game.game, reduced).map(Some)
        }
        _ => Ok(None),
    }
}

/// By a plan on the reduced game, at the vertices of the class that it starts at: elsewhere the verdict leaves it open.
fn by_plan(
    player: Player,
    source: Source,
    game: &GameInput,
    reduced: &Reduced,
) -> Result<Winners, Failure> {
    let input = Input::read(source, Unit::Word)?;
    let plan = plan_of(&input);
    let start = plan.start().unwrap_or_default();
    let vertex = reduced.members_of(start).next().unwrap_or_default() as u32;
    if let Verdict::Refused(refusal) = game.game.verdict(vertex, player, &plan) {
        return Err(carry_refused(refusal, game, &input, vertex, true));
    }
    let _watch = watch("the carried plans");
    let at = of_each(&reduced.classes, |vertex, class| At {
        winner: (class == start).then_some(player),
        known: text::verdict(player, start, &game.vertices().label(vertex), class),
        carried: match class == start {
            true => carried(&game.game, player, &plan, vertex),
            false => Err(String::new()),
        },
    });
    Ok(Winners { shown: Shown::Plan { player, start }, words: source.path_quoted(), at })
}

/// By a solution of the reduced game, at all vertices that it decides.
fn by_solution(
    of: Loaded,
    source: Source,
    game: &Game,
    reduced: &Reduced,
) -> Result<Winners, Failure> {
    let (answered, decided) = within(of, game.clone(), source)?;
    let _watch = watch("the carried plans");
    let at = of_each(&reduced.classes, |vertex, class| At {
        winner: answered.winner(vertex as u32),
        known: answered.told(vertex as u32),
        carried: match (decided.plan(class.into()), decided.solution.winner(class.into())) {
            (Some(plan), Some(player)) => carried(game, player, &plan, vertex),
            _ => Err(String::new()),
        },
    });
    Ok(Winners { shown: Shown::Solution, words: source.path_quoted(), at })
}

/// What is known of each vertex, by its class. A carried plan takes long, so each processor works out a part.
fn of_each(classes: &[u16], of: impl Fn(usize, u16) -> At + Sync) -> Vec<At> {
    let processors = thread::available_parallelism().map_or(1, usize::from);
    let length = classes.len().div_ceil(processors);
    let part = &|(i, part): (usize, &[u16])| -> Vec<At> {
        part.iter().enumerate().map(|(j, &class)| of(i * length + j, class)).collect()
    };
    thread::scope(|scope| {
        let parts = classes.chunks(length).enumerate();
        let parts: Vec<_> = parts.map(|given| scope.spawn(move || part(given))).collect();
        parts.into_iter().flat_map(|part| part.join().expect("no part panics")).collect()
    })
}

/// The size of a plan on the reduced game that is carried to a vertex.
fn carried(
    game: &Game,
    player: Player,
    plan: &Plan,
    vertex: usize,
) -> Result<(usize, usize), String> {
    let carried = game.carry_class(player, plan, vertex as u32);
    let size = carried.map(|plan| (plan.positions().len(), plan.links().count()));
    size.map_err(|refusal| refusal.to_string())
}
