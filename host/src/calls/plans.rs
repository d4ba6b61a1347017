//! Plans, judged and carried, and the verdict by one.

use crate::answers::{carried, judged, written};
use crate::{exports, PlanSize, Refusal, Size, Verdict};

/// Judges a plan for a player, [`EVEN`](crate::EVEN) or [`ODD`](crate::ODD): whether it wins from the vertex of its position
/// 0. A plan is a finite-memory strategy, given as p positions, l links, the vertex of each
/// position, and the links' sources and targets as positions.
///
/// ```
/// let game = [5, 7, 2, 0, 0, 1, 4, 0, 0, 0, 0, 0, 0, 0, 1, 2, 2, 3, 4, 1, 2, 3, 3, 4, 3, 4];
/// // From 0 to 2 to 4, and round at 4, whose priority is even.
/// let plan = [3, 3, 0, 2, 4, 0, 1, 2, 1, 2, 2];
/// assert!(raskjomi::accept_plan(&game, raskjomi::EVEN, &plan).is_ok());
/// let refusal = raskjomi::accept_plan(&game, raskjomi::ODD, &plan).unwrap_err();
/// assert_eq!((refusal.number, refusal.place), (15, 0));
/// ```
///
/// # Errors
///
/// Refusals 1 to 8 of the game, 11 of the player, and 12 to 16 of the plan.
pub fn accept_plan(game: &[u16], player: impl Into<u32>, plan: &[u16]) -> Result<(), Refusal> {
    judged(exports::accept_plan(game, player.into(), plan)).map(|_| ())
}

/// Carries a plan to another vertex: writes one that starts at `vertex`, and that [`accept_plan`](crate::accept_plan())
/// passes for the same player. For [`EVEN`](crate::EVEN) the vertex of the plan's position 0 must be below `vertex`,
/// for [`ODD`](crate::ODD) `vertex` below it. Gives the size of the plan written. An output of
/// [`MOST_PLAN_WORDS`](crate::MOST_PLAN_WORDS) always suffices; a shorter one may be refused with 35, whose place is the
/// length needed. After 33 to 35, as after success, marks and spare hold the order as [`order`](crate::order())
/// writes it.
///
/// ```
/// // Vertices 0 and 5 share a class; 5 has an edge to 2 alone.
/// let game = [
///     6, 8, 2, 0, 0, 1, 4, 2, 0, 0, 0, 0, 0, 0, 0, 0, 1, 2, 2, 3, 4, 5, 1, 2, 3, 3, 4, 3, 4, 2,
/// ];
/// // From 0 to 2 to 4, and round at 4.
/// let plan = [3, 3, 0, 2, 4, 0, 1, 2, 1, 2, 2];
/// let (mut marks, mut spare, mut output) = ([0; 5], [0; 5], [0; raskjomi::MOST_PLAN_WORDS]);
/// let size =
///     raskjomi::carry(&game, raskjomi::EVEN, &plan, 5, &mut marks, &mut spare, &mut output)?;
/// let carried = &output[..size.words()];
/// assert_eq!(carried, [3, 3, 5, 2, 4, 0, 1, 2, 1, 2, 2]);
/// raskjomi::accept_plan(&game, raskjomi::EVEN, carried)?;
/// // No plan that starts at 0 can be carried to 4.
/// let refusal =
///     raskjomi::carry(&game, raskjomi::EVEN, &plan, 4, &mut marks, &mut spare, &mut output);
/// assert_eq!(refusal, Err(raskjomi::Refusal { number: 33, place: 4 }));
/// # Ok::<(), raskjomi::Refusal>(())
/// ```
///
/// # Errors
///
/// Those of [`order`](crate::order()), then those of [`accept_plan`](crate::accept_plan()), then 33 of the vertex, 34 of a carried plan that is too
/// large, and 35 of an output that is too short.
pub fn carry(
    game: &[u16],
    player: impl Into<u32>,
    plan: &[u16],
    vertex: u32,
    marks: &mut [u8],
    spare: &mut [u8],
    output: &mut [u16],
) -> Result<PlanSize, Refusal> {
    judged(exports::carry(game, player.into(), plan, vertex, marks, spare, output)).map(carried)
}

/// Carries a plan on the reduced game to a vertex of the game, as [`carry`](crate::carry()) does; a class compares as
/// its lowest member. Order, classes and the reduced game are written as [`reduce`](crate::reduce()) does, the latter
/// into `reduction`, before the plan is judged; they stay after every later refusal. Gives the
/// sizes of the reduced game and of the plan written.
///
/// ```
/// let game = [
///     6, 8, 2, 0, 0, 1, 4, 2, 0, 0, 0, 0, 0, 0, 0, 0, 1, 2, 2, 3, 4, 5, 1, 2, 3, 3, 4, 3, 4, 2,
/// ];
/// let size = raskjomi::read(&game)?;
/// let (mut marks, mut spare) = (vec![0; size.marks()], vec![0; size.marks()]);
/// let (mut classes, mut reduction) = (vec![0; size.vertices], vec![0; size.words()]);
/// let mut output = vec![0; raskjomi::MOST_PLAN_WORDS];
/// // From class 0 to class 2 to class 4, and round there.
/// let plan = [3, 3, 0, 2, 4, 0, 1, 2, 1, 2, 2];
/// let (reduced, carried) = raskjomi::carry_class(
///     &game, raskjomi::EVEN, &plan, 5,
///     &mut marks, &mut spare, &mut classes, &mut reduction, &mut output,
/// )?;
/// assert_eq!((reduced.vertices, reduced.edges), (5, 6));
/// assert_eq!(output[..carried.words()], [3, 3, 5, 2, 4, 0, 1, 2, 1, 2, 2]);
/// # Ok::<(), raskjomi::Refusal>(())
/// ```
///
/// # Errors
///
/// Those of [`reduce`](crate::reduce()), then as for [`carry`](crate::carry()).
#[allow(clippy::too_many_arguments)]
pub fn carry_class(
    game: &[u16],
    player: impl Into<u32>,
    plan: &[u16],
    vertex: u32,
    marks: &mut [u8],
    spare: &mut [u8],
    classes: &mut [u16],
    reduction: &mut [u16],
    output: &mut [u16],
) -> Result<(Size, PlanSize), Refusal> {
    let answer = exports::carry_class(
        game,
        player.into(),
        plan,
        vertex,
        marks,
        spare,
        classes,
        reduction,
        output,
    );
    judged(answer).map(|answer| (written(answer), carried(answer)))
}

/// Gives a verdict on a player and a vertex by a plan on the reduced game: the player wins at `vertex` if the
/// plan passes [`accept_plan`](crate::accept_plan()) there and starts at the vertex's class; then the player has a winning plan from
/// `vertex` in the game itself. A plan that passes and starts at another class shows nothing, even where the
/// classes compare. Order, classes and the reduced game are written as [`reduce`](crate::reduce()) does, the latter into
/// `reduction`, before the plan is judged; they stay where the plan is refused. [`Verdict::Refused`](crate::Verdict::Refused) has refusals 1
/// to 8 of the game, 33 of a vertex that isn't there, 21 to 24 of memory that is too short, 11 of the player, and 12
/// to 16 of the plan on the reduced game.
///
/// ```
/// use raskjomi::{Refusal, Verdict};
/// // Vertices 0 and 5 share class 0.
/// let game = [
///     6, 8, 2, 0, 0, 1, 4, 2, 0, 0, 0, 0, 0, 0, 0, 0, 1, 2, 2, 3, 4, 5, 1, 2, 3, 3, 4, 3, 4, 2,
/// ];
/// let size = raskjomi::read(&game)?;
/// let (mut marks, mut spare) = (vec![0; size.marks()], vec![0; size.marks()]);
/// let (mut classes, mut reduction) = (vec![0; size.vertices], vec![0; size.words()]);
/// // From class 0 to class 2 to class 4, and round there.
/// let plan = [3, 3, 0, 2, 4, 0, 1, 2, 1, 2, 2];
/// let mut at = |vertex, player| {
///     raskjomi::verdict(
///         &game, vertex, player, &plan, &mut marks, &mut spare, &mut classes, &mut reduction,
///     )
/// };
/// let Verdict::Wins(reduced) = at(5, raskjomi::EVEN) else { panic!("Even wins at 5") };
/// assert_eq!((reduced.vertices, reduced.edges), (5, 6));
/// // Even wins at 2 as well, but this plan starts at another class.
/// assert!(matches!(at(2, raskjomi::EVEN), Verdict::NotShown(_)));
/// assert_eq!(at(5, raskjomi::ODD), Verdict::Refused(Refusal { number: 15, place: 1 }));
/// assert_eq!(at(6, raskjomi::EVEN), Verdict::Refused(Refusal { number: 33, place: 6 }));
/// # Ok::<(), Refusal>(())
/// ```
#[allow(clippy::too_many_arguments)]
pub fn verdict(
    game: &[u16],
    vertex: u32,
    player: impl Into<u32>,
    plan: &[u16],
    marks: &mut [u8],
    spare: &mut [u8],
    classes: &mut [u16],
    reduction: &mut [u16],
) -> Verdict {
    let player = player.into();
    let answer = exports::verdict(game, vertex, player, plan, marks, spare, classes, reduction);
    match judged(answer) {
        Ok(answer) if answer.shown == 1 => Verdict::Wins(written(answer)),
        Ok(answer) => Verdict::NotShown(written(answer)),
        Err(refusal) => Verdict::Refused(refusal),
    }
}
