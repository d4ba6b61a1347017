//! The verdict call: it confirms what the test solver finds, for both players and from every vertex, shows
//! nothing by plans that start elsewhere, and leaves memory as it should be after every outcome.

use crate::calls::{Call, Case};
use crate::carries::{dirty, leaves, of_both, room, worked_out, Origin, SHORTENED};
use crate::limits::agree;
use crate::samples::any_strategy;
use crate::tables::games::{C, D};
use generator::{
    bent_plan, damaged, forced_ring, largest_plan, opponents, solve, Lcg, Plan, Table, REFUSALS,
};
use oracle::{mark_bytes, Answer, Memory, Oracle};
use raskjomi::{EVEN, ODD};

/// Memory of the exact lengths, with old content and no output.
fn lent(table: &Table) -> Memory {
    Memory { output: vec![], ..room(table) }
}

/// The class of each vertex, by the oracle.
fn classes(table: &Table) -> Vec<u16> {
    let mut memory = room(table);
    Oracle::exact().classes(&table.words(), &mut memory);
    memory.classes
}

/// Whether library and oracle say "wins"; both give an answer.
fn shown(case: &Case) -> bool {
    assert_eq!(agree(case), 0, "{case:?}");
    case.actual().answer.shown == 1
}

#[test]
fn wins_are_the_solvers_for_both_players_from_every_vertex() {
    let mut lcg = Lcg::new(141);
    // How often each player is said to win, and how often it isn't shown.
    let (mut wins, mut open) = ([0; 2], [0; 2]);
    for (most, games) in [(5, 300), (12, 80), (40, 6)] {
        for _ in 0..games {
            let table = of_both(&mut lcg, most);
            let origin = Origin::new(Call::Verdict, &table);
            let (before, solution, classes) = (solve(&table), solve(&origin.game), classes(&table));
            for start in 0..origin.game.n() {
                let player = solution.winner[start] as u32;
                let plan = solution.plan(&origin.game, start).words();
                for (v, &class) in classes.iter().enumerate() {
                    let words = table.words();
                    let case = Case::of_verdict(&words, v as u32, player, &plan, lent(&table));
                    let same = class as usize == start;
                    assert_eq!(shown(&case), same, "{case:?}");
                    if same {
                        assert_eq!(before.winner[v] as u32, player, "{case:?}");
                        wins[player as usize] += 1;
                    } else {
                        open[player as usize] += 1;
                    }
                    // The loser's plan is refused, so that it never wins.
                    let case = Case { player: 1 - player, ..case };
                    assert!((14..=16).contains(&agree(&case)), "{case:?}");
                }
            }
        }
    }
    assert!(wins.iter().chain(&open).all(|&count| count > 500), "{wins:?} {open:?}");
}

#[test]
fn a_start_class_below_or_above_the_vertexs_shows_nothing() {
    let mut lcg = Lcg::new(142);
    // How often a plan could be carried to the vertex, which isn't in its start class.
    let mut apart = [0; 2];
    for most in [4, 8, 20].repeat(300) {
        let table = of_both(&mut lcg, most);
        let origin = Origin::new(Call::Verdict, &table);
        let (solution, classes) = (solve(&origin.game), classes(&table));
        for start in 0..origin.game.n() {
            let player = solution.winner[start] as u32;
            let plan = solution.plan(&origin.game, start).words();
            for vertex in origin.reached(player, start) {
                if classes[vertex as usize] as usize != start {
                    let case =
                        Case::of_verdict(&table.words(), vertex, player, &plan, lent(&table));
                    assert!(!shown(&case), "{case:?}");
                    apart[player as usize] += 1;
                }
            }
        }
    }
    assert!(apart.iter().all(|&count| count > 100), "{apart:?}");
}

#[test]
fn worked_verdicts() {
    // Class 1 of game C is below class 2. Odd wins from 1, and Even from 2.
    let loses = [2, 2, 1, 3, 0, 1, 1, 1];
    let round = [3, 3, 0, 2, 4, 0, 1, 2, 1, 2, 2];
    type Row<'a> = (&'a [u16], u32, u32, &'a [u16], bool);
    let rows: [Row; 6] = [
        (&C, 1, ODD, &loses, true),
        (&C, 2, ODD, &loses, false),
        (&C, 0, EVEN, &round, true),
        (&D, 5, EVEN, &round, true),
        (&D, 2, EVEN, &round, false),
        (&D, 3, EVEN, &round, false),
    ];
    for (game, vertex, player, plan, wins) in rows {
        let table = Table::from_words(game);
        let case = Case::of_verdict(game, vertex, player, plan, lent(&table));
        assert_eq!(shown(&case), wins, "{case:?}");
        let Answer { classes, vertices, edges, shown, .. } = case.actual().answer;
        assert_eq!((classes, vertices, edges, shown), (5, 5, 6, wins as u32));
    }
}

#[test]
fn a_plan_is_judged_on_the_reduced_game() {
    // Two vertices that go to each other share a class, whose loop is no edge of the game.
    let game = [2, 2, 0, 0, 0, 0, 0, 1, 1, 0];
    let table = Table::from_words(&game);
    for vertex in [0, 1] {
        let loops = Case::of_verdict(&game, vertex, EVEN, &[1, 1, 0, 0, 0], lent(&table));
        assert!(shown(&loops));
        let around = [2, 2, 0, 1, 0, 1, 1, 0];
        let case = Case { plan: around.to_vec(), ..loops };
        assert_eq!(case.actual().answer, Answer { number: 13, place: 3, ..Answer::default() });
        agree(&case);
    }
}

/// A case that gives an answer, with memory that is longer than it need be.
fn answered(lcg: &mut Lcg, table: &Table) -> Case {
    let origin = Origin::new(Call::Verdict, table);
    let (solution, start) = (solve(&origin.game), lcg.below(origin.game.n()));
    let plan = solution.plan(&origin.game, start).words();
    let (player, vertex) = (solution.winner[start] as u32, lcg.below(table.n()) as u32);
    Case::of_verdict(&table.words(), vertex, player, &plan, dirty(lcg, table, 3))
}

#[test]
fn memory_after_either_answer_and_after_33() {
    let mut lcg = Lcg::new(143);
    let mut answers = [0; 2];
    for most in [1, 3, 8, 30].repeat(60) {
        let table = of_both(&mut lcg, most);
        let case = answered(&mut lcg, &table);
        answers[shown(&case) as usize] += 1;
        let worked = worked_out(Call::Verdict, &case.game, &case.memory);
        assert_eq!(case.actual().memory, worked, "{case:?}");
        let n = table.n() as u32;
        for vertex in [n, n + 1, 65_535, 65_536, 65_536 + case.vertex, u32::MAX] {
            // 33 comes before the lengths and the plan, and all memory is old.
            for memory in [case.memory.clone(), Memory::default()] {
                let case = Case { vertex, player: 2, plan: vec![], memory, ..case.clone() };
                leaves(&case, 33, vertex as usize, &case.memory);
            }
        }
    }
    assert!(answers.iter().all(|&count| count > 30), "{answers:?}");
}

#[test]
fn memory_after_a_plan_is_refused() {
    let mut lcg = Lcg::new(144);
    let mut numbers = Vec::new();
    for most in [3, 8, 15].repeat(150) {
        let table = of_both(&mut lcg, most);
        let case = answered(&mut lcg, &table);
        let worked = worked_out(Call::Verdict, &case.game, &case.memory);
        leaves(&Case { player: 2, ..case.clone() }, 11, 0, &worked);
        let origin = Origin::new(Call::Verdict, &table);
        let (solution, start) = (solve(&origin.game), case.plan[2] as usize);
        let mut any = any_strategy(&mut lcg, &origin.game, &solution, start).words();
        if lcg.once_in(2) {
            let plan = solution.plan(&origin.game, start);
            any = bent_plan(&mut lcg, &plan, origin.game.n());
        }
        let case = Case { plan: any, ..case };
        let Answer { number, place, .. } = case.expected(&Oracle::exact()).answer;
        if number != 0 {
            numbers.push(number);
            leaves(&case, number, place, &worked);
        }
    }
    for number in 12..=16 {
        assert!(numbers.contains(&number), "the verdict call never gives {number}");
    }
}

#[test]
fn refusals_before_the_plan_leave_all_memory_old() {
    let mut lcg = Lcg::new(145);
    for most in [1, 4, 20].repeat(30) {
        let table = of_both(&mut lcg, most);
        let (n, words) = (table.n(), table.words().len());
        let places = [mark_bytes(n), mark_bytes(n), n, words];
        for (i, shorten) in SHORTENED.iter().enumerate() {
            let mut memory = dirty(&mut lcg, &table, 0);
            shorten(&mut memory, n, words);
            // No such player, and no plan.
            let case = Case::of_verdict(&table.words(), 0, 2, &[], memory.clone());
            leaves(&case, 21 + i as u32, places[i], &memory);
        }
        for number in REFUSALS {
            let game = damaged(&mut lcg, &table, number);
            // A vertex that isn't there, and no memory: the game is judged before both.
            let case = Case::of_verdict(&game, u32::MAX, 2, &[], Memory::default());
            assert_eq!(agree(&case), number, "{case:?}");
        }
    }
}

/// A plan of 4,096 positions and 16,384 links on the one class of a game of 512 vertices and 4,096 edges.
pub fn at_the_limit() -> Case {
    let game = opponents(forced_ring(512, 8), 0);
    let next = |i: u16| (1..=4).map(move |step| (i, (i + step) % 4096));
    let plan = Plan { vertices: vec![0; 4096], links: (0..4096).flat_map(next).collect() };
    Case::of_verdict(&game.words(), 511, EVEN, &plan.words(), lent(&game))
}

#[test]
fn largest_plans() {
    let case = at_the_limit();
    assert!(shown(&case));
    let Answer { classes, edges, .. } = case.actual().answer;
    assert_eq!((classes, edges), (1, 1));
    // One link more than there may be.
    let mut plan = case.plan.clone();
    plan[1] += 1;
    plan.extend([0; 2]);
    assert_eq!(agree(&Case { plan, ..case }), 12);
    // A plan on the game itself.
    let (table, plan) = largest_plan(&mut Lcg::new(146), 512);
    for player in [EVEN, ODD] {
        agree(&Case::of_verdict(&table.words(), 0, player, &plan.words(), lent(&table)));
    }
}
