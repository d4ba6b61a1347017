//! Cases from a seed.

use crate::calls::{Call, Case};
use crate::carries::{of_both, plan_words, room, round, Origin};
use generator::{
    any_game, bent_plan, branching, crowded, damaged, damaged_often, damaged_trace, edge_to_edit,
    old_bytes, old_words, plans_at_limits, relation, seed_numbers, set_unused_bits, solve,
    strategy_plan, trace, trace_words, unfolded, words_behind, Lcg, Plan, Solution, Table,
    REFUSALS,
};
use oracle::{mark_bytes, Memory, Oracle, Relation};

/// Among so many games there is one for a large plan.
const CROWDS: usize = 50;
/// The most vertices of a game on which a plan is carried: the oracle makes its order several times.
const MOST_CARRIED: usize = 60;

/// A case for each call on memory, with a whole table or a damaged one.
pub fn cases_on_memory(lcg: &mut Lcg, table: &Table) -> Vec<Case> {
    let game = if lcg.once_in(4) { damaged_table(lcg, table) } else { table.words() };
    let case = |call| Case::on_memory(call, &game, memory(lcg, table));
    let mut cases: Vec<Case> = Call::ON_MEMORY.map(case).into();
    cases.extend(foreign_relations(lcg, table));
    cases
}

fn damaged_table(lcg: &mut Lcg, table: &Table) -> Vec<u16> {
    match lcg.below(13) {
        number @ 0..=6 => damaged(lcg, table, REFUSALS[number]),
        _ => damaged_often(lcg, table),
    }
}

/// Buffers of several lengths with random old content.
fn memory(lcg: &mut Lcg, table: &Table) -> Memory {
    let n = table.n();
    Memory {
        marks: old_bytes(lcg, mark_bytes(n)),
        spare: old_bytes(lcg, mark_bytes(n)),
        classes: old_words(lcg, n),
        output: old_words(lcg, 2 + 2 * n + 2 * table.m()),
        ..Memory::default()
    }
}

/// Relations made from the order, and from the governed one; some have unused bits that are set, and some
/// random bytes beyond their end.
pub fn foreign_relations(lcg: &mut Lcg, table: &Table) -> Vec<Case> {
    let game = Oracle::exact().game(&table.words()).expect("a whole table");
    let (order, governed) =
        (Oracle::exact().order_of(&game).0, Oracle::exact().governed_of(&game).0);
    let n = table.n();
    let mut relation_case = |call, largest: &Relation| {
        let cells = relation(lcg, largest.cells(), n);
        let mut marks = Relation::of(n, n, |v, w| cells[v * n + w]).bytes();
        if lcg.once_in(4) {
            set_unused_bits(lcg, &mut marks, n);
        }
        if lcg.once_in(2) {
            marks.extend(old_bytes(lcg, 5));
        }
        let memory = Memory { marks, ..Memory::default() };
        Case::on_memory(call, &table.words(), memory)
    };
    vec![
        relation_case(Call::AcceptRelation, &order),
        relation_case(Call::AcceptRelation, &order),
        relation_case(Call::AcceptGoverned, &governed),
        relation_case(Call::AcceptGoverned, &governed),
        relation_case(Call::AcceptGoverned, &order),
    ]
}

/// Plans on a game: the winner's, unfolded ones, bent ones, any strategy, and the wrong player.
pub fn cases_of_plans(lcg: &mut Lcg, table: &Table) -> Vec<Case> {
    let (n, solution) = (table.n(), solve(table));
    let start = lcg.below(n);
    let winner = solution.winner[start];
    let plan = solution.plan(table, start);
    let copies = lcg.between(1, 3);
    let larger = unfolded(lcg, &plan, copies);
    let any = any_strategy(lcg, table, &solution, start);
    let words = [
        plan.words(),
        larger.words(),
        bent_plan(lcg, &plan, n),
        bent_plan(lcg, &larger, n),
        any.words(),
        bent_plan(lcg, &any, n),
    ];
    let (winner, loser) = (winner as u32, 1 - winner as u32);
    let case = |plan| {
        let other = lcg.pick(&[2, 3, 256, u32::MAX]);
        let player =
            lcg.pick(&[winner, winner, winner, winner, winner, winner, loser, loser, other]);
        let game = if lcg.once_in(12) { damaged_table(lcg, table) } else { table.words() };
        Case::of_plan(&game, player, plan)
    };
    words.into_iter().map(case).collect()
}

/// A strategy of the winner of the start that may choose badly.
pub fn any_strategy(lcg: &mut Lcg, table: &Table, solution: &Solution, start: usize) -> Plan {
    let successors = table.successors();
    let mut choice = solution.choice.clone();
    for (v, next) in successors.iter().enumerate() {
        if lcg.once_in(2) || !next.contains(&choice[v]) {
            choice[v] = lcg.pick(next);
        }
    }
    strategy_plan(table, solution.winner[start], start, &choice)
}

/// A plan carried by each of the two calls, to a vertex that it can be carried to or to any other.
fn cases_of_carrying(lcg: &mut Lcg, table: &Table) -> Vec<Case> {
    Call::CARRYING.map(|call| case_of_carrying(lcg, table, call)).into()
}

fn case_of_carrying(lcg: &mut Lcg, table: &Table, call: Call) -> Case {
    let origin = Origin::new(call, table);
    let (n, solution) = (table.n(), solve(&origin.game));
    let start = lcg.below(origin.game.n());
    let winner = solution.winner[start] as u32;
    let copies = lcg.between(1, 3);
    let plan = branching(lcg, &solution.plan(&origin.game, start), copies);
    let bent = lcg.once_in(3);
    let plan = if bent { bent_plan(lcg, &plan, origin.game.n()) } else { plan.words() };
    let others = [1 - winner, 1 - winner, 2, 256 + winner, u32::MAX];
    let player = if lcg.once_in(8) { lcg.pick(&others) } else { winner };
    let any = lcg.below(n) as u32;
    let vertex = match lcg.below(8) {
        0 => any,
        1 => lcg.pick(&[n as u32, n as u32 + 1, 65_535, 65_536 + any, u32::MAX]),
        _ => lcg.pick(&origin.reached(winner, start)),
    };
    let case = Case::of_carrying(call, &table.words(), player, &plan, vertex, room(table));
    let needed = plan_words(case.expected(&Oracle::exact()).answer);
    let game = if lcg.once_in(12) { damaged_table(lcg, table) } else { table.words() };
    let output = old_words(lcg, needed);
    let reduction = old_words(lcg, table.words().len());
    Case { game, memory: Memory { output, reduction, ..memory(lcg, table) }, ..case }
}

/// A verdict on any vertex, or on one of the start's class, by a plan on the reduced game.
fn case_of_verdict(lcg: &mut Lcg, table: &Table) -> Case {
    let case = case_of_carrying(lcg, table, Call::CarryClass);
    let memory = Memory { output: vec![], ..case.memory.clone() };
    Case { call: Call::Verdict, memory, ..case }
}

/// A plan that, carried, comes near the limits, or above one of them.
fn case_of_crowd(lcg: &mut Lcg) -> Case {
    let (call, player) = (lcg.pick(&Call::CARRYING), lcg.below(2) as u16);
    let (game, positions) = crowded(lcg, player);
    let plan = round(call, &game, positions, 0..positions).words();
    let vertex = lcg.below(game.n()) as u32;
    Case::of_carrying(call, &game.words(), player as u32, &plan, vertex, room(&game))
}

/// A plan at the limits of its sizes, or one beyond.
fn case_at_limits(lcg: &mut Lcg) -> Case {
    let player = lcg.below(2) as u16;
    let (game, mut plans) = plans_at_limits(player);
    let (plan, _) = plans.swap_remove(lcg.below(plans.len()));
    Case::of_plan(&game.words(), player.into(), plan.words())
}

/// An edge added and one removed, with a whole table or a damaged one at the start of a buffer.
pub fn cases_of_edits(lcg: &mut Lcg, table: &Table) -> Vec<Case> {
    let case = |call| {
        let edge = edge_to_edit(lcg, table, call == Call::RemoveEdge);
        let words = if lcg.once_in(6) { damaged_table(lcg, table) } else { table.words() };
        let buffer = [words, words_behind(lcg)].concat();
        Case::of_edit(call, edge, Memory { table: buffer, ..memory(lcg, table) })
    };
    Call::EDITING.map(case).into()
}

/// An arrival and a leaving previewed, with a whole table or a damaged one at the start of the shared
/// buffer, and a second table that is shorter, as long, or longer.
pub fn cases_of_previews(lcg: &mut Lcg, table: &Table) -> Vec<Case> {
    let case = |call| {
        let edge = edge_to_edit(lcg, table, call == Call::PreviewRemove);
        let words = if lcg.once_in(6) { damaged_table(lcg, table) } else { table.words() };
        let game = [words, words_behind(lcg)].concat();
        let more = if lcg.once_in(3) { 0 } else { 2 };
        let second = old_words(lcg, table.words().len() + more);
        Case::of_preview(call, edge, &game, Memory { table: second, ..memory(lcg, table) })
    };
    Call::PREVIEWING.map(case).into()
}

/// A trace replayed, with a whole table or a damaged one at the start of a buffer.
pub fn case_of_replay(lcg: &mut Lcg, table: &Table) -> Case {
    let entries = trace(lcg, table);
    let trace = if lcg.once_in(6) { damaged_trace(lcg, &entries) } else { trace_words(&entries) };
    let words = if lcg.once_in(4) { damaged_table(lcg, table) } else { table.words() };
    let buffer = [words, words_behind(lcg)].concat();
    Case::of_replay(trace, Memory { table: buffer, ..memory(lcg, table) })
}

/// The drawing of a game of mostly at most `most` vertices into an output of several lengths.
pub fn case_of_seed(lcg: &mut Lcg, most: usize) -> Case {
    let numbers = seed_numbers(lcg, most);
    let [n, degree] = [numbers[1], numbers[2]].map(|number| number.min(512) as usize);
    Case::of_seed(numbers, old_words(lcg, 2 + 2 * n + 2 * n * degree.min(16)))
}

/// The conversion of a game whose priorities are the lowest and the highest that there are.
fn case_of_conversion(lcg: &mut Lcg, most: usize) -> Case {
    let table = extreme(lcg, most);
    Case::on_memory(Call::Convert, &table.words(), memory(lcg, &table))
}

/// A game with priorities near 0 and near 65,535; in many the highest is 65,535, and in many of these no
/// priority is 0.
pub fn extreme(lcg: &mut Lcg, most: usize) -> Table {
    let mut table = any_game(lcg, most);
    let (low, high) = (lcg.pick(&[0, 1, 2]), lcg.pick(&[65_533, 65_534, 65_535, 65_535]));
    table.priorities.iter_mut().for_each(|q| *q = lcg.pick(&[low, low + 1, high - 1, high]));
    table
}

/// All cases of one game of at most `most` vertices.
pub fn cases(lcg: &mut Lcg, most: usize) -> Vec<Case> {
    let table = any_game(lcg, most);
    let mut cases = cases_on_memory(lcg, &table);
    cases.extend(cases_of_plans(lcg, &table));
    let carried = of_both(lcg, most.min(MOST_CARRIED));
    cases.extend(cases_of_carrying(lcg, &carried));
    cases.push(case_of_verdict(lcg, &carried));
    if lcg.once_in(CROWDS) {
        cases.push(case_of_crowd(lcg));
        cases.push(case_at_limits(lcg));
    }
    cases.extend(cases_of_edits(lcg, &table));
    cases.extend(cases_of_previews(lcg, &table));
    cases.push(case_of_replay(lcg, &table));
    cases.push(case_of_seed(lcg, most));
    cases.push(case_of_conversion(lcg, most));
    cases
}
