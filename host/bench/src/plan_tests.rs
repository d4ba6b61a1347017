//! The best programs and the baseline beside the library, by the calls on plans and traces.

use crate::plan_calls::{agreed, expected, Memory};
use crate::plan_families::{Call, Case, FAMILIES};
use generator::{
    any_game, bent_plan, damaged_often, damaged_trace, solve, strategy_plan, trace, trace_words,
    unfolded, words_behind, Lcg, Plan, Table,
};
use raskjomi::{exports::RaskjomiAnswer, Game};
use std::collections::BTreeSet;

const ON_PLANS: [Call; 4] = [Call::AcceptPlan, Call::Carry, Call::CarryClass, Call::Verdict];

/// Every side answers and leaves the same, by these calls; the library's answers.
fn agree(calls: &[Call], case: &Case) -> Vec<RaskjomiAnswer> {
    calls.iter().map(|&call| agreed(call, Memory::for_game(&case.game), case).1).collect()
}

fn case(game: &Table, words: Vec<u16>, player: u32, vertex: usize) -> Case {
    Case { game: game.words(), words, player, vertex: vertex as u32, refusal: (0, 0) }
}

/// The numbers of the answers.
fn numbers(answers: &[RaskjomiAnswer]) -> impl Iterator<Item = u32> + '_ {
    answers.iter().map(|answer| answer.number)
}

/// A plan from a vertex, by a solution or by any choices, with some copies of each position.
fn some_plan(lcg: &mut Lcg, game: &Table, vertex: usize) -> (Plan, u32) {
    let solution = solve(game);
    let any = |of: &Vec<usize>| of[0];
    let (plan, player) = if lcg.once_in(4) {
        let choice: Vec<usize> = game.successors().iter().map(any).collect();
        (strategy_plan(game, 0, vertex, &choice), 0)
    } else {
        (solution.plan(game, vertex), solution.winner[vertex])
    };
    let most = (4096 / plan.vertices.len()).min(16384 / plan.links.len()).min(6);
    let copies = lcg.between(1, most.max(1));
    (unfolded(lcg, &plan, copies), player.into())
}

/// Two cases as one, whose positions stand one behind the other, with no edge between the games.
fn beside(first: &Case, second: &Case) -> (Table, Plan) {
    let [mut game, other] = [first, second].map(|case| Table::from_words(&case.game));
    let (n, p) = (game.n() as u16, first.words[0]);
    game.priorities.extend(&other.priorities);
    game.owners.extend(&other.owners);
    game.edges.extend(other.edges.iter().map(|edge| (edge.0 + n, edge.1 + n)));
    let [mut plan, behind] = [first, second].map(|case| plan_of(&case.words));
    plan.vertices.extend(behind.vertices.iter().map(|vertex| vertex + n));
    plan.links.extend(behind.links.iter().map(|link| (link.0 + p, link.1 + p)));
    (game, plan)
}

fn plan_of(words: &[u16]) -> Plan {
    let (vertices, ends) = words[2..].split_at(words[0].into());
    let (sources, targets) = ends.split_at(words[1].into());
    let links = sources.iter().copied().zip(targets.iter().copied()).collect();
    Plan { vertices: vertices.to_vec(), links }
}

#[test]
fn every_side_agrees_on_the_families() {
    for family in &FAMILIES {
        let case = (family.case)(family.sizes[0]);
        let answer = agreed(family.call, Memory::for_game(&case.game), &case).1;
        assert!(expected(family.call, &case, &answer), "{:?}, {}", family.call, family.name);
    }
}

#[test]
fn every_side_agrees_on_plans() {
    let (mut lcg, mut seen) = (Lcg::new(51), BTreeSet::new());
    for round in 0..240 {
        let game = any_game(&mut lcg, [8, 40, 70, 140][round % 4]);
        let vertex = lcg.below(game.n());
        let (plan, player) = some_plan(&mut lcg, &game, vertex);
        let bent = lcg.once_in(2);
        let words = if bent { bent_plan(&mut lcg, &plan, game.n()) } else { plan.words() };
        let player = if lcg.once_in(12) { lcg.below(4) as u32 } else { player };
        let to = if lcg.once_in(4) { lcg.below(game.n() + 1) } else { vertex };
        let answers = agree(&ON_PLANS, &case(&game, words, player, to));
        seen.extend(numbers(&answers));
    }
    assert!([0, 12, 13, 14, 15, 16, 33].iter().all(|number| seen.contains(number)), "{seen:?}");
}

#[test]
fn every_side_agrees_on_plans_of_reduced_games() {
    let (mut lcg, mut shown) = (Lcg::new(52), 0);
    for round in 0..120 {
        let game = any_game(&mut lcg, [8, 40, 70, 140][round % 4]);
        let reduced = Game::new(game.words()).expect("accepted").reduce();
        let (vertex, table) = (lcg.below(game.n()), Table::from_words(reduced.game.words()));
        let (plan, player) = some_plan(&mut lcg, &table, reduced.classes[vertex].into());
        let case = case(&game, plan.words(), player, vertex);
        shown += agree(&[Call::CarryClass, Call::Verdict], &case)[1].shown;
    }
    assert!(shown > 60, "{shown} are shown");
}

#[test]
fn every_side_agrees_where_levels_are_many() {
    let [stairs, nested] = [0, 7].map(|at| (FAMILIES[at].case)(FAMILIES[at].sizes[0]));
    let (game, plan) = beside(&stairs, &nested);
    let (mut lcg, mut seen) = (Lcg::new(53), BTreeSet::new());
    for round in 0..60 {
        let mut plan = plan.clone();
        // A link within a loop, between positions of the wrong parity, refuses the plan there.
        let (inner, first) = (lcg.below(16) as u16, stairs.words[0]);
        let back = (first + 16 * inner + lcg.between(2, 15) as u16, first + 16 * inner + 1);
        plan.links.extend((round % 2 == 1).then_some(back));
        let answers = agree(&[Call::AcceptPlan], &case(&game, plan.words(), 0, 0));
        seen.extend(answers.iter().map(|answer| (answer.number, answer.place)));
    }
    assert!(seen.contains(&(0, 0)) && seen.len() > 8, "{seen:?}");
}

#[test]
fn every_side_replays_alike() {
    let (mut lcg, mut seen) = (Lcg::new(54), BTreeSet::new());
    for round in 0..300 {
        let game = any_game(&mut lcg, [4, 8, 70, 140][round % 4]);
        let entries = trace(&mut lcg, &game);
        let broken = lcg.once_in(12);
        let words = if broken { damaged_trace(&mut lcg, &entries) } else { trace_words(&entries) };
        let case = case(&game, words, 0, 0);
        let mut memory = Memory::for_game(&case.game);
        memory.edit.table = [&case.game[..], &words_behind(&mut lcg)].concat();
        seen.insert(agreed(Call::Replay, memory, &case).1.number);
    }
    assert!([0, 37, 38, 39, 40].iter().all(|number| seen.contains(number)), "{seen:?}");
}

#[test]
fn every_side_refuses_tables_and_buffers_alike() {
    let (mut lcg, mut seen) = (Lcg::new(55), BTreeSet::new());
    let calls = [&ON_PLANS[..], &[Call::Replay]].concat();
    for _ in 0..120 {
        let game = any_game(&mut lcg, 70);
        let mut case = case(&game, Plan { vertices: vec![0], links: vec![] }.words(), 0, 0);
        let mut memory = Memory::for_game(&case.game);
        match lcg.below(6) {
            0 => drop((memory.plan.marks.pop(), memory.edit.marks.pop())),
            1 => drop((memory.plan.spare.pop(), memory.edit.spare.pop())),
            _ => case.game = damaged_often(&mut lcg, &game),
        }
        if case.game.len() <= memory.edit.table.len() {
            let answers = calls.iter().map(|&call| agreed(call, memory.clone(), &case).1);
            seen.extend(answers.map(|answer| answer.number));
        }
    }
    assert!([4, 5, 6, 8, 15, 21, 22].iter().all(|number| seen.contains(number)), "{seen:?}");
}
