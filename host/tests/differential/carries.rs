//! Plans carried to other vertices: each plan written starts at the vertex and wins, and the memory is as
//! it should be after every outcome.

use crate::calls::{Call, Case, Outcome};
use crate::limits::{agree, exact_memory};
use crate::samples::any_strategy;
use crate::tables::games::CARRIED;
use generator::{
    any_game, bent_plan, complete, opponents, round_of_loops, round_plan, same_game, solve, Lcg,
    Plan, Table,
};
use oracle::{mark_bytes, Answer, Memory, Oracle};
use raskjomi::MOST_PLAN_WORDS;
use std::ops::Range;

/// The game that a call's plans are on, and how its vertices compare with those of the game.
pub struct Origin {
    pub game: Table,
    /// Whether each of its vertices is below each vertex, and the other way round.
    below: Vec<Vec<bool>>,
    above: Vec<Vec<bool>>,
}

impl Origin {
    pub fn new(call: Call, table: &Table) -> Origin {
        let oracle = Oracle::exact();
        let game = oracle.game(&table.words()).expect("a whole table");
        let order = oracle.order_of(&game).0;
        let mut lowest: Vec<usize> = (0..game.n()).collect();
        let mut origin = table.clone();
        if call != Call::Carry {
            let classes = oracle.classes_of(&game, &order);
            let reduced = oracle.reduced_of(&oracle.quotient_of(&game, &classes), &classes, &order);
            origin = Table::from_words(&oracle.listed(&reduced).table());
            lowest = classes.members.iter().map(|members| members[0]).collect();
        }
        let row = |x: &usize| (0..game.n()).map(|v| order.has(*x, v)).collect();
        let column = |x: &usize| (0..game.n()).map(|v| order.has(v, *x)).collect();
        let (below, above) =
            (lowest.iter().map(row).collect(), lowest.iter().map(column).collect());
        Origin { game: origin, below, above }
    }

    /// The vertices that a player's plan from `start` can be carried to.
    pub fn reached(&self, player: u32, start: usize) -> Vec<u32> {
        let kept = if player == 0 { &self.below[start] } else { &self.above[start] };
        (0..).zip(kept).filter(|(_, &kept)| kept).map(|(v, _)| v).collect()
    }
}

/// A game of at most `most` vertices; the players win equally often.
pub fn of_both(lcg: &mut Lcg, most: usize) -> Table {
    let table = any_game(lcg, most);
    if lcg.once_in(2) {
        table.exchanged()
    } else {
        table
    }
}

/// Memory in which every plan can be carried, with old content.
pub fn room(table: &Table) -> Memory {
    let reduction = vec![5; table.words().len()];
    Memory { reduction, output: vec![6; MOST_PLAN_WORDS], ..exact_memory(table) }
}

/// The words of the plan that an answer counts.
pub fn plan_words(Answer { positions, links, .. }: Answer) -> usize {
    2 + positions as usize + 2 * links as usize
}

/// A plan of so many positions on a game of the opponent's, or on its one class, that goes round.
pub fn round(call: Call, game: &Table, positions: usize, round: Range<usize>) -> Plan {
    match call {
        Call::CarryClass => round_of_loops(positions, round),
        _ => {
            let vertices = (0..positions).map(|i| (i % game.n()) as u16).collect();
            round_plan(game, vertices, round)
        }
    }
}

/// The old memory with order, classes and reduction, as far as the call works them out.
pub fn worked_out(call: Call, game: &[u16], old: &Memory) -> Memory {
    if call == Call::Carry {
        return Case::on_memory(Call::Order, game, old.clone()).actual().memory;
    }
    let lent = Memory { output: old.reduction.clone(), ..old.clone() };
    let after = Case::on_memory(Call::Reduce, game, lent).actual().memory;
    Memory { reduction: after.output, output: old.output.clone(), ..after }
}

/// Each case of one of the solver's plans on a game, from any of `starts`, carried to any vertex.
fn cases(call: Call, table: &Table, origin: &Origin, starts: &[usize]) -> Vec<(usize, Case)> {
    let (solution, words) = (solve(&origin.game), table.words());
    let mut cases = Vec::new();
    for &start in starts {
        let plan = solution.plan(&origin.game, start);
        let (p, n, m) = (plan.vertices.len(), table.n(), table.m());
        let output = vec![6; MOST_PLAN_WORDS.min(2 + p * n + 2 * p * m)];
        for vertex in 0..n as u32 {
            let (player, memory) = (solution.winner[start] as u32, room(table));
            let memory = Memory { output: output.clone(), ..memory };
            let plan = plan.words();
            cases.push((start, Case::of_carrying(call, &words, player, &plan, vertex, memory)));
        }
    }
    cases
}

#[test]
fn carried_plans_win_from_their_vertex() {
    let mut lcg = Lcg::new(81);
    // How often each call carries each player's plan to another vertex.
    let mut carried = [[0; 2]; 2];
    for (most, games, starts) in [(5, 400, 5), (12, 100, 12), (40, 24, 3), (100, 4, 1)] {
        for _ in 0..games {
            let table = of_both(&mut lcg, most);
            for call in Call::CARRYING {
                let origin = Origin::new(call, &table);
                let mut from: Vec<usize> = (0..origin.game.n()).collect();
                lcg.shuffle(&mut from);
                from.truncate(starts);
                for (start, case) in cases(call, &table, &origin, &from) {
                    let kept = origin.reached(case.player, start).contains(&case.vertex);
                    assert_eq!(agree(&case), if kept { 0 } else { 33 }, "{case:?}");
                    if kept {
                        wins(&case);
                        let other = start != case.vertex as usize;
                        carried[(call == Call::CarryClass) as usize][case.player as usize] +=
                            other as u32;
                    }
                }
            }
        }
    }
    assert!(carried.iter().flatten().all(|&count| count > 300), "{carried:?}");
}

/// The plan that the call writes starts at the vertex and passes both acceptors.
fn wins(case: &Case) {
    let Outcome { answer, memory } = case.actual();
    let plan = &memory.output[..plan_words(answer)];
    assert_eq!(plan[2] as u32, case.vertex);
    assert_eq!(raskjomi::accept_plan(&case.game, case.player, plan), Ok(()), "{case:?}");
    let by_oracle = Oracle::exact().accept_plan(&case.game, case.player, plan);
    assert_eq!(by_oracle, Answer::default(), "{case:?}");
}

#[test]
fn worked_plans_word_by_word() {
    for row in &CARRIED {
        let (call, table) = (Call::CARRYING[row.class as usize], Table::from_words(row.game));
        let memory = Memory { output: vec![6; row.words.len()], ..room(&table) };
        let case = Case::of_carrying(call, row.game, row.player, row.plan, row.vertex, memory);
        assert_eq!(agree(&case), 0);
        assert_eq!(case.actual().memory.output, row.words);
    }
}

/// Memory longer than need be by a few, with any content; the output has `output` words.
pub fn dirty(lcg: &mut Lcg, table: &Table, output: usize) -> Memory {
    let mut old =
        |length: usize| -> Vec<u16> { (0..length).map(|_| lcg.below(65_536) as u16).collect() };
    let bytes = |words: Vec<u16>| words.into_iter().map(|word| word as u8).collect();
    let n = table.n();
    Memory {
        marks: bytes(old(mark_bytes(n) + 3)),
        spare: bytes(old(mark_bytes(n) + 5)),
        classes: old(n + 7),
        reduction: old(table.words().len() + 9),
        output: old(output),
        ..Memory::default()
    }
}

/// Library and oracle agree on number, place and memory, and they are these.
pub fn leaves(case: &Case, number: u32, place: usize, memory: &Memory) {
    agree(case);
    let outcome = case.actual();
    let refused = Answer { number, place, ..Answer::default() };
    assert_eq!(outcome.answer, refused, "{case:?}");
    assert_eq!(outcome.memory, *memory, "{case:?}");
}

/// A case that is accepted, with memory that is longer than it need be, and the words that it writes.
fn accepted(lcg: &mut Lcg, call: Call, table: &Table, origin: &Origin) -> (Case, usize) {
    let (solution, start) = (solve(&origin.game), lcg.below(origin.game.n()));
    let player = solution.winner[start] as u32;
    let (plan, vertex) =
        (solution.plan(&origin.game, start).words(), lcg.pick(&origin.reached(player, start)));
    let case = Case::of_carrying(call, &table.words(), player, &plan, vertex, room(table));
    let needed = plan_words(case.expected(&Oracle::exact()).answer);
    let memory = dirty(lcg, table, needed + 11);
    (Case { memory, ..case }, needed)
}

#[test]
fn memory_after_acceptance_and_after_33_and_35() {
    let mut lcg = Lcg::new(82);
    for most in [1, 3, 8, 30].repeat(60) {
        let table = of_both(&mut lcg, most);
        for call in Call::CARRYING {
            let origin = Origin::new(call, &table);
            let (case, needed) = accepted(&mut lcg, call, &table, &origin);
            assert_eq!(agree(&case), 0);
            let worked = worked_out(call, &case.game, &case.memory);
            let mut after = case.actual().memory;
            assert_eq!(after.output[needed..], case.memory.output[needed..]);
            after.output = case.memory.output.clone();
            assert_eq!(after, worked, "{case:?}");
            let n = table.n() as u32;
            for vertex in [n, n + 1, 65_535, 65_536, 65_536 + case.vertex, u32::MAX] {
                let case = Case { vertex, ..case.clone() };
                leaves(&case, 33, vertex as usize, &worked);
            }
            for length in [0, 1, needed - 1] {
                let output = case.memory.output[..length].to_vec();
                let memory = Memory { output: output.clone(), ..case.memory.clone() };
                let worked = Memory { output, ..worked.clone() };
                leaves(&Case { memory, ..case.clone() }, 35, needed, &worked);
            }
        }
    }
}

#[test]
fn memory_after_a_plan_is_refused() {
    let mut lcg = Lcg::new(83);
    let mut numbers = Vec::new();
    for most in [3, 8, 15].repeat(150) {
        let table = of_both(&mut lcg, most);
        for call in Call::CARRYING {
            let origin = Origin::new(call, &table);
            let (case, _) = accepted(&mut lcg, call, &table, &origin);
            let after = match call {
                Call::Carry => case.memory.clone(),
                _ => worked_out(call, &case.game, &case.memory),
            };
            leaves(&Case { player: 2, ..case.clone() }, 11, 0, &after);
            let (solution, start) = (solve(&origin.game), case.plan[2] as usize);
            let mut any = any_strategy(&mut lcg, &origin.game, &solution, start).words();
            if lcg.once_in(2) {
                let plan = solution.plan(&origin.game, start);
                any = bent_plan(&mut lcg, &plan, origin.game.n());
            }
            // A vertex that isn't there, and an output without a word: the plan is judged before both.
            let memory = Memory { output: vec![], ..case.memory.clone() };
            let case = Case { plan: any, vertex: u32::MAX, memory, ..case };
            let Answer { number, place, .. } = case.expected(&Oracle::exact()).answer;
            if number != 33 {
                numbers.push((call, number));
                leaves(&case, number, place, &Memory { output: vec![], ..after });
            }
        }
    }
    for call in Call::CARRYING {
        for number in 12..=16 {
            assert!(numbers.contains(&(call, number)), "{call:?} never gives {number}");
        }
    }
}

/// Makes a buffer one shorter than n vertices and a table of so many words need.
type Shorten = fn(&mut Memory, usize, usize);

/// The buffers of 21 to 24, in turn.
pub const SHORTENED: [Shorten; 4] = [
    |memory, n, _| memory.marks.truncate(mark_bytes(n) - 1),
    |memory, n, _| memory.spare.truncate(mark_bytes(n) - 1),
    |memory, n, _| memory.classes.truncate(n - 1),
    |memory, _, words| memory.reduction.truncate(words - 1),
];

#[test]
fn lengths_come_before_the_plan_and_leave_all_memory_old() {
    let mut lcg = Lcg::new(84);
    for most in [1, 4, 20].repeat(30) {
        let table = of_both(&mut lcg, most);
        let (n, words) = (table.n(), table.words().len());
        for (call, buffers) in [(Call::Carry, 2), (Call::CarryClass, 4)] {
            for (i, shorten) in SHORTENED.iter().enumerate() {
                let mut memory = dirty(&mut lcg, &table, 0);
                shorten(&mut memory, n, words);
                // No such player, and no plan.
                let case =
                    Case::of_carrying(call, &table.words(), 2, &[], u32::MAX, memory.clone());
                if i < buffers {
                    let place = [mark_bytes(n), mark_bytes(n), n, words][i];
                    leaves(&case, 21 + i as u32, place, &memory);
                } else {
                    leaves(&case, 11, 0, &memory);
                }
            }
        }
    }
}

/// 6 vertices with 29 edges, among them a ring and a loop at 0.
fn six(player: u16) -> Table {
    let mut game = opponents(complete(6), player);
    let gone = |&(v, w): &(u16, u16)| v == w && v != 0 || v == 0 && (w == 2 || w == 3);
    game.edges.retain(|edge| !gone(edge));
    assert_eq!(game.m(), 29);
    game
}

#[test]
fn limits_of_the_plan_written() {
    for call in Call::CARRYING {
        for player in [0, 1] {
            let complete = |n: usize| opponents(complete(n), player);
            let rows = [
                (complete(4), 1024, 0..1024, Some((4096, 16_384))),
                (complete(64), 64, 0..4, Some((256, 16_384))),
                (complete(2), 2048, 0..2048, Some((4096, 8192))),
                // One position, or one link, more than there may be.
                (complete(2), 2049, 1..2049, None),
                (six(player), 565, 0..565, None),
                (six(player), 564, 0..564, Some((3384, 16_356))),
            ];
            for (game, positions, around, size) in rows {
                let plan = round(call, &game, positions, around).words();
                let (words, vertex) = (game.words(), game.n() as u32 - 1);
                let memory = room(&game);
                let case =
                    Case::of_carrying(call, &words, player as u32, &plan, vertex, memory.clone());
                let worked = worked_out(call, &words, &memory);
                let Some((positions, links)) = size else {
                    leaves(&case, 34, 0, &worked);
                    // A large plan is refused before a short output.
                    let short = Memory { output: vec![], ..memory };
                    let case = Case { memory: short, ..case };
                    leaves(&case, 34, 0, &Memory { output: vec![], ..worked });
                    continue;
                };
                assert_eq!(agree(&case), 0);
                let answer = case.actual().answer;
                assert_eq!((answer.positions, answer.links), (positions, links));
                wins(&case);
            }
        }
    }
}

#[test]
fn tables_of_one_game_carry_plans_the_same() {
    let mut lcg = Lcg::new(85);
    for most in [4, 10, 30].repeat(100) {
        let table = of_both(&mut lcg, most);
        let other = same_game(&mut lcg, &table);
        for call in Call::CARRYING {
            let origin = Origin::new(call, &table);
            let (case, needed) = accepted(&mut lcg, call, &table, &origin);
            let plan = |game: &Table| {
                let case = Case { game: game.words(), memory: room(game), ..case.clone() };
                assert_eq!(agree(&case), 0);
                let Outcome { answer, memory } = case.actual();
                (answer, memory.output[..needed].to_vec())
            };
            assert_eq!(plan(&table), plan(&other), "{case:?}");
        }
    }
}

#[test]
fn a_class_plan_goes_to_vertices_beyond_the_class_count() {
    // 40 loops are one class, so the reduced game is a loop.
    let table = generator::copies(&mut Lcg::new(86), &complete(1), 40, false);
    let plan = round_of_loops(3, 0..3).words();
    for vertex in 0..40 {
        let case =
            Case::of_carrying(Call::CarryClass, &table.words(), 0, &plan, vertex, room(&table));
        assert_eq!(agree(&case), 0);
        assert_eq!(case.actual().answer.classes, 1);
        wins(&case);
    }
}
