//! Governed bisimulations beside the order: the largest one passes both acceptors, is symmetric, and its
//! classes lie inside the order's.

use crate::calls::{Call, Case, Outcome};
use crate::limits::{agree, exact_memory};
use crate::tables::games::{B, C, D};
use generator::{any_game, rings, Lcg, Table};
use oracle::{Memory, Relation};
use raskjomi::is_marked;

/// The outcome of a call on a game and memory of the exact lengths, compared with the oracle's.
fn outcome(call: Call, table: &Table, memory: Memory) -> Outcome {
    let case = Case::on_memory(call, &table.words(), memory);
    agree(&case);
    case.actual()
}

/// The pass count and the classes of a game.
fn passes_and_classes(words: &[u16]) -> (u32, Vec<u16>) {
    let table = Table::from_words(words);
    let passes = outcome(Call::GovernedOrder, &table, exact_memory(&table)).answer.passes;
    (passes, outcome(Call::GovernedClasses, &table, exact_memory(&table)).memory.classes)
}

/// D has six classes here and five by the order, since no move from 5 answers that from 0 to 1.
#[test]
fn worked_games() {
    assert_eq!(passes_and_classes(&B), (1, vec![0, 1, 0]));
    assert_eq!(passes_and_classes(&C), (2, vec![0, 1, 2, 3, 4]));
    assert_eq!(passes_and_classes(&D), (3, vec![0, 1, 2, 3, 4, 5]));
    let table = Table::from_words(&D);
    let order = outcome(Call::Classes, &table, exact_memory(&table)).memory;
    assert_eq!(order.classes, [0, 1, 2, 3, 4, 0]);
    // The pairs that the order has both ways are no governed bisimulation: (0, 5) fails.
    let n = table.n();
    let mutual = |v, w| is_marked(&order.marks, n, v, w) && is_marked(&order.marks, n, w, v);
    let marks = Relation::of(n, n, mutual).bytes();
    let judged = outcome(Call::AcceptGoverned, &table, Memory { marks, ..Memory::default() });
    assert_eq!((judged.answer.number, judged.answer.place), (10, 5));
}

/// The game with one vertex more: a copy of one that has two moves, without a move that its owner has no use
/// for. By the order the two are one; `None` where no vertex has such a move, or the table would be too long.
fn with_shortened(table: &Table, order: &[u8]) -> Option<Table> {
    let (n, successors) = (table.n(), table.successors());
    let useless = |v: usize, x: usize| {
        let no_better = |y: usize| match table.owners[v] {
            0 => is_marked(order, n, x, y),
            _ => is_marked(order, n, y, x),
        };
        successors[v].iter().any(|&y| y != x && no_better(y))
    };
    let mut moves = (0..n).flat_map(|v| successors[v].iter().map(move |&x| (v, x)));
    let (v, dropped) = moves.find(|&(v, x)| useless(v, x))?;
    let mut more = table.clone();
    more.priorities.push(table.priorities[v]);
    more.owners.push(table.owners[v]);
    let kept = successors[v].iter().filter(|&&x| x != dropped);
    more.edges.extend(kept.map(|&x| (n as u16, x as u16)));
    Some(more).filter(|more| more.m() <= 4096)
}

/// What is written is symmetric, passes both acceptors, holds all that the governed acceptor passes, and
/// tells apart whatever the order tells apart.
#[test]
fn inside_the_order() {
    let mut lcg = Lcg::new(91);
    let mut finer = 0;
    for most in [3, 6, 12, 40].repeat(40) {
        let plain = any_game(&mut lcg, most);
        let order = outcome(Call::Order, &plain, exact_memory(&plain)).memory.marks;
        let table = with_shortened(&plain, &order).unwrap_or(plain);
        let n = table.n();
        let governed = outcome(Call::GovernedClasses, &table, exact_memory(&table)).memory;
        let order = outcome(Call::Classes, &table, exact_memory(&table)).memory;
        for (v, w) in (0..n).flat_map(|v| (0..n).map(move |w| (v, w))) {
            let mark = is_marked(&governed.marks, n, v, w);
            assert_eq!(mark, is_marked(&governed.marks, n, w, v), "symmetric");
            assert!(!mark || is_marked(&order.marks, n, v, w), "inside the order");
        }
        let marks = Memory { marks: governed.marks.clone(), ..Memory::default() };
        for call in [Call::AcceptGoverned, Call::AcceptRelation] {
            assert_eq!(outcome(call, &table, marks.clone()).answer.number, 0, "{call:?}");
        }
        for (v, w) in (0..n).flat_map(|v| (0..n).map(move |w| (v, w))) {
            let shared = governed.classes[v] == governed.classes[w];
            assert!(!shared || order.classes[v] == order.classes[w]);
        }
        finer += (governed.classes != order.classes) as usize;
    }
    assert!(finer > 20, "only {finer} games have finer classes");
}

/// A ring has one class, however it is owned; two rings of coprime lengths are told apart by their exit.
#[test]
fn rings_agree() {
    for lengths in [[2, 3], [5, 8], [13, 9]] {
        for player in [0, 1] {
            let table = rings(&lengths).owned_by(player);
            let call = Case::on_memory(Call::GovernedOrder, &table.words(), exact_memory(&table));
            assert_eq!(agree(&call), 0);
        }
    }
}
