//! Facts that the contract states or implies, tried on seeded games: they tie the oracle's algorithms
//! to the definitions.

use generator::{
    any_game, copies, damaged, random, same_game, solve, strategy_plan, Lcg, Plan, Table, REFUSALS,
};
use oracle::{mark_bytes, Answer, Game, Memory, Oracle, Relation};

fn exact() -> Oracle {
    Oracle::exact()
}

fn game(table: &Table) -> Game {
    exact().game(&table.words()).expect("the generator's games are accepted")
}

/// The union of all direct simulations between two games, by trying each relation.
fn below_by_enumeration(left: &Game, right: &Game) -> Relation {
    let (n, k) = (left.n(), right.n());
    let mut union = vec![false; n * k];
    for set in 0..1u32 << (n * k) {
        let h = Relation::of(n, k, |v, w| set >> (v * k + w) & 1 == 1);
        if exact().simulation(left, right, &h) {
            h.pairs().for_each(|(v, w)| union[v * k + w] = true);
        }
    }
    Relation::of(n, k, |v, w| union[v * k + w])
}

/// A game of up to 3 vertices and 2 priorities.
fn small(lcg: &mut Lcg) -> Game {
    let n = lcg.between(1, 3);
    let m = lcg.between(n, n * n);
    game(&random(lcg, n, m, 2))
}

/// Such a game without some of its edges, so that it need not be total.
fn without_some_edges(lcg: &mut Lcg) -> Game {
    let game = small(lcg);
    let edges = game.listed.iter().copied().filter(|_| lcg.below(3) > 0).collect();
    Game::new(game.priority, game.owner, edges)
}

#[test]
fn order_is_the_union_of_all_direct_simulations() {
    let mut lcg = Lcg::new(1);
    for _ in 0..1500 {
        let game = small(&mut lcg);
        assert_eq!(exact().order_of(&game).0, below_by_enumeration(&game, &game), "{game:?}");
    }
}

#[test]
fn order_between_two_games_is_the_union_of_all_direct_simulations() {
    let mut lcg = Lcg::new(11);
    for _ in 0..1500 {
        let (left, right) = (small(&mut lcg), without_some_edges(&mut lcg));
        let order = exact().order_between(&left, &right).0;
        assert_eq!(order, below_by_enumeration(&left, &right), "{left:?} {right:?}");
    }
}

#[test]
fn passes_are_at_most_their_bound() {
    let mut lcg = Lcg::new(2);
    for _ in 0..500 {
        let game = game(&any_game(&mut lcg, 24));
        let n = game.n();
        assert!(exact().order_of(&game).1 as usize <= n * n - n + 1);
    }
    for (p, q) in [(2, 3), (3, 4), (7, 8)] {
        let game = game(&generator::rings(&[p, q]));
        assert_eq!(exact().order_of(&game).1 as usize, p * q + 1);
    }
}

/// The game, its classes' order, and the quotient and reduced game.
fn reduction(table: &Table) -> (Game, Relation, oracle::Classes, Game, Game) {
    let game = game(table);
    let order = exact().order_of(&game).0;
    let classes = exact().classes_of(&game, &order);
    let quotient = exact().quotient_of(&game, &classes);
    let reduced = exact().reduced_of(&quotient, &classes, &order);
    (game, order, classes, quotient, reduced)
}

#[test]
fn quotient_and_reduced_game_are_equivalent_to_the_game() {
    let mut lcg = Lcg::new(3);
    for _ in 0..400 {
        let (game, order, classes, quotient, reduced) = reduction(&any_game(&mut lcg, 40));
        let lowest = |c: usize| classes.members[c][0];
        let up = Relation::of(game.n(), classes.count(), |v, c| order.has(v, lowest(c)));
        let down = Relation::of(classes.count(), game.n(), |c, w| order.has(lowest(c), w));
        for smaller in [&quotient, &reduced] {
            assert!(exact().simulation(&game, smaller, &up));
            assert!(exact().simulation(smaller, &game, &down));
            assert!(smaller.m() <= game.edges.len());
            assert_eq!(exact().read(&smaller.table()).number, 0);
        }
    }
}

#[test]
fn a_class_with_both_owners_has_one_quotient_edge() {
    let mut lcg = Lcg::new(4);
    let mut seen = 0;
    for _ in 0..500 {
        let base = any_game(&mut lcg, 10).without_repeats();
        let (game, _, classes, quotient, _) = reduction(&copies(&mut lcg, &base, 3, true));
        for (class, members) in classes.members.iter().enumerate() {
            let owners = members.iter().map(|&v| game.owner[v]);
            if owners.clone().min() != owners.max() {
                seen += 1;
                assert_eq!(quotient.successors[class].len(), 1);
            }
        }
    }
    assert!(seen > 500, "only {seen} classes with both owners");
}

#[test]
fn solver_and_plan_acceptor_agree() {
    let mut lcg = Lcg::new(5);
    for _ in 0..400 {
        let table = any_game(&mut lcg, 30);
        let solution = solve(&table);
        for v in 0..table.n() {
            let plan = solution.plan(&table, v).words();
            let winner = solution.winner[v] as u32;
            assert_eq!(exact().accept_plan(&table.words(), winner, &plan), Answer::default());
            assert_ne!(exact().accept_plan(&table.words(), 1 - winner, &plan).number, 0);
        }
    }
}

#[test]
fn winners_are_those_of_the_reduced_game() {
    let mut lcg = Lcg::new(6);
    for _ in 0..1000 {
        let table = any_game(&mut lcg, 30);
        let n = table.n();
        let mut memory = Memory {
            marks: vec![0; mark_bytes(n)],
            spare: vec![0; mark_bytes(n)],
            classes: vec![0; n],
            output: vec![0; table.words().len()],
            ..Memory::default()
        };
        assert_eq!(exact().reduce(&table.words(), &mut memory).number, 0);
        let (before, after) = (solve(&table), solve(&Table::from_words(&memory.output)));
        for v in 0..n {
            assert_eq!(before.winner[v], after.winner[memory.classes[v] as usize]);
        }
    }
}

#[test]
fn damaged_tables_are_refused_as_meant() {
    let mut lcg = Lcg::new(7);
    for number in REFUSALS.repeat(300) {
        let table = any_game(&mut lcg, 20);
        assert_eq!(exact().read(&damaged(&mut lcg, &table, number)).number, number, "{table:?}");
    }
}

/// Whether a walk that has come to its last position ends, within so many further links, at its
/// first position, with a lowest priority of the wrong parity that the first position has.
fn closes_badly(plan: &Plan, priority: &[u16], player: u16, walk: &[u16], most: usize) -> bool {
    let (first, last) = (walk[0], walk[walk.len() - 1]);
    let next = plan.links.iter().filter(|link| link.0 == last).map(|link| link.1);
    let lowest = walk.iter().map(|&i| priority[i as usize]).min().expect("a walk has a position");
    let bad = lowest % 2 != player && priority[first as usize] == lowest;
    next.into_iter().any(|j| {
        let further = || closes_badly(plan, priority, player, &[walk, &[j]].concat(), most - 1);
        j == first && bad || most > 1 && further()
    })
}

#[test]
fn closed_walks_are_judged_as_if_each_were_listed() {
    let mut lcg = Lcg::new(8);
    let mut refused = 0;
    for _ in 0..1500 {
        let n = lcg.between(1, 4);
        let m = lcg.between(n, n * n);
        let table = random(&mut lcg, n, m, 4);
        let choice: Vec<usize> = table.successors().iter().map(|next| lcg.pick(next)).collect();
        let player = lcg.below(2) as u16;
        let plan = strategy_plan(&table, player, lcg.below(n), &choice);
        let p = plan.vertices.len();
        let at = |&v: &u16| table.priorities[v as usize];
        let priority: Vec<u16> = plan.vertices.iter().map(at).collect();
        let bad = |i: &usize| closes_badly(&plan, &priority, player, &[*i as u16], p);
        let answer = exact().accept_plan(&table.words(), player as u32, &plan.words());
        let expected = (0..p).find(bad).map_or((0, 0), |place| (16, place));
        assert_eq!((answer.number, answer.place), expected, "{table:?} {plan:?}");
        refused += (answer.number == 16) as u32;
    }
    assert!((200..1300).contains(&refused), "{refused}");
}

#[test]
fn repeats_and_the_sequence_of_edges_change_no_game() {
    let mut lcg = Lcg::new(9);
    for _ in 0..500 {
        let table = any_game(&mut lcg, 20);
        let [one, other] = [game(&table), game(&same_game(&mut lcg, &table))];
        assert_eq!((one.edges, one.successors), (other.edges, other.successors), "{table:?}");
    }
}
