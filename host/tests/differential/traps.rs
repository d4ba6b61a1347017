//! Each misreading of the contract is noticed, and after how many games.

use crate::common::say;
use crate::samples::cases;
use generator::Lcg;
use oracle::{Oracle, Trap};

/// A misreading that so many games don't show would go unnoticed.
const MOST_GAMES: usize = 3000;

/// The number of games, from the first of a seed, until the library differs from an oracle that
/// falls for the trap.
fn games_needed(trap: Trap) -> Option<usize> {
    let (misled, mut lcg) = (Oracle::with(trap), Lcg::new(9));
    let differs =
        |lcg: &mut Lcg| cases(lcg, 8).iter().any(|case| case.actual() != case.expected(&misled));
    (1..=MOST_GAMES).find(|_| differs(&mut lcg))
}

/// The same for the kinds, by numbers from 0.
fn numbers_needed(trap: Trap) -> Option<usize> {
    (0..1000).position(|number| raskjomi::exports::kind(number) != Oracle::with(trap).kind(number))
}

#[test]
fn each_trap_is_noticed() {
    for trap in Trap::OF_CALLS {
        let (needed, unit) = match trap {
            Trap::KindsWithoutGaps => (numbers_needed(trap), "numbers"),
            _ => (games_needed(trap), "games"),
        };
        let needed = needed.unwrap_or_else(|| panic!("{trap:?} goes unnoticed"));
        say(format!("{trap:?}: {unit} needed {needed}"));
    }
}
