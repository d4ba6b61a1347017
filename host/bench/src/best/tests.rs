//! The best programs and the baseline beside the library.

use crate::calls::{LIBRARY, SIDES};
use crate::edits::{Change, Memory};
use crate::families::FAMILIES;
use crate::first_calls;
use crate::order_calls::{Call, CALLS};
use generator::{any_game, damaged_often, edge_to_edit, Lcg};
use raskjomi::exports::RaskjomiAnswer;

/// Every side answers and leaves the same, by every call; the library's answers.
fn agree(game: &[u16], memory: &Memory, change: Change) -> Vec<RaskjomiAnswer> {
    let answer = |(_, call): &Call| {
        let call = |side: usize, memory: &mut Memory| call(side, game, change, memory);
        first_calls::<SIDES, _>(memory.clone(), &call).1[LIBRARY].answer
    };
    CALLS.iter().map(answer).collect()
}

#[test]
fn every_side_agrees_on_games_of_all_widths() {
    let mut lcg = Lcg::new(46);
    for most in [4, 63, 64, 65, 128, 129, 256, 257, 512] {
        for _ in 0..8 {
            let game = any_game(&mut lcg, most);
            let add = lcg.once_in(2);
            let (source, target) = edge_to_edit(&mut lcg, &game, !add);
            let words = game.words();
            agree(&words, &Memory::for_game(&words), Change { source, target, add });
        }
    }
}

#[test]
fn every_side_agrees_on_the_families() {
    for (_, game_of) in FAMILIES {
        for game in [8, 16, 32, 64, 128].into_iter().filter_map(game_of) {
            let words = game.words();
            let change = Change { source: 0, target: 1, add: false };
            let answers = agree(&words, &Memory::for_game(&words), change);
            assert!(answers[..4].iter().all(|answer| answer.number == 0), "accepted");
        }
    }
}

#[test]
fn every_side_refuses_alike() {
    let (mut lcg, mut refused) = (Lcg::new(47), 0);
    for _ in 0..60 {
        let game = any_game(&mut lcg, 70);
        let memory = Memory::for_game(&game.words());
        let words = damaged_often(&mut lcg, &game);
        let change = Change { source: 0, target: 1, add: true };
        if words.len() <= memory.table.len() {
            let answers = agree(&words, &memory, change);
            refused += (answers[0].number != 0) as u32;
        }
    }
    assert!(refused > 20, "{refused} refusals are enough");
}
