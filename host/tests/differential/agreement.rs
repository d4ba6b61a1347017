//! Library and oracle agree on every case, and every refusal number is reached many times.

use crate::calls::Call;
use crate::common::say;
use crate::samples::cases;
use generator::{Lcg, LARGE_REFUSALS, REDUCTION_REFUSALS};
use oracle::Oracle;
use std::collections::BTreeMap;
use std::thread;

/// Games of at most so many vertices, and how many of them in a shard.
const GAMES: [(usize, usize); 6] =
    [(4, 4000), (12, 4000), (40, 1500), (100, 300), (256, 150), (512, 10)];
const SHARDS: u64 = 2;
/// How often each call gives each of its refusals, at the least.
const REACHED: usize = 50;

/// How often each call gave each number; 0 is "accepted".
type Counts = BTreeMap<(Call, u32), usize>;

/// Compares all cases of the shard's games and counts the answers.
fn compare(shard: u64) -> Counts {
    let mut lcg = Lcg::new(1000 + shard);
    let mut counts = Counts::new();
    for (most, games) in GAMES {
        for case in (0..games).flat_map(|_| cases(&mut lcg, most)) {
            let expected = case.expected(&Oracle::exact());
            assert_eq!(case.actual(), expected, "{case:?}");
            assert_eq!(case.safe_answer(), expected.answer, "{case:?}");
            *counts.entry((case.call, expected.answer.number)).or_default() += 1;
        }
    }
    counts
}

/// Prints how often each number was given, by all calls together.
fn print(counts: &Counts) {
    let games: usize = GAMES.iter().map(|row| row.1).sum::<usize>() * SHARDS as usize;
    let mut by_number: BTreeMap<u32, usize> = BTreeMap::new();
    for ((_, number), count) in counts {
        *by_number.entry(*number).or_default() += count;
    }
    let calls: usize = by_number.values().sum();
    say(format!("{games} games, {calls} calls; answers by number: {by_number:?}"));
}

#[test]
fn library_and_oracle_agree_and_every_refusal_is_reached() {
    let shards: Vec<_> = (0..SHARDS).map(|shard| thread::spawn(move || compare(shard))).collect();
    let mut counts = Counts::new();
    for shard in shards {
        for (answer, count) in shard.join().expect("no case differs") {
            *counts.entry(answer).or_default() += count;
        }
    }
    print(&counts);
    for call in Call::all() {
        let given = |number: &u32| counts.get(&(call, *number)) >= Some(&REACHED);
        let often: Vec<u32> = (0..1000).filter(given).collect();
        let expected: Vec<u32> = [vec![0], call.refusals()].concat();
        assert_eq!(often, expected, "{call:?} gives all of its answers often, and no others");
    }
}

#[test]
fn kinds_agree() {
    for number in (0..1000).chain([u32::MAX - 1, u32::MAX]) {
        assert_eq!(raskjomi::exports::kind(number), Oracle::exact().kind(number), "{number}");
    }
}

/// The library explains exactly the numbers that it gives, and 7 and 9, which it gave before CR 2 and CR 13. Kinds end
/// at 99.
#[test]
fn every_refusal_is_explained() {
    let large = [&LARGE_REFUSALS[..], &REDUCTION_REFUSALS].concat();
    for number in 0..1000 {
        let given = matches!(number, 1..=16 | 21..=24 | 31..=41 | 81..=89 | 91 | 92 | 94..=106);
        assert_eq!(raskjomi::explain(number).is_some(), given, "{number}");
        let kind = Oracle::exact().kind(number);
        let of_calls = number <= 41 || large.contains(&number);
        let known = (1..=4).contains(&kind) || of_calls && (kind == 5 || number > 99);
        assert_eq!(given, known, "{number}");
    }
}
