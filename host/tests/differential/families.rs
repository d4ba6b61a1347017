//! Families of games with many passes, as Even's and as Odd's, and sizes near a multiple of 64, where a row
//! of marks fills its words of bits.

use crate::calls::{Call, Case};
use crate::limits::{agree, exact_memory};
use crate::repeats::all_calls_agree;
use generator::{chain, fans, random, rings, watched_rings, Lcg, Table};

/// Pairwise coprime lengths.
const TWO: [[usize; 2]; 6] = [[1, 2], [2, 3], [3, 2], [5, 8], [13, 9], [17, 19]];
const SEVERAL: [&[usize]; 4] = [&[2, 3, 5], &[5, 4, 3], &[7, 8, 9], &[3, 5, 2, 7]];

/// The game as each player's.
fn of_each(table: &Table) -> [Table; 2] {
    [0, 1].map(|player| table.clone().owned_by(player))
}

/// The order of a game.
fn order(table: &Table) -> Case {
    Case::on_memory(Call::Order, &table.words(), exact_memory(table))
}

/// Library and oracle give the game so many passes, whoever owns it.
fn takes(table: &Table, passes: usize) {
    for table in of_each(table) {
        let case = order(&table);
        assert_eq!(agree(&case), 0);
        assert_eq!(case.actual().answer.passes as usize, passes, "{table:?}");
    }
}

/// The same for the library alone, where the oracle would take long.
fn takes_many(table: &Table, passes: usize) {
    for table in of_each(table) {
        assert_eq!(order(&table).actual().answer.passes as usize, passes, "{table:?}");
    }
}

#[test]
fn two_rings_take_the_product_of_their_lengths_and_one() {
    for [p, q] in TWO.into_iter().chain([[40, 41], [2, 253]]) {
        takes(&rings(&[p, q]), p * q + 1);
    }
    for [p, q] in [[63, 64], [127, 128], [255, 256]] {
        takes_many(&rings(&[p, q]), p * q + 1);
    }
}

#[test]
fn watchers_change_no_pass() {
    for [p, q] in TWO {
        takes(&watched_rings(p, q, 3), p * q + 1);
    }
    takes(&watched_rings(7, 9, 119), 7 * 9 + 1);
    takes_many(&watched_rings(20, 21, 60), 20 * 21 + 1);
}

#[test]
fn several_rings_take_the_passes_of_each_pair() {
    let passes = |lengths: &[usize]| -> usize {
        let with_earlier = |b: usize| lengths[..b].iter().map(move |p| p * lengths[b] + 1);
        (0..lengths.len()).flat_map(with_earlier).sum()
    };
    for lengths in SEVERAL.into_iter().chain([&[2, 3, 5, 7, 11][..]]) {
        takes(&rings(lengths), passes(lengths));
    }
    for lengths in [[19, 21, 22, 23], [2, 3, 7, 233]] {
        takes_many(&rings(&lengths), passes(&lengths));
    }
}

/// Counters of 15, 16 and 17 bits would take the pass 1 of the second, third and fourth game for the last.
#[test]
fn one_pass_clears_more_marks_than_17_bits_count() {
    for (sizes, cleared) in [
        (&[15; 16][..], 54_000),
        (&[64, 64, 96], 32_768),
        (&[128, 256], 65_536),
        (&[128, 128, 192], 131_072),
    ] {
        let table = fans(sizes);
        takes(&table, 2);
        let alike = sizes.iter().sum::<usize>().pow(2) + sizes.len();
        let marks = order(&table).actual().memory.marks;
        let marked: usize = marks.iter().map(|byte| byte.count_ones() as usize).sum();
        assert_eq!(alike - marked, cleared);
    }
}

#[test]
fn all_calls_agree_on_each_family() {
    let mut lcg = Lcg::new(91);
    let mut games = vec![chain(2), chain(9), chain(70)];
    games.extend(SEVERAL.map(rings));
    games.extend(TWO.map(|lengths| rings(&lengths)));
    games.extend(TWO.map(|[p, q]| watched_rings(p, q, 2)));
    for table in games.iter().flat_map(of_each) {
        all_calls_agree(&table);
        all_calls_agree(&table.shuffled(&mut lcg));
    }
}

#[test]
fn all_calls_agree_near_multiples_of_64() {
    let mut lcg = Lcg::new(92);
    for n in [63, 64, 65, 127, 128, 129, 191, 192, 193, 255, 256, 257] {
        for priorities in [1, 2, 8] {
            all_calls_agree(&random(&mut lcg, n, 2 * n, priorities));
        }
    }
    for n in [320, 383, 385, 448, 511, 512] {
        all_calls_agree(&random(&mut lcg, n, 2 * n, 8));
    }
}
