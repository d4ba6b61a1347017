//! A reducer that is done when it is done: the reduced game, reduced again, is the same words.

use crate::limits::exact_memory;
use crate::minimal::{game, total_games};
use crate::winners::reduced;
use generator::{any_game, Lcg, Table};
use oracle::{Memory, Oracle};
use raskjomi::{Refusal, Size};

/// A call that writes the table of a game of classes.
type Write = fn(&[u16], &mut [u8], &mut [u8], &mut [u16], &mut [u16]) -> Result<Size, Refusal>;

/// The written table, and the class of each vertex.
fn written(call: Write, words: &[u16]) -> (Vec<u16>, Vec<u16>) {
    let Memory { mut marks, mut spare, mut classes, mut output, .. } =
        exact_memory(&Table::from_words(words));
    let size = call(words, &mut marks, &mut spare, &mut classes, &mut output)
        .expect("a whole game and memory of the right lengths");
    output.truncate(size.words());
    (output, classes)
}

/// The call again, on what it wrote, writes the same, each vertex its own class.
fn is_fixed(call: Write, table: &Table) {
    let (once, _) = written(call, &table.words());
    let (twice, classes) = written(call, &once);
    assert_eq!(twice, once, "{table:?}");
    assert_eq!(classes, (0..once[0]).collect::<Vec<u16>>(), "{table:?}");
}

/// All small games, and random ones.
fn games() -> Vec<Table> {
    let mut lcg = Lcg::new(31);
    let mut games = total_games();
    for (most, count) in [(8, 1000), (30, 300), (100, 40), (256, 10), (512, 4)] {
        games.extend((0..count).map(|_| any_game(&mut lcg, most)));
    }
    games
}

#[test]
fn reduced_again_the_words_are_the_same() {
    games().iter().for_each(|table| is_fixed(raskjomi::reduce, table));
}

#[test]
fn the_quotient_of_a_quotient_is_the_same_words() {
    games().iter().for_each(|table| is_fixed(raskjomi::quotient, table));
}

#[test]
fn a_quotient_can_still_be_reduced() {
    let smaller = games().into_iter().filter(|table| {
        let (quotient, _) = written(raskjomi::quotient, &table.words());
        written(raskjomi::reduce, &quotient).0 != quotient
    });
    assert!(smaller.count() > 100, "many quotients have an edge to a little brother");
}

#[test]
fn classes_compare_as_their_members_do() {
    let mut lcg = Lcg::new(32);
    for _ in 0..600 {
        let table = any_game(&mut lcg, 12);
        let (small, classes) = reduced(&table);
        let order = Oracle::exact().order_of(&game(&table)).0;
        let of_classes = Oracle::exact().order_of(&game(&small)).0;
        for v in 0..table.n() {
            for w in 0..table.n() {
                let (c, d) = (classes[v] as usize, classes[w] as usize);
                assert_eq!(order.has(v, w), of_classes.has(c, d), "{v} and {w} of {table:?}");
                let mutual = of_classes.has(c, d) && of_classes.has(d, c);
                assert_eq!(mutual, c == d, "{c} and {d} of {small:?}");
            }
        }
    }
}
