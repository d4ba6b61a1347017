//! The check of reductions of games of any size beside its baseline, how its time grows, and beside it the maker of
//! certificates; and the reducer beside a plain one.

use crate::baseline;
use crate::large::{
    best, growth, millis, most_bytes, ratio, sides, told, with_file, EDGES, GROWTH,
};
use generator::{
    classes_by_signatures, large_chains, large_distinct, large_hub, large_uniform, planted,
    quotient_of, LargeTable, Lcg, Planting,
};
use raskjomi::exports::{self, RaskjomiAnswer};
use raskjomi::large::read_game;
use raskjomi::LargeGame;
use std::fs::{self, File};
use std::hint::black_box;
use std::io;
use std::time::Duration;

/// A call that checks a reduction.
type Check = fn(&[u32], &[u32], &[u32], &[u32]) -> RaskjomiAnswer;

const CHECK: [Check; 2] = [exports::large_reduction, baseline::large_reduction];

/// A family's name, its game of about so many edges, and the numbers of edges of those that a plain reducer reduces.
type Family = (&'static str, fn(&mut Lcg, usize) -> LargeTable, [usize; 2]);

const SOME: [usize; 2] = [EDGES[1], EDGES[2]];
/// The plain reducer takes a round for each class of the chains.
const FEW: [usize; 2] = [2_000, 4_000];

/// In files edges stand by source, and so they do in the first of the planted games. About one vertex in ten of those
/// is left.
const FAMILIES: [Family; 6] = [
    ("planted", |lcg, m| tenth(lcg, m).by_source(), SOME),
    ("planted, any sequence", tenth, SOME),
    ("one class", |lcg, m| large_uniform(lcg, m / 5, m).by_source(), SOME),
    ("no merge", |lcg, m| large_distinct(lcg, m / 5, m).by_source(), SOME),
    ("two chains", large_chains, FEW),
    ("hub", |lcg, m| large_hub(lcg, m / 2, 3).by_source(), SOME),
];

/// Each vertex has 5 edges on average.
fn tenth(lcg: &mut Lcg, m: usize) -> LargeTable {
    let n = m / 5;
    planted(lcg, Planting { n, classes: n / 10, degree: 6, copies: 2 }).0
}

/// The best times of library and baseline, and of the maker.
struct Times {
    m: usize,
    check: [Duration; 2],
    make: Duration,
}

fn large(game: &LargeTable) -> LargeGame {
    LargeGame::new(game.words()).expect("the reader accepts the game")
}

/// Measures the check of a game's reduction and prints its line.
fn show_row(name: &str, game: &LargeTable) -> Times {
    let (game, m) = (large(game), game.m());
    let reduction = game.reduce().expect("each vertex has an edge");
    let make = best(|| {
        let (reduced, classes) = (reduction.reduced().clone(), reduction.classes().to_vec());
        let made = black_box(game.certify_reduction(reduced, classes));
        assert!(made.is_ok(), "the classes are a reduction");
    });
    let (reduced, classes) = (reduction.reduced(), reduction.classes());
    let certificate = reduction.certificate();
    let check = sides(0, |side| CHECK[side](game.words(), reduced.words(), classes, certificate));
    println!(
        "{name:21} {:>8} {m:>8} {:>8} {:>8} {:>10.3} {:>10.3} {:>5.2} {:>7.2} {:>9.1} {:>5.1}",
        classes.len(),
        reduced.size().vertices,
        reduced.size().edges,
        millis(check[0]),
        millis(check[1]),
        ratio(check),
        check[0].as_secs_f64() * 1e9 / m as f64,
        millis(make),
        ratio([make, check[0]]),
    );
    Times { m, check, make }
}

/// A row for each size of each family, the largest ratios, and the growth.
fn show_families() {
    println!("\ncheck of reductions          n        m        k        q library ms  safe Rust ratio ns/edge  maker ms times");
    let (mut largest, mut grown) = ([0f64; 2], Vec::new());
    for (name, family, _) in FAMILIES {
        let mut lcg = Lcg::new(2042);
        let rows = EDGES.map(|m| show_row(name, &family(&mut lcg, m)));
        for row in &rows {
            let of_row = [ratio(row.check), ratio([row.make, row.check[0]])];
            (0..2).for_each(|i| largest[i] = largest[i].max(of_row[i]));
        }
        let (small, large) = (&rows[GROWTH.0], &rows[GROWTH.1]);
        let of = |side: usize| growth((small.m, small.check[side]), (large.m, large.check[side]));
        grown.push((name, of(0), of(1)));
    }
    println!("largest ratio of the check, at most 1.2 asked: {:.2}", largest[0]);
    println!("the maker takes at most {:.1} times as long as the check", largest[1]);
    for (name, library, baseline) in grown {
        let beside = library / baseline;
        println!("{name}: time for each edge at 10^7 edges over that at 10^5, at most 1.3 asked: {library:.2} (safe Rust {baseline:.2}, beside it {beside:.2})");
    }
}

/// The reducer, which makes the certificate as well, beside rounds of signatures, which don't.
fn show_reduced(name: &str, game: &LargeTable) {
    let whole = large(game);
    let library = best(|| assert!(black_box(whole.reduce()).is_ok(), "each vertex has an edge"));
    let mut classes = 0;
    let plain = best(|| classes = black_box(quotient_of(game, &classes_by_signatures(game))).n());
    let found = whole.reduce().map(|reduction| reduction.reduced().size().vertices);
    assert_eq!(found, Ok(classes), "both find the same classes");
    println!(
        "{name:21} {:>8} {:>8} {classes:>8} {:>10.1} {:>13.1} {:>7.4} {:>8.1}",
        game.n(),
        game.m(),
        millis(library),
        millis(plain),
        ratio([library, plain]),
        library.as_secs_f64() * 1e9 / game.m() as f64,
    );
}

/// The reducer alone at the largest size, by its growth.
fn show_largest(name: &str, family: fn(&mut Lcg, usize) -> LargeTable) -> io::Result<()> {
    let [small, large_one] =
        [GROWTH.0, GROWTH.1].map(|size| family(&mut Lcg::new(2044), EDGES[size]));
    let time = |game: &LargeTable| {
        let whole = large(game);
        (game.m(), best(|| assert!(black_box(whole.reduce()).is_ok(), "each vertex has an edge")))
    };
    let (small, (m, time)) = (time(&small), time(&large_one));
    let bytes = with_file(&large_one, |file| Ok(most_bytes("reduce", file)))?;
    let each = bytes.map_or("-".into(), |bytes| format!("{:.1}", bytes as f64 / m as f64));
    println!(
        "{name:21} {:>8} {m:>8} {:>10.1} {:>8.1} {:>6.2} {each:>10}",
        large_one.n(),
        millis(time),
        time.as_secs_f64() * 1e9 / m as f64,
        growth(small, (m, time)),
    );
    Ok(())
}

/// Reduces the game of a file and prints how many bytes of memory that takes at most besides the game, if the system
/// tells it: the classes, the reduced game and the certificate are among them.
pub fn tell_memory(file: &str) -> io::Result<()> {
    let read = read_game(File::open(file)?, None, true).map_err(io::Error::other)?;
    let game = LargeGame::new(read.words).map_err(io::Error::other)?;
    // The most memory from here on.
    fs::write("/proc/self/clear_refs", "5")?;
    let before = told("VmRSS:");
    let reduction = game.reduce().map_err(io::Error::other)?;
    if let (Some(before), Some(most)) = (before, told("VmHWM:")) {
        println!("{}", most.saturating_sub(before));
    }
    drop(reduction);
    Ok(())
}

/// All rows.
pub fn show() -> io::Result<()> {
    show_families();
    println!("\nreducer                      n        m        k library ms signatures ms   ratio  ns/edge");
    for (name, family, sizes) in FAMILIES {
        sizes.iter().for_each(|&m| show_reduced(name, &family(&mut Lcg::new(2043), m)));
    }
    println!("\nreducer alone                n        m library ms  ns/edge growth bytes/edge");
    FAMILIES.iter().try_for_each(|(name, family, _)| show_largest(name, *family))
}
