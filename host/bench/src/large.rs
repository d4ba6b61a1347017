//! The check of solutions of games of any size beside its baseline, how its time grows, and beside it the maker of
//! certificates and the reader of files.

use crate::{baseline, measure};
use generator::{
    large_loops, large_nested, large_random, solve_large, LargeTable, LargeWords, Lcg,
};
use raskjomi::exports::{self, RaskjomiAnswer};
use raskjomi::large::{read_game, write_game, Identifiers};
use raskjomi::{LargeGame, LargeSolution};
use std::fs::{self, File};
use std::io;
use std::path::Path;
use std::process::Command;
use std::time::{Duration, Instant};

/// A call that checks a solution.
type Check = fn(&[u32], &[u32], &[u32]) -> RaskjomiAnswer;
/// A call that reads a game.
type Read = fn(&[u32]) -> RaskjomiAnswer;

const CHECK: [Check; 2] = [exports::large_solution, baseline::large_solution];
const READ: [Read; 2] = [exports::large_read, baseline::large_read];

/// About so many edges has a game of each family.
pub const EDGES: [usize; 4] = [10_000, 100_000, 1_000_000, 10_000_000];
/// Of these the growth is told.
pub const GROWTH: (usize, usize) = (1, 3);

/// A family's name, and its game of about so many edges.
type Family = (&'static str, fn(&mut Lcg, usize) -> LargeTable);

/// In files edges stand by source, and so they do in the first of the random games.
const FAMILIES: [Family; 4] = [
    ("random", |lcg, m| large_random(lcg, m / 5, m, 10).by_source()),
    ("nested loops", |lcg, m| large_nested(lcg, m / 2)),
    ("loops only", |lcg, m| large_loops(lcg, m, 10)),
    ("random, any sequence", |lcg, m| large_random(lcg, m / 5, m, 10)),
];

/// The best times of library and baseline, and of the maker.
struct Times {
    m: usize,
    check: [Duration; 2],
    read: [Duration; 2],
    make: Duration,
}

/// A game with its solution, and the certificate that the library makes, with the maker's best time.
fn certified(game: &LargeTable) -> (LargeWords, Duration) {
    let solution = solve_large(game).words();
    let large = LargeGame::new(game.words()).expect("the reader accepts the game");
    let solved = LargeSolution::from_words(solution.clone());
    let mut certificate = None;
    let make = best(|| certificate = large.certify(&solved).ok());
    let certificate = certificate.expect("the solution is right").words().to_vec();
    (LargeWords { game: game.words(), solution, certificate }, make)
}

/// Whether work that was done so often and took so long in all is to be done again: until it has taken half a
/// second, and so often at the least.
fn goes_on(times: usize, least: usize, spent: Duration) -> bool {
    times < least || spent < Duration::from_millis(500)
}

/// The best time of what is done three times or more.
pub fn best(mut work: impl FnMut()) -> Duration {
    let (mut best, mut spent, mut times) = (Duration::MAX, Duration::ZERO, 0);
    while goes_on(times, 3, spent) {
        let start = Instant::now();
        work();
        let time = start.elapsed();
        (best, spent, times) = (best.min(time), spent + time, times + 1);
    }
    best
}

/// The best times of library and baseline, which are called in turn, ten times or more. Both give this answer.
pub fn sides(number: u32, call: impl Fn(usize) -> RaskjomiAnswer) -> [Duration; 2] {
    let (mut best, mut spent, mut times) = ([Duration::MAX; 2], Duration::ZERO, 0);
    while goes_on(times, 10, spent) {
        let [library, baseline] = [0, 1].map(|side| measure::timed(|| call(side)));
        assert_eq!(library.0, baseline.0, "answers differ");
        assert_eq!(library.0.number, number, "the answer");
        best = [best[0].min(library.1), best[1].min(baseline.1)];
        (spent, times) = (spent + library.1.min(baseline.1), times + 1);
    }
    best
}

fn check_times(number: u32, words: &LargeWords) -> [Duration; 2] {
    let LargeWords { game, solution, certificate } = words;
    sides(number, |side| CHECK[side](game, solution, certificate))
}

pub fn millis(time: Duration) -> f64 {
    time.as_secs_f64() * 1e3
}

pub fn ratio(times: [Duration; 2]) -> f64 {
    times[0].as_secs_f64() / times[1].as_secs_f64()
}

/// Measures a game and prints its line.
fn show_row(name: &str, game: &LargeTable) -> Times {
    let (words, make) = certified(game);
    let check = check_times(0, &words);
    let read = sides(0, |side| READ[side](&words.game));
    println!(
        "{name:20} {:>8} {:>8} {:>10.3} {:>10.3} {:>5.2} {:>7.2} {:>10.3} {:>10.3} {:>5.2} {:>9.1} {:>5.1}",
        game.n(),
        game.m(),
        millis(check[0]),
        millis(check[1]),
        ratio(check),
        check[0].as_secs_f64() * 1e9 / game.m() as f64,
        millis(read[0]),
        millis(read[1]),
        ratio(read),
        millis(make),
        ratio([make, check[0]]),
    );
    Times { m: game.m(), check, read, make }
}

/// How many times as long the larger of two rows takes for each edge, for a side.
pub fn growth(small: (usize, Duration), large: (usize, Duration)) -> f64 {
    let each = |(m, time): (usize, Duration)| time.as_secs_f64() / m as f64;
    each(large) / each(small)
}

/// A row for each size of each family, the largest ratios, and the growth.
fn show_families() {
    println!(
        "check of solutions          n        m library ms  safe Rust ratio ns/edge    read ms  safe Rust ratio  maker ms times"
    );
    let (mut largest, mut grown) = ([0f64; 3], Vec::new());
    for (name, family) in FAMILIES {
        let mut lcg = Lcg::new(2040);
        let rows = EDGES.map(|m| show_row(name, &family(&mut lcg, m)));
        for row in &rows {
            let of_row = [ratio(row.check), ratio(row.read), ratio([row.make, row.check[0]])];
            (0..3).for_each(|i| largest[i] = largest[i].max(of_row[i]));
        }
        let (small, large) = (&rows[GROWTH.0], &rows[GROWTH.1]);
        let of = |side: usize| growth((small.m, small.check[side]), (large.m, large.check[side]));
        grown.push((name, of(0), of(1)));
    }
    println!(
        "largest ratio of the check, at most 1.2 asked: {:.2}; of the reader {:.2}",
        largest[0], largest[1]
    );
    println!("the maker takes at most {:.1} times as long as the check", largest[2]);
    for (name, library, baseline) in grown {
        println!("{name}: time for each edge at 10^7 edges over that at 10^5, at most 1.3 asked: {library:.2} (safe Rust {baseline:.2})");
    }
}

/// What a crafted certificate says of a place: its priority, and the end of its run.
type Crafted = fn(usize, usize) -> (usize, usize);

/// Loops of Even's in the sequence of their numbers. Priorities rise in all but the third, so that the longest runs
/// go on to the last place. The second and the third take quadratic time where runs are passed that aren't
/// judged yet.
const CRAFTED: [(&str, u32, Crafted); 4] = [
    ("longest runs", 0, |n, i| (2 * i, n - 1)),
    ("ends in turns", 88, |n, i| match (i < n / 2, i % 2) {
        (true, 0) => (2 * i, n - 1),
        (true, _) => (2 * i, n / 2 - 1),
        _ => (2 * i, i),
    }),
    ("runs across", 88, |n, i| match (i < n / 2, i % 2) {
        (true, 0) => (4 * i, n - 1),
        (true, _) => (4 * i, n / 2 + i / 2 - 1),
        _ => (8 * (i - n / 2) + 2, i),
    }),
    ("first run too short", 88, |n, i| (2 * i, if i == 0 { 0 } else { n - 1 })),
];

/// A game of n loops with a crafted certificate.
fn crafted(n: usize, of: Crafted) -> LargeWords {
    let numbers = || 0..n as u32;
    let loops = numbers().map(|v| (v, v)).collect();
    let priorities = (0..n).map(|i| of(n, i).0 as u32).collect();
    let game = LargeTable { priorities, owners: vec![0; n], edges: loops };
    let ends = (0..n).map(|i| of(n, i).1 as u32);
    LargeWords {
        game: game.words(),
        solution: vec![0; n].into_iter().chain(numbers()).collect(),
        certificate: numbers().chain(numbers()).chain(ends).collect(),
    }
}

/// Crafted certificates: the time for each vertex stays as it is where the vertices are doubled.
fn show_crafted() {
    println!("\ncrafted certificate         n library ms  safe Rust ratio ns/vertex");
    for (name, number, of) in CRAFTED {
        for n in [20_000, 40_000, 80_000] {
            let times = check_times(number, &crafted(n, of));
            println!(
                "{name:20} {n:>8} {:>10.3} {:>10.3} {:>5.2} {:>9.2}",
                millis(times[0]),
                millis(times[1]),
                ratio(times),
                times[0].as_secs_f64() * 1e9 / n as f64
            );
        }
    }
}

/// The best times of the reader of files and of `wc -w`, in turn, on a file that has the words of a game.
fn file_times(file: &Path, n: usize) -> [Duration; 2] {
    let read = || read_game(File::open(file).expect("the file is there"), None, true);
    let count = || Command::new("wc").arg("-w").arg(file).output();
    let mut times = [Duration::MAX; 2];
    for _ in 0..7 {
        let start = Instant::now();
        let game = read().expect("the file has a game");
        let between = Instant::now();
        assert!(count().is_ok_and(|output| output.status.success()), "wc -w counts");
        times = [times[0].min(between - start), times[1].min(between.elapsed())];
        assert_eq!(game.words[0] as usize, n, "the file has the game");
    }
    times
}

/// A number of bytes that Linux tells of this process.
pub fn told(name: &str) -> Option<usize> {
    let status = fs::read_to_string("/proc/self/status").ok()?;
    let line = status.lines().find_map(|line| line.strip_prefix(name))?;
    Some(1024 * line.trim().strip_suffix(" kB")?.parse::<usize>().ok()?)
}

/// Reads the game of a file and prints how many bytes of memory that takes at most, if the system tells it. A process
/// of its own does this, in which no other memory was used.
pub fn tell_memory(file: &str) -> io::Result<()> {
    let (input, before) = (File::open(file)?, told("VmRSS:"));
    let game = read_game(input, None, true).map_err(io::Error::other)?;
    if let (Some(before), Some(most)) = (before, told("VmHWM:")) {
        println!("{}", most.saturating_sub(before));
    }
    drop(game);
    Ok(())
}

/// What another process prints that does this with a file: the bytes of memory that it takes.
pub fn most_bytes(what: &str, file: &Path) -> Option<usize> {
    let program = std::env::current_exe().ok()?;
    let output = Command::new(program).arg(what).arg(file).output().ok()?;
    String::from_utf8(output.stdout).ok()?.trim().parse().ok()
}

/// Works on a file of the game, which is removed afterwards.
pub fn with_file<T>(game: &LargeTable, work: impl FnOnce(&Path) -> io::Result<T>) -> io::Result<T> {
    let file = std::env::temp_dir().join(format!("raskjomi-bench-{}.pg", std::process::id()));
    write_game(File::create(&file)?, &game.words(), &Identifiers::numbers(game.n()), true)?;
    let done = work(&file);
    fs::remove_file(&file).and(done)
}

/// The reader of files beside `wc -w`, on a file that was just written.
fn show_file(name: &str, game: &LargeTable, file: &Path) -> io::Result<()> {
    let megabytes = fs::metadata(file)?.len() as f64 / 1e6;
    let times = file_times(file, game.n());
    let each = |most: usize| format!("{:.1}", most as f64 / game.m() as f64);
    let each = most_bytes("read", file).map_or("-".into(), each);
    println!(
        "{name:20} {:>8} {:>8} {megabytes:>8.1} {:>9.1} {:>9.1} {:>5.2} {:>6.0} {each:>10}",
        game.n(),
        game.m(),
        millis(times[0]),
        millis(times[1]),
        ratio(times),
        megabytes / times[0].as_secs_f64()
    );
    Ok(())
}

fn show_files() -> io::Result<()> {
    println!("\nfile                        n        m       MB   read ms  wc -w ms ratio   MB/s bytes/edge");
    let by_source = &FAMILIES[..3];
    by_source.iter().try_for_each(|(name, family)| {
        let game = family(&mut Lcg::new(2041), EDGES[GROWTH.1]);
        with_file(&game, |file| show_file(name, &game, file))
    })
}

/// All rows.
pub fn show() -> io::Result<()> {
    show_families();
    show_crafted();
    show_files()
}
