//! Times and stack.

use raskjomi::exports::RaskjomiAnswer;
use std::array::from_fn;
use std::fs;
use std::hint::black_box;
use std::thread;
use std::time::{Duration, Instant};

/// How long the calls of a side take in all, at the least. A side that takes longer is called once.
const A_SIDE: Duration = Duration::from_millis(500);

/// How long a batch of calls takes, about. A longer call is a batch.
const A_BATCH: Duration = Duration::from_micros(50);
/// A batch that takes longer counts by the time on the processor, so that other work beside it doesn't count.
const LONG: Duration = Duration::from_millis(20);
/// The least number of batches.
const BATCHES: u32 = 12;

/// A side's first call.
pub struct First {
    pub answer: RaskjomiAnswer,
    pub time: Duration,
    /// The stack that the call's thread has in memory afterwards, in KiB: no less than the call needs.
    /// `None` where the system doesn't tell.
    pub stack: Option<usize>,
}

/// Makes a side's first call, on a thread of its own.
pub fn first(call: impl FnOnce() -> RaskjomiAnswer + Send) -> First {
    let busy = || {
        let (answer, time) = timed(call);
        First { answer, time, stack: resident_stack() }
    };
    thread::scope(|scope| scope.spawn(busy).join().expect("the call returns"))
}

/// The best time of each side. After their first calls the sides are called in turn, so that all meet the
/// same load.
pub fn best_times<const N: usize>(
    first: [Duration; N],
    mut call: impl FnMut(usize) -> RaskjomiAnswer,
) -> [Duration; N] {
    let (mut best, mut spent) = (first, first);
    while spent.iter().any(|&spent| spent < A_SIDE) {
        for side in 0..N {
            if spent[side] < A_SIDE {
                let time = timed(|| call(side)).1;
                best[side] = best[side].min(time);
                spent[side] += time;
            }
        }
    }
    best
}

/// The best time of a call by each side. The sides are called in turn, a batch of calls each time, until each has taken
/// as long as `span`, in as many batches as there are to be.
pub fn best_of_batches<const N: usize>(
    span: Duration,
    mut call: impl FnMut(usize) -> RaskjomiAnswer,
) -> [Duration; N] {
    let once: [Duration; N] = from_fn(|side| timed(|| call(side)).1);
    let calls = once.map(|time| (A_BATCH.as_nanos() / time.as_nanos().max(1)).clamp(1, 64) as u32);
    let (mut best, mut spent, mut turns) = (once, [Duration::ZERO; N], 0);
    while turns < BATCHES || spent.iter().any(|&spent| spent < span) {
        for side in 0..N {
            let (busy, start) = (on_processor(), Instant::now());
            (0..calls[side]).for_each(|_| _ = black_box(call(side)));
            let mut time = start.elapsed();
            if let (true, Some(before), Some(now)) = (time > LONG, busy, on_processor()) {
                time = time.min(now - before);
            }
            best[side] = best[side].min(time / calls[side]);
            spent[side] += time;
        }
        turns += 1;
    }
    best
}

/// The call's answer, and how long it takes.
pub fn timed(call: impl FnOnce() -> RaskjomiAnswer) -> (RaskjomiAnswer, Duration) {
    let start = Instant::now();
    let answer = black_box(call());
    (answer, start.elapsed())
}

/// How long this thread was on a processor, as Linux tells, to a few milliseconds.
fn on_processor() -> Option<Duration> {
    let told = fs::read_to_string("/proc/thread-self/schedstat").ok()?;
    told.split(' ').next()?.parse().ok().map(Duration::from_nanos)
}

/// The KiB of this thread's stack that are in memory, as Linux tells.
fn resident_stack() -> Option<usize> {
    let here = 0u8;
    let address = black_box(&here) as *const u8 as usize;
    let maps = fs::read_to_string("/proc/self/smaps").ok()?;
    let mut inside = false;
    for line in maps.lines() {
        if let Some(range) = line.split(' ').next().and_then(|word| word.split_once('-')) {
            let bound = |digits: &str| usize::from_str_radix(digits, 16).ok();
            let (Some(start), Some(end)) = (bound(range.0), bound(range.1)) else { continue };
            inside = (start..end).contains(&address);
        } else if let (true, Some(size)) = (inside, line.strip_prefix("Rss:")) {
            return size.trim().strip_suffix(" kB")?.parse().ok();
        }
    }
    None
}
