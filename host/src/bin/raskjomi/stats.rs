//! What `reduce` tells of a run: sizes before and after, and what was measured.

use crate::tell;
use raskjomi::{LargeGame, Size};
use std::fs;
use std::iter::Sum;
use std::time::{Duration, Instant};

/// The steps of a run, each with the time that it took.
#[derive(Default)]
pub struct Steps {
    taken: Vec<(&'static str, Duration)>,
}

impl Steps {
    /// Runs a step.
    pub fn time<T>(&mut self, step: &'static str, run: impl FnOnce() -> T) -> T {
        let start = Instant::now();
        let result = run();
        self.taken.push((step, start.elapsed()));
        result
    }

    fn told(&self) -> String {
        let told = |(step, time): &(&str, Duration)| format!("{step} {}", milliseconds(*time));
        self.taken.iter().map(told).collect::<Vec<String>>().join(", ")
    }
}

/// The numbers of vertices and of different edges.
#[derive(Clone, Copy, Debug, Default)]
pub struct Sizes {
    pub vertices: usize,
    pub edges: usize,
}

impl From<Size> for Sizes {
    fn from(size: Size) -> Sizes {
        Sizes { vertices: size.vertices, edges: size.different }
    }
}

impl From<&LargeGame> for Sizes {
    fn from(game: &LargeGame) -> Sizes {
        let mut edges: Vec<(u32, u32)> = game.edges().collect();
        edges.sort_unstable();
        edges.dedup();
        Sizes { vertices: game.size().vertices, edges: edges.len() }
    }
}

impl Sum for Sizes {
    fn sum<I: Iterator<Item = Sizes>>(all: I) -> Sizes {
        all.fold(Sizes::default(), |sum, sizes| Sizes {
            vertices: sum.vertices + sizes.vertices,
            edges: sum.edges + sizes.edges,
        })
    }
}

/// A game that was reduced: what is written of it, and what is told.
pub struct Outcome {
    pub output: Vec<u8>,
    /// Of a game above the limits, counted where it is told.
    pub before: Sizes,
    pub after: Sizes,
    /// The passes of the order, where the game was reduced by it and they are asked for.
    pub passes: Option<u32>,
    pub steps: Steps,
}

impl Outcome {
    /// Tells sizes, passes and times on standard error.
    pub fn tell(&self, name: &str) {
        let Outcome { before, after, steps, .. } = self;
        let passes = self.passes.map_or(String::new(), |passes| format!("passes {passes}; "));
        let steps = steps.told();
        tell(&format!(
            "{name}: vertices {} before and {} after, different edges {} before and {} after; {passes}measured in this run: {steps}",
            before.vertices, after.vertices, before.edges, after.edges
        ));
    }
}

/// Tells the time since a start, and the memory, on standard error.
pub fn tell_run(start: Instant) {
    let memory = peak_memory()
        .map_or(String::new(), |kib| format!(", at most {:.1} MiB of memory", kib as f64 / 1024.0));
    tell(&format!("measured in this run: all {}{memory}", milliseconds(start.elapsed())));
}

fn milliseconds(time: Duration) -> String {
    format!("{:.1} ms", 1000.0 * time.as_secs_f64())
}

/// The most KiB of memory that this process had, where the system has a file that tells it.
fn peak_memory() -> Option<u64> {
    let status = fs::read_to_string("/proc/self/status").ok()?;
    let line = status.lines().find_map(|line| line.strip_prefix("VmHWM:"))?;
    line.trim().strip_suffix(" kB")?.parse().ok()
}
