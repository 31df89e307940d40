//! What the benchmarks share: the pass that times are set against, and the median.

use std::hint::black_box;
use std::time::{Duration, Instant};

/// Rounds of a pass, and the least time of a round.
const ROUNDS: usize = 101;
const ROUND_TIME: Duration = Duration::from_micros(20);

/// A pass over a memory: one plain sum of all its numbers, wrapping, as rustc compiles it with
/// opt-level 3 (Cargo.toml sets it). That is LLVM's summing loop, which adds several numbers at
/// once.
#[inline(never)]
pub fn pass(memory: &[u32]) -> u32 {
    let numbers = memory.iter();
    numbers.fold(0, |sum: u32, &number| sum.wrapping_add(number))
}

/// The nanoseconds of a pass: the least of the rounds, each of as many passes as take long enough to
/// be timed.
pub fn pass_time(memory: &[u32]) -> f64 {
    assert!(!cfg!(debug_assertions), "benchmarks are run with --release");
    let round = |passes: u32| {
        let start = Instant::now();
        for _ in 0..passes {
            black_box(pass(black_box(memory)));
        }
        start.elapsed()
    };
    let doubled = (0..).map(|i| 1 << i);
    let mut long_enough = doubled.filter(|&passes| round(passes) >= ROUND_TIME);
    let passes = long_enough.next().expect("some number is enough");
    let least = (0..ROUNDS).map(|_| round(passes)).min();
    least.unwrap_or_default().as_nanos() as f64 / f64::from(passes)
}

pub fn median(mut times: Vec<f64>) -> f64 {
    times.sort_by(f64::total_cmp);
    times[times.len() / 2]
}
