//! The two measured in one run, on the same input, by the same loop, through a call that is not inlined.
//!
//! Each table row is the best of many runs, which alternate between the two. It is a measurement, and no test.
mod artifacts;
mod memory;
mod numbers;
mod plot;
mod positions;
mod text;
mod written;

pub use plot::draw;
use std::hint::black_box;
use std::time::{Duration, Instant};

/// Bytes of an input, where that is not said otherwise.
const SIZE: usize = 1_000_000;
const RUNS: usize = 200;

/// The best of many runs of each, taken in turn: first the original's, then ours.
fn best(mut theirs: impl FnMut() -> u64, mut ours: impl FnMut() -> u64) -> [Duration; 2] {
    let mut least = [Duration::MAX; 2];
    for _ in 0..RUNS {
        let sums = [0, 1].map(|side| {
            let start = Instant::now();
            let sum = black_box(if side == 0 { theirs() } else { ours() });
            least[side] = least[side].min(start.elapsed());
            sum
        });
        assert_eq!(sums[0], sums[1], "the two read or wrote different things");
    }
    least
}

fn row(what: &str, items: usize, least: [Duration; 2]) {
    let [theirs, ours] = least.map(|t| t.as_secs_f64() * 1e9 / items as f64);
    println!("| {what:<38} | {theirs:>10.3} | {ours:>10.3} | {:>6.2} |", theirs / ours);
}

pub fn all() {
    println!("| {:<38} | {:>10} | {:>10} | {:>6} |", "nanoseconds an item, best of runs", "Rust", "ours", "ratio");
    println!("|{:-<40}|{:->12}|{:->12}|{:->8}|", "", ":", ":", ":");
    numbers::all();
    text::all();
    positions::all();
    artifacts::all();
    written::all();
    println!();
    artifacts::memory();
}
