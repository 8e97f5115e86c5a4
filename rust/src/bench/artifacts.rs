//! Whole artifacts, an item being a byte of the file.
//!
//! What the original makes of a string or a value is a stand-in's here, and `verify` is left out, so this is near what it takes,
//! and not the same.
use super::memory::used;
use super::{best, row, SIZE};
use crate::ours::artifact as ours;
use beside::artifact::WIDTHS;
use beside::inputs::artifacts::measured::{file, with_positions, Of};
use beside::inputs::artifacts::Style::{self, Any, Plain};
use beside::original::artifact::{read, OWN_MASK};
use rhai_grain::{settings, Program};
use std::hint::black_box;
use std::time::Duration;

/// The bytes that are read or written in one run, in as many calls as that takes.
pub const RUN: usize = SIZE / 10;

/// Tables that have the places a file needs.
pub fn places(bytes: &[u8]) -> [Vec<u64>; 13] {
    let used = read(bytes, OWN_MASK).used();
    std::array::from_fn(|k| vec![0u64; used[k] * WIDTHS[k]])
}

/// Whether the original looks for each instruction in the position table, which it walks from its front, as it does unless it
/// is told not to.
#[derive(Clone, Copy)]
pub struct Walk(pub bool);

/// Answers the best times, and the bytes that each of them read.
pub fn measure(bytes: &[u8], walk: Walk) -> ([Duration; 2], usize) {
    let mut tables = places(bytes);
    let calls = (RUN / bytes.len()).max(1);
    settings::know_flags(None);
    settings::walk_code(walk.0);
    let theirs = || (0..calls).map(|_| u64::from(black_box(Program::read(black_box(bytes))).is_ok())).sum();
    let ours = || {
        let read = |_| u64::from(ours::read(black_box(bytes), OWN_MASK, tables.each_mut().map(|table| &mut table[..]))[0] == 0);
        (0..calls).map(read).sum()
    };
    (best(theirs, ours), calls * bytes.len())
}

fn timed(what: &str, bytes: &[u8], walk: Walk) {
    let (least, items) = measure(bytes, walk);
    row(&format!("{what}, {} bytes, a byte", bytes.len()), items, least);
}

const STRIPPED: [(&str, Of, Style, usize); 15] = [
    ("plain", Of::All, Plain, 10_000),
    ("plain", Of::All, Plain, 100_000),
    ("plain", Of::All, Plain, 500_000),
    ("any widths", Of::All, Any, 10_000),
    ("any widths", Of::All, Any, 100_000),
    ("any widths", Of::All, Any, 500_000),
    ("names", Of::Names, Plain, 100_000),
    ("constants", Of::Constants, Plain, 100_000),
    ("tokens", Of::Tokens, Plain, 100_000),
    ("assigns", Of::Assigns, Plain, 100_000),
    ("chains", Of::Chains, Plain, 100_000),
    ("switches", Of::Switches, Plain, 100_000),
    ("custom sites", Of::Sites, Plain, 100_000),
    ("functions", Of::Functions, Plain, 100_000),
    ("code", Of::Code, Plain, 100_000),
];

pub fn all() {
    for (what, of, style, size) in STRIPPED {
        timed(what, &file(of, style, size), Walk(true));
    }
    for (what, walk) in [("positions", Walk(true)), ("positions, no walk", Walk(false))] {
        for instructions in [100, 1_000, 2_000] {
            timed(what, &with_positions(instructions), walk);
        }
    }
}

/// What is lent, where the tables have exactly the places that the file needs, and what the original takes from its allocator.
pub fn memory() {
    println!("| {:<38} | {:>10} | {:>11} | {:>10} |", "bytes of memory", "Rust holds", "allocations", "ours, lent");
    println!("|{:-<40}|{:->12}|{:->13}|{:->12}|", "", ":", ":", ":");
    for (what, of, style, size) in STRIPPED {
        let bytes = file(of, style, size);
        let theirs = used(|| Program::read(&bytes).unwrap());
        let lent: usize = places(&bytes).iter().map(|table| 8 * table.len()).sum();
        let what = format!("{what}, {} bytes", bytes.len());
        println!("| {what:<38} | {:>10} | {:>11} | {lent:>10} |", theirs.held, theirs.asked);
    }
}
