//! Each comparison prints one line; the first difference is printed with its input, and ends the run with status 1.
mod artifacts;
mod debug_id;
mod encode;
mod numbers;
mod positions;
mod text;

pub use artifacts::Seeded;
use std::fmt::Debug;

pub fn all(seeded: Seeded) {
    numbers::all();
    text::all();
    positions::all();
    encode::all();
    debug_id::all();
    artifacts(seeded);
}

pub fn artifacts(seeded: Seeded) {
    artifacts::all(seeded);
    println!("no difference");
}

fn report(what: &str, inputs: u64, answers: u64) {
    println!("{what}: {inputs} inputs, {answers} answers agree");
}

/// What it is of, and its input, where the two differ.
fn same<T: PartialEq + Debug>(what: &str, input: impl Debug, original: T, ours: T) {
    if original != ours {
        println!("{what} of {input:02x?}: the original has {original:02x?}, ours {ours:02x?}");
        std::process::exit(1);
    }
}
