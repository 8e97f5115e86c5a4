//! The proved functions beside the original: compared and measured, and beside the answers of ../vectors.
mod bench;
mod compare;
mod ours;
mod stack;
mod vectors;

use compare::Seeded;
use std::path::Path;

/// The artifacts of a seed that every comparison ends with.
const SHORT: Seeded = Seeded { count: 10_000, seed: 1 };

fn usage() -> ! {
    eprintln!("usage: beside compare [artifacts | --million [SEED]] | beside bench | beside plot FILE | beside stack | beside vectors FOLDER");
    std::process::exit(2);
}

fn main() {
    let words: Vec<String> = std::env::args().skip(1).collect();
    let words: Vec<&str> = words.iter().map(String::as_str).collect();
    match words[..] {
        ["compare"] => compare::all(SHORT),
        ["compare", "artifacts"] => compare::artifacts(SHORT),
        ["compare", "--million"] => compare::all(Seeded { count: 1_000_000, ..SHORT }),
        ["compare", "--million", seed] => {
            let seed = seed.parse().unwrap_or_else(|_| usage());
            compare::all(Seeded { count: 1_000_000, seed });
        }
        ["bench"] => bench::all(),
        ["stack"] => stack::all(),
        ["plot", file] => bench::draw(Path::new(file)),
        ["vectors", folder] => vectors::all(Path::new(folder)),
        _ => usage(),
    }
}
