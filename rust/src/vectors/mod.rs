//! What ../vectors has, and whether the proved functions answer it so. The first case that is answered otherwise is said, and ends
//! the run.
mod artifacts;
mod recipe;
mod rewritten;
mod tables;

use std::path::Path;

pub fn all(folder: &Path) {
    let text = |name: &str| std::fs::read_to_string(folder.join(name)).unwrap();
    let cases = text("cases.txt");
    artifacts::all(&cases, &text("answers.txt"));
    rewritten::all(&cases, &text("rewritten.txt"));
    tables::all(&text("tables.txt"), &text("written.txt"));
}

fn bytes(digits: &str) -> Vec<u8> {
    (0..digits.len()).step_by(2).map(|k| u8::from_str_radix(&digits[k..k + 2], 16).unwrap()).collect()
}

fn hex(bytes: &[u8]) -> String {
    bytes.iter().map(|b| format!("{b:02x}")).collect()
}

/// FNV-1a of 64 bits, in hexadecimal.
fn digest(bytes: &[u8]) -> String {
    let hash = bytes.iter().fold(0xcbf2_9ce4_8422_2325, |hash: u64, &b| (hash ^ u64::from(b)).wrapping_mul(0x0100_0000_01b3));
    format!("{hash:016x}")
}

fn fail(what: &str, theirs: &str, ours: &str) -> ! {
    println!("{what}: the vectors have\n{theirs}\nours is\n{ours}");
    std::process::exit(1);
}
