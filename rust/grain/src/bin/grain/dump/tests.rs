//! Files that were changed at random: whatever is accepted can be dumped, and its JSON is valid.
use super::{json, text, View};
use crate::sample;
use grain::{OwnedArtifact, StepFlags};
use std::io::Write;
use std::process::{Command, Stdio};

/// Numbers that look random and are the same in every run (xorshift).
struct Numbers(u64);

impl Numbers {
    fn below(&mut self, limit: usize) -> usize {
        self.0 ^= self.0 << 13;
        self.0 ^= self.0 >> 7;
        self.0 ^= self.0 << 17;
        (self.0 % limit as u64) as usize
    }
}

/// The sample with up to three bytes changed.
fn changed(numbers: &mut Numbers) -> Vec<u8> {
    let mut bytes = sample::artifact();
    for _ in 0..=numbers.below(3) {
        let at = numbers.below(bytes.len());
        bytes[at] = numbers.below(256) as u8;
    }
    bytes
}

/// The JSON of what is accepted, a line each. The text is dumped too, and must not fail.
fn dumped(runs: usize) -> Vec<u8> {
    let mut numbers = Numbers(0x9E37_79B9_7F4A_7C15);
    let mut lines = Vec::new();
    for _ in 0..runs {
        let Ok(owned) = OwnedArtifact::read(changed(&mut numbers), StepFlags(0xFF)) else { continue };
        let view = View::new(owned.artifact());
        text::write(&view, &mut std::io::sink()).unwrap();
        json::write(&view, &mut lines).unwrap();
    }
    lines
}

#[test]
fn json_is_valid_whatever_was_accepted() {
    let lines = dumped(20_000);
    let count = lines.iter().filter(|byte| **byte == b'\n').count();
    assert!(count > 2_000, "only {count} were accepted");
    let program = "import json, sys; print(sum(1 for line in sys.stdin.buffer if json.loads(line)))";
    let python = Command::new("python3").args(["-c", program]).stdin(Stdio::piped()).stdout(Stdio::piped()).spawn();
    let mut python = python.expect("python3 reads the JSON back");
    python.stdin.take().unwrap().write_all(&lines).unwrap();
    let said = python.wait_with_output().unwrap();
    assert_eq!(String::from_utf8_lossy(&said.stdout).trim(), count.to_string());
}
