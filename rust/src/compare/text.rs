//! UTF-8, beside `core::str::from_utf8`.
use super::{report, same};
use crate::ours::numbers::is_utf8;
use beside::inputs::{every_byte, mixed_text, strings, Random, TEXT_EDGES};

pub fn all() {
    short_texts();
    edge_texts();
    long_texts();
}

fn text(s: &[u8]) {
    same("UTF-8", s, core::str::from_utf8(s).is_ok(), is_utf8(s));
}

fn short_texts() {
    let alphabet = every_byte();
    let mut count = 0;
    for n in 0..=3 {
        strings(n, &alphabet, |s| {
            text(s);
            count += 1;
        });
    }
    report("UTF-8 of every string of up to 3 bytes", count, count);
}

fn edge_texts() {
    let mut count = 0;
    strings(4, &TEXT_EDGES, |s| {
        text(s);
        count += 1;
    });
    report("UTF-8 of every string of 4 bytes at the edges", count, count);
}

/// Longer ones, as they are, cut, and with a byte changed: text passes in blocks, which short strings do not reach.
fn long_texts() {
    let mut random = Random::new(4);
    let (count, mut answers) = (100_000, 0);
    for _ in 0..count {
        let size = random.below(300) as usize;
        let mut s = vec![b'a'; random.below(200) as usize];
        s.extend_from_slice(mixed_text(size, &mut random).as_bytes());
        text(&s);
        s.truncate(random.below(s.len() as u64 + 1) as usize);
        text(&s);
        if !s.is_empty() {
            let k = random.below(s.len() as u64) as usize;
            s[k] = random.next() as u8;
            text(&s);
            answers += 1;
        }
        answers += 2;
    }
    report("UTF-8 of texts of up to some 500 bytes, whole, cut and changed", count, answers);
}
