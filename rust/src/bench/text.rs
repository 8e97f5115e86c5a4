//! UTF-8, an item being a byte.
use super::{best, row, SIZE};
use crate::ours::numbers as ours;
use beside::inputs::{mixed_text, Random};
use std::hint::black_box;

/// The original behind our signature.
#[inline(never)]
unsafe extern "C" fn theirs(bytes: *const u8, len: usize) -> bool {
    core::str::from_utf8(std::slice::from_raw_parts(bytes, len)).is_ok()
}

fn text(what: &str, bytes: &[u8]) {
    let (theirs, ours): (ours::Test, ours::Test) = (black_box(theirs), black_box(ours::utf8));
    let run = |f: ours::Test| unsafe { u64::from(f(bytes.as_ptr(), bytes.len())) };
    row(what, bytes.len(), best(|| run(theirs), || run(ours)));
}

pub fn all() {
    let mut random = Random::new(9);
    let ascii: Vec<u8> = (0..SIZE).map(|_| 0x20 + random.below(0x5f) as u8).collect();
    let mixed = mixed_text(SIZE, &mut random).into_bytes();
    text("UTF-8 of ASCII, a byte", &ascii);
    text("UTF-8 of mixed text, a byte", &mixed);
}
