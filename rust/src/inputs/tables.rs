//! Position tables: nearly sound ones, so that what is wrong is met at every place.
use super::bytes::{damage, put_padded};
use super::Random;

fn put(out: &mut Vec<u8>, value: u64, random: &mut Random) {
    let pad = if random.below(16) == 0 { random.below(6) } else { 0 };
    put_padded(out, value, pad as usize);
}

/// Mostly of one byte, one in eight of up to 32 bits, and one in two hundred of up to 64.
fn value(random: &mut Random) -> u64 {
    match random.below(200) {
        0 => random.any_width(),
        1..=25 => random.width(32),
        _ => random.below(128),
    }
}

/// The entries that are there, or some other number.
fn count(entries: u64, random: &mut Random) -> u64 {
    match random.below(24) {
        0 => entries + 1 + random.below(3),
        1 => entries.saturating_sub(1),
        2 => random.any_width(),
        _ => entries,
    }
}

/// A table of a few entries, and of some hundred in one of five hundred. Steps of 0, numbers that are padded or too wide,
/// counts that are wrong and sums above 32 bits are among them.
fn nearly_sound(random: &mut Random) -> Vec<u8> {
    let most = if random.below(500) == 0 { 300 } else { 8 };
    let entries = random.below(most);
    let mut out = Vec::new();
    let said = count(entries, random);
    put(&mut out, said, random);
    for k in 0..entries {
        let least = u64::from(k > 0 && random.below(40) > 0);
        let step = value(random).max(least);
        put(&mut out, step, random);
        let line = value(random);
        put(&mut out, line, random);
        let column = value(random);
        put(&mut out, column, random);
    }
    out
}

/// One in two is damaged, up to three times.
pub fn table(random: &mut Random) -> Vec<u8> {
    let mut table = nearly_sound(random);
    if random.below(2) == 0 {
        for _ in 0..=random.below(3) {
            damage(&mut table, random);
        }
    }
    table
}
