//! The debug id of random pairs of byte strings.
use super::{report, same};
use crate::ours::positions as ours;
use beside::inputs::Random;
use beside::original;

/// Short ones of either length, odd and even, since two bytes are mixed a turn; one pair in a hundred is longer.
pub fn all() {
    let mut random = Random::new(14);
    let count = 200_000;
    for k in 0..count {
        let most = if k % 100 == 0 { 3_000 } else { 12 };
        let [table, chains] = [0, 1].map(|_| {
            let n = random.below(most);
            (0..n).map(|_| random.next() as u8).collect::<Vec<u8>>()
        });
        same("debug id", (&table, &chains), original::debug_id(&table, &chains), ours::debug_id(&table, &chains));
    }
    report("debug id of pairs of byte strings", count, count);
}
