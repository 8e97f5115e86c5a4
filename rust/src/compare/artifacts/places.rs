//! Tables that have just enough places, and one that has one fewer.
use super::{in_places, MASK};
use beside::artifact::Answer;
use beside::inputs::artifacts::artifact;
use beside::original::artifact as original;
use beside::refusals::FULL;

/// The original has no tables to run out of. So exact places must be enough, and the first record too many is refused as Full
/// with its table.
pub fn all() {
    let (count, mut fewer) = (5_000, [0u64; 13]);
    for seed in 0..count {
        let bytes = artifact(seed, None).0;
        let expected = original::read(&bytes, MASK);
        let used = expected.used();
        in_places(&bytes, MASK, used, &expected);
        for k in (0..13).filter(|&k| used[k] > 0) {
            let mut places = used;
            places[k] -= 1;
            in_places(&bytes, MASK, places, &Answer::refused([FULL, k as u64 + 1, 0]));
            fewer[k] += 1;
        }
    }
    println!("artifacts in exact places: {count} inputs agree; with one place fewer in one table: {}", fewer.iter().sum::<u64>());
    if fewer.contains(&0) {
        println!("the artifacts do not fill every table");
        std::process::exit(1);
    }
}
