//! Any number of places. Which comes first, Full or another fault, only a plain reading of document 01 can say.
use super::{in_places, MASK};
use beside::inputs::artifacts::artifact;
use beside::inputs::bytes::damage;
use beside::inputs::Random;
use beside::reference;
use beside::refusals::FULL;

pub fn all() {
    let mut random = Random::new(20);
    let (count, mut full) = (200_000, [0u64; 13]);
    for seed in 0..count {
        let mut bytes = artifact(seed % 20_000, None).0;
        (0..seed % 3).for_each(|_| damage(&mut bytes, &mut random));
        let most = 2 + random.below(30);
        let places = std::array::from_fn(|_| random.below(most) as usize);
        let expected = reference::read(&bytes, MASK, places);
        if expected.row()[0] == FULL {
            full[expected.row()[1] as usize - 1] += 1;
        }
        in_places(&bytes, MASK, places, &expected);
    }
    println!("artifacts in any number of places, beside a plain reading: {count} inputs agree, Full by table {full:?}");
    if full.contains(&0) {
        println!("the artifacts do not fill every table");
        std::process::exit(1);
    }
}
