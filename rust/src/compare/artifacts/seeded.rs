//! So many artifacts of a seed: whole or with one field wrong, damaged up to twice, under any mask, in ample places and in any.
use super::{in_places, tried, Met, MASK};
use beside::inputs::artifacts::{artifact, Fault, WAYS};
use beside::inputs::bytes::damage;
use beside::inputs::Random;
use beside::reference;
use beside::refusals::FULL;

#[derive(Clone, Copy)]
pub struct Seeded {
    pub count: u64,
    pub seed: u64,
}

pub fn all(Seeded { count, seed }: Seeded) {
    // Spread over all bits, since the generator says much the same of two seeds that differ in the last ones.
    let mut random = Random::new(seed.wrapping_mul(0x9e37_79b9_7f4a_7c15));
    let (mut met, mut full) = (Met::default(), 0u64);
    for _ in 0..count {
        let bytes = file(&mut random);
        let mask = [MASK, 0x03, 0xff, random.next() as u8][random.below(4) as usize];
        tried(&bytes, mask, &mut met);
        full += u64::from(in_any_places(&bytes, mask, &mut random));
    }
    met.report(&format!("artifacts of seed {seed}"), (0, 0));
    met.report_refusals();
    println!("    each again in any number of places, {full} of them Full");
}

fn file(random: &mut Random) -> Vec<u8> {
    let seed = random.next() >> 2;
    let fields = artifact(seed, None).1;
    let fault = Fault { field: random.below(fields as u64) as usize, way: random.below(WAYS as u64) as usize };
    let mut bytes = artifact(seed, (random.below(2) == 0).then_some(fault)).0;
    (0..random.below(3)).for_each(|_| damage(&mut bytes, random));
    bytes
}

/// Whether one of the tables ran out.
fn in_any_places(bytes: &[u8], mask: u8, random: &mut Random) -> bool {
    let most = 2 + random.below(30);
    let places = std::array::from_fn(|_| random.below(most) as usize);
    let expected = reference::read(bytes, mask, places);
    in_places(bytes, mask, places, &expected);
    expected.row()[0] == FULL
}
