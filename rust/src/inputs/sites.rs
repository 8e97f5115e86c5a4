//! Lists of sites: address, line and column.
use super::Random;

/// Mostly ascending, with lines of 0 among them. In one list of four, addresses may stand still or fall.
pub fn sites(random: &mut Random) -> Vec<[u32; 3]> {
    let most = if random.below(200) == 0 { 300 } else { 10 };
    let disorder = random.below(4) == 0;
    let mut address = number(random);
    let mut list = Vec::new();
    for _ in 0..random.below(most) {
        let line = if random.below(6) == 0 { 0 } else { number(random) };
        list.push([address, line, number(random)]);
        let next = if disorder && random.below(3) == 0 {
            address.checked_sub(random.below(3) as u32)
        } else {
            address.checked_add(1 + random.below(200) as u32)
        };
        let Some(next) = next else {
            return list;
        };
        address = next;
    }
    list
}

/// Narrow in two of three.
fn number(random: &mut Random) -> u32 {
    let most = if random.below(3) > 0 { 9 } else { 32 };
    random.width(most) as u32
}
