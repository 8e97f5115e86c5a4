//! Encoding of site lists. Where the original panics ours refuses, and the panic's own words say what with.
use super::{report, same};
use crate::ours::positions as ours;
use beside::inputs::sites::sites;
use beside::inputs::Random;
use beside::original;
use beside::refusals::{Row, NOT_ASCENDING, NO_ROOM, TOO_LONG};
use std::panic;

/// The longest site list that is encoded.
const LIMIT: usize = 262_144;

pub fn all() {
    // The original's panics are expected; they are compared, not shown.
    let hook = panic::take_hook();
    panic::set_hook(Box::new(|_| ()));
    random_lists();
    long_lists();
    panic::set_hook(hook);
}

/// The sites as three slices.
fn slices(sites: &[[u32; 3]]) -> [Vec<u32>; 3] {
    [0, 1, 2].map(|k| sites.iter().map(|site| site[k]).collect())
}

/// The row that document 01 gives for what the original does in so much room.
fn row(encoded: &Result<Vec<u8>, [u64; 2]>, room: usize) -> Row {
    match encoded {
        Err([address, earlier]) => [NOT_ASCENDING, *address, *earlier],
        Ok(table) if table.len() > room => [NO_ROOM, table.len() as u64, 0],
        Ok(table) => [0, table.len() as u64, 0],
    }
}

/// In so much room: the answer, and every byte of the output, which holds other bytes before.
fn in_room(sites: &[[u32; 3]], lent: [&[u32]; 3], encoded: &Result<Vec<u8>, [u64; 2]>, room: usize, random: &mut Random) {
    let before: Vec<u8> = (0..room).map(|_| random.next() as u8).collect();
    let (mut after, mut expected) = (before.clone(), before);
    let wanted = row(encoded, room);
    if let (0, Ok(table)) = (wanted[0], encoded) {
        expected[..table.len()].copy_from_slice(table);
    }
    same("encode", (sites, room), wanted, ours::encode(lent, &mut after));
    same("encode's bytes", (sites, room), expected, after);
}

/// With exact room, one byte short, none, and ample. One of the three slices may have more places, which do not count.
fn random_lists() {
    let mut random = Random::new(12);
    let (count, mut refused) = (100_000, 0);
    for _ in 0..count {
        let sites = sites(&mut random);
        let encoded = original::encode(&sites);
        let mut lent = slices(&sites);
        lent[random.below(3) as usize].extend((0..random.below(3)).map(|_| random.below(9) as u32));
        let lent = [0, 1, 2].map(|k| lent[k].as_slice());
        let n = encoded.as_ref().map_or(40, Vec::len);
        for room in [n, n - 1, 0, n + 1 + random.below(8) as usize] {
            in_room(&sites, lent, &encoded, room, &mut random);
        }
        refused += u64::from(encoded.is_err());
    }
    report("encode, with exact room, one short, none and ample", count, 4 * count);
    println!("    {refused} do not ascend");
    if refused == 0 || refused == count {
        println!("the inputs do not reach every answer");
        std::process::exit(1);
    }
}

/// The last list that is not too long is encoded as the original does it. The next is refused, though the original encodes it;
/// that comes before all else that is wrong, and the shortest slice decides.
fn long_lists() {
    let mut random = Random::new(13);
    let mut sites: Vec<[u32; 3]> = (0..=LIMIT as u32).map(|k| [3 * k, 1 + k % 70, k % 200]).collect();
    let longest = original::encode(&sites[..LIMIT]);
    let room = longest.as_ref().unwrap().len();
    let lent = slices(&sites);
    let shortest = [&lent[0][..], &lent[1][..LIMIT], &lent[2][..]];
    in_room(&sites[..LIMIT], shortest, &longest, room, &mut random);

    let longer = original::encode(&sites).unwrap();
    sites[1][0] = 0;
    let fallen = slices(&sites);
    for (lent, room) in [(&lent, longer.len()), (&fallen, 0)] {
        let before = vec![0xa5; room];
        let mut after = before.clone();
        let lent = [0, 1, 2].map(|k| lent[k].as_slice());
        same("encode of too many", room, [TOO_LONG, LIMIT as u64 + 1, 0], ours::encode(lent, &mut after));
        same("encode's bytes of too many", room, before, after);
    }
    report("encode of 262,144 and 262,145 sites", 3, 3);
}
