//! Position tables and the debug id. An item is an entry where all are read or written, and a call where one is looked for.
use super::{best, row, SIZE};
use crate::ours::positions as ours;
use beside::inputs::Random;
use beside::original;
use std::cell::Cell;
use std::hint::black_box;

/// The entries that a run goes over, in as many calls as that takes.
const ENTRIES: usize = 50_000;

/// The original behind our signatures.
mod theirs {
    use beside::original;
    use rhai_grain::pos::{self, Site};
    use std::slice::from_raw_parts;

    #[inline(never)]
    pub unsafe extern "C" fn check(table: *const u8, len: usize, values: *mut [u64; 2]) -> u64 {
        let [number, first, second] = original::check(from_raw_parts(table, len));
        *values = [first, second];
        number
    }

    #[inline(never)]
    pub unsafe extern "C" fn resolve(table: *const u8, len: usize, address: u32, site: *mut [u64; 2]) -> u64 {
        let found = original::resolve(from_raw_parts(table, len), address);
        *site = found.unwrap_or([0, 0]);
        u64::from(found.is_some())
    }

    /// The original makes a vector of its own, and leaves `out` as it is.
    #[inline(never)]
    pub unsafe extern "C" fn encode(
        addresses: *const u32,
        n: usize,
        lines: *const u32,
        m: usize,
        columns: *const u32,
        k: usize,
        _out: *mut u8,
        _room: usize,
        values: *mut [u64; 2],
    ) -> u64 {
        let places = from_raw_parts(lines, m).iter().zip(from_raw_parts(columns, k));
        let sites = from_raw_parts(addresses, n).iter().zip(places);
        let table = pos::encode(sites.map(|(&address, (&line, &column))| (address, Site { line, column })));
        *values = [table.len() as u64, 0];
        0
    }

    #[inline(never)]
    pub unsafe extern "C" fn debug_id(table: *const u8, len: usize, chains: *const u8, more: usize, id: *mut [u64; 2]) {
        let whole = original::debug_id(from_raw_parts(table, len), from_raw_parts(chains, more));
        *id = [whole as u64, (whole >> 64) as u64];
    }
}

/// As a compiler emits them: short steps, lines that rise, columns below a hundred.
fn sites(entries: usize) -> Vec<[u32; 3]> {
    let mut random = Random::new(15);
    let (mut address, mut line) = (0, 1);
    (0..entries)
        .map(|_| {
            address += 1 + random.below(9) as u32;
            line += random.below(2) as u32;
            [address, line, random.below(100) as u32]
        })
        .collect()
}

fn check(entries: usize, table: &[u8]) {
    let (theirs, ours): (ours::Check, ours::Check) = (black_box(theirs::check), black_box(ours::grain_pos_check));
    let calls = ENTRIES / entries;
    let run = |f: ours::Check| {
        let mut values = [0; 2];
        (0..calls).map(|_| unsafe { f(table.as_ptr(), table.len(), &mut values) }).sum()
    };
    row(&format!("check of {entries}, an entry"), calls * entries, best(|| run(theirs), || run(ours)));
}

/// `walked` is the entries that are read until the walk stops.
fn resolve(entries: usize, what: &str, table: &[u8], address: u32, walked: usize) {
    let (theirs, ours): (ours::Resolve, ours::Resolve) = (black_box(theirs::resolve), black_box(ours::grain_pos_resolve));
    let calls = ENTRIES / walked;
    let run = |f: ours::Resolve| {
        let mut site = [0; 2];
        (0..calls).map(|_| unsafe { f(table.as_ptr(), table.len(), address, &mut site) } + site[0] + site[1]).sum()
    };
    row(&format!("resolve in {entries}, {what}, a call"), calls, best(|| run(theirs), || run(ours)));
}

fn encode(sites: &[[u32; 3]], size: usize) {
    let (theirs, ours): (ours::Encode, ours::Encode) = (black_box(theirs::encode), black_box(ours::grain_pos_encode));
    let [addresses, lines, columns] = [0, 1, 2].map(|k| sites.iter().map(|site| site[k]).collect::<Vec<u32>>());
    let (n, calls) = (sites.len(), ENTRIES / sites.len());
    let out = Cell::new(vec![0u8; size]);
    let run = |f: ours::Encode| {
        let mut values = [0; 2];
        let mut lent = out.take();
        let (a, l, c, o) = (addresses.as_ptr(), lines.as_ptr(), columns.as_ptr(), lent.as_mut_ptr());
        let sum = (0..calls).map(|_| unsafe { f(a, n, l, n, c, n, o, size, &mut values) } + values[0]).sum();
        out.set(lent);
        sum
    };
    let least = best(|| run(theirs), || run(ours));
    row(&format!("encode of {n}, an entry"), calls * n, least);
}

fn debug_id() {
    let (theirs, ours): (ours::DebugId, ours::DebugId) = (black_box(theirs::debug_id), black_box(ours::grain_debug_id));
    let mut random = Random::new(16);
    let bytes: Vec<u8> = (0..SIZE).map(|_| random.next() as u8).collect();
    let (table, chains) = bytes.split_at(SIZE / 2);
    let run = |f: ours::DebugId| {
        let mut id = [0; 2];
        unsafe { f(table.as_ptr(), table.len(), chains.as_ptr(), chains.len(), &mut id) };
        id[0] ^ id[1]
    };
    row("debug id, a byte", SIZE, best(|| run(theirs), || run(ours)));
}

pub fn all() {
    for entries in [1, 100, ENTRIES] {
        let sites = sites(entries);
        let table = original::encode(&sites).unwrap();
        check(entries, &table);
        let (middle, last) = (entries / 2, entries - 1);
        resolve(entries, "first", &table, sites[0][0], 1);
        if entries > 1 {
            resolve(entries, "middle", &table, sites[middle][0], middle + 1);
            resolve(entries, "last", &table, sites[last][0], entries);
        }
        resolve(entries, "absent", &table, sites[last][0] + 1, entries);
        encode(&sites, table.len());
    }
    debug_id();
}
