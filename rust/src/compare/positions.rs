//! Check, count and resolve on position tables.
use super::{report, same};
use crate::ours::positions as ours;
use beside::inputs::tables::table;
use beside::inputs::{every_byte, strings, Random};
use beside::original;
use beside::refusals::Row;

pub fn all() {
    short_tables();
    edge_tables();
    random_tables();
}

/// How often each answer of `check` was met, which says what the inputs reach: sound, and the four reasons.
#[derive(Default)]
struct Met {
    tables: u64,
    answers: u64,
    kinds: [u64; 5],
    found: u64,
}

const KINDS: [&str; 5] = ["sound", "truncated", "overflow", "out of order", "trailing"];

impl Met {
    fn report(&self, what: &str, all_kinds: bool) {
        report(what, self.tables, self.answers);
        let kinds: Vec<String> = KINDS.iter().zip(self.kinds).map(|(kind, n)| format!("{kind} {n}")).collect();
        println!("    {}; resolved {}", kinds.join(", "), self.found);
        if all_kinds && (self.found == 0 || self.kinds.contains(&0)) {
            println!("the inputs do not reach every answer");
            std::process::exit(1);
        }
    }
}

/// Everything about one table: it is resolved at each address that it names, beside each, and at both ends.
fn tried(table: &[u8], met: &mut Met, addresses: &mut Vec<u32>) {
    let row = original::check(table);
    same("check", table, row, ours::check(table));
    same("count", table, original::count(table), ours::count(table));
    met.tables += 1;
    met.kinds[row[1] as usize] += 1;

    named(table, addresses);
    for &address in addresses.iter() {
        let site = original::resolve(table, address);
        met.found += u64::from(site.is_some());
        same("resolve", (table, address), told(site), ours::resolve(table, address));
    }
    met.answers += 2 + addresses.len() as u64;
}

fn told(site: Option<[u64; 2]>) -> Row {
    site.map_or([0; 3], |[line, column]| [1, line, column])
}

/// The addresses at which a table is resolved: 0, the largest, and those that its steps come to, as far as they can be read,
/// each with its neighbours.
fn named(table: &[u8], addresses: &mut Vec<u32>) {
    addresses.clear();
    addresses.extend([0, u32::MAX]);
    let Ok((_, mut at)) = original::index(table, 0) else {
        return;
    };
    let mut address = 0u32;
    while let Ok((step, line)) = original::index(table, at) {
        let Some(sum) = address.checked_add(step as u32) else {
            return;
        };
        address = sum;
        addresses.extend([address.saturating_sub(1), address, address.saturating_add(1)]);
        let Ok((_, column)) = original::index(table, line) else {
            return;
        };
        let Ok((_, next)) = original::index(table, column) else {
            return;
        };
        at = next;
    }
}

fn short_tables() {
    let (mut met, mut addresses) = (Met::default(), Vec::new());
    for n in 0..=3 {
        strings(n, &every_byte(), |s| tried(s, &mut met, &mut addresses));
    }
    // No table as short as that has an entry: it cannot be out of order, and resolves to nothing.
    met.report("position tables: every string of up to 3 bytes", false);
}

/// Two entries take seven bytes. These are steps, lines and columns of one and two bytes, of 0 among them, and cut ones.
fn edge_tables() {
    let (mut met, mut addresses) = (Met::default(), Vec::new());
    for n in 4..=7 {
        strings(n, &[0x00, 0x01, 0x02, 0x03, 0x7f, 0x80, 0xff], |s| tried(s, &mut met, &mut addresses));
    }
    met.report("position tables: every string of 4 to 7 bytes over 7 edge bytes", false);
}

fn random_tables() {
    let (mut met, mut addresses) = (Met::default(), Vec::new());
    let mut random = Random::new(11);
    for _ in 0..1_000_000 {
        tried(&table(&mut random), &mut met, &mut addresses);
    }
    met.report("position tables: random and damaged", true);
}
