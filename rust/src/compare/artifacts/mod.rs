//! Whole artifacts.
mod bounded;
mod differences;
mod inputs;
mod met;
mod places;
mod rewritten;
mod seeded;
mod threads;
mod wounded;

use super::same;
use crate::ours::artifact as ours;
use beside::artifact::{Answer, WIDTHS};
use beside::original::artifact as original;
use beside::reference;
use met::Met;
pub use seeded::Seeded;

/// The step flags that the original knows.
const MASK: u8 = original::OWN_MASK;

pub fn all(seeded: Seeded) {
    println!("artifacts, read by the original and by the proved reader, and written again by both:");
    inputs::all();
    places::all();
    bounded::all();
    differences::all();
    threads::all();
    rewritten::all();
    wounded::all();
    seeded::all(seeded);
}

/// The fewest bytes that a record of each table takes.
const LEAST: [usize; 13] = [1, 1, 1, 4, 4, 7, 3, 2, 4, 3, 4, 7, 1];

/// Places for as many records as the bytes can hold, and for one that is begun.
fn ample(bytes: &[u8]) -> [usize; 13] {
    LEAST.map(|least| bytes.len() / least + 1)
}

/// One file in ample places, and what is accepted written again. The plain reading, which says what is Full elsewhere, must agree
/// with the original too.
fn tried(bytes: &[u8], mask: u8, met: &mut Met) {
    let (expected, places) = (original::read(bytes, mask), ample(bytes));
    met.add(&expected);
    same("a plain reading", (bytes, mask), &expected, &reference::read(bytes, mask, places));
    in_places(bytes, mask, places, &expected);
    if expected.words[0] == 0 {
        rewritten::tried(bytes, mask, &expected, &mut met.tables);
    }
}

/// One long file, for which that would be much.
fn tried_in_exact_places(bytes: &[u8], met: &mut Met) {
    let expected = original::read(bytes, MASK);
    met.add(&expected);
    in_places(bytes, MASK, expected.used(), &expected);
}

/// The words of the answer, and every word of tables that have so many places and hold something else before. Most have a few
/// words besides, which make no place and must be zero behind.
fn in_places(bytes: &[u8], mask: u8, places: [usize; 13], expected: &Answer) {
    let mut tables: [Vec<u64>; 13] = std::array::from_fn(|k| vec![0xa5a5_a5a5; places[k] * WIDTHS[k] + bytes.len() % WIDTHS[k]]);
    let words = ours::read(bytes, mask, tables.each_mut().map(|table| &mut table[..]));
    same("the artifact's words", (bytes, mask, places), expected.words, words);
    for (k, table) in tables.iter().enumerate() {
        let input = (k + 1, bytes, mask, places);
        let (rows, unused) = table.split_at(expected.tables[k].len());
        same("rows in a table", input, &expected.tables[k][..], rows);
        same("what unused places hold in a table", input, 0, unused.iter().fold(0, |all, word| all | word));
    }
}
