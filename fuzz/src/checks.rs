//! What must hold of every input. A panic is what libFuzzer reports, with the input.
use crate::lent::{Lent, MOST_WORDS};
use crate::{ours, written};
use beside::artifact::{Answer, Words, WIDTHS};
use beside::inputs::case::Case;
use beside::lent::Model;
use beside::original::artifact as original;
use beside::reference;
use beside::refusals::FULL;

pub fn all(case: &Case, lent: &mut Lent) {
    let lengths = case.lengths.map(|length| length.min(MOST_WORDS));
    let (words, tables) = read(case, lengths, lent, 0xa5a5_a5a5_a5a5_a5a5);
    laws(&words, &tables);
    let again = read(case, lengths, lent, 0x1111_1111_1111_1112);
    assert!((words, &tables) == (again.0, &again.1), "the same answer twice, whatever the tables held");
    by_document(case, lengths, &words, &tables);
    if words[0] == 0 {
        written::all(case, Model { heading: words, tables, text: case.artifact.to_vec() }, lent);
    }
}

/// Reads in memory that ends where it was lent, and that held something else before.
fn read(case: &Case, lengths: [usize; 13], lent: &mut Lent, before: u64) -> (Words, [Vec<u64>; 13]) {
    let size = case.artifact.len();
    let file = lent.file.bytes(size);
    file.copy_from_slice(case.artifact);
    let mut at = 0;
    let tables = lent.tables.each_mut().map(|room| {
        let table = room.words(lengths[at]);
        table.fill(before);
        at += 1;
        table
    });
    let words = ours::read(file, case.mask, tables);
    assert!(lent.file.bytes(size) == case.artifact, "the file is as it was");
    for (k, room) in lent.tables.iter().enumerate() {
        assert!(room.untouched_before(8 * lengths[k]), "nothing is written before table {}", k + 1);
    }
    let mut at = 0;
    let tables = lent.tables.each_mut().map(|room| {
        at += 1;
        room.words(lengths[at - 1]).to_vec()
    });
    (words, tables)
}

/// What holds whatever the file says.
fn laws(words: &Words, tables: &[Vec<u64>; 13]) {
    let refused = words[0] != 0;
    assert!(!refused || words[3..].iter().all(|&word| word == 0), "a refusal has three words");
    for (k, table) in tables.iter().enumerate() {
        let used = if refused { 0 } else { words[18 + k] as usize * WIDTHS[k] };
        assert!(used <= table.len(), "no more rows than places in table {}", k + 1);
        assert!(table[used..].iter().all(|&word| word == 0), "zeros behind the rows of table {}", k + 1);
    }
}

/// The plain reading of document 01, and the original where no table runs out.
fn by_document(case: &Case, lengths: [usize; 13], words: &Words, tables: &[Vec<u64>; 13]) {
    let places = std::array::from_fn(|k| lengths[k] / WIDTHS[k]);
    let plain = reference::read(case.artifact, case.mask, places);
    alike("a plain reading", &plain, words, tables);
    if plain.row()[0] != FULL {
        alike("the original", &original::read(case.artifact, case.mask), words, tables);
    }
}

fn alike(who: &str, expected: &Answer, words: &Words, tables: &[Vec<u64>; 13]) {
    assert_eq!(&expected.words, words, "the words of {who}");
    for (k, rows) in expected.tables.iter().enumerate() {
        assert_eq!(rows[..], tables[k][..rows.len()], "rows of {who} in table {}", k + 1);
    }
}
