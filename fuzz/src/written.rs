//! What must hold where an accepted input is written again, and where its tables are damaged before.
use crate::lent::{Lent, MOST_WORDS};
use crate::{ours, ours_written};
use beside::artifact::{Words, WIDTHS};
use beside::inputs::case::Case;
use beside::inputs::models::wound;
use beside::inputs::Random;
use beside::lent::{Lent as Tables, Model, Way, POSITIONS};
use beside::reference;
use beside::refusals::{Row, BAD_MODEL, NO_ROOM};

pub fn all(case: &Case, mut model: Model, lent: &mut Lent) {
    let size = case.artifact.len();
    let [kept, stripped] = [0, 1].map(|strip| {
        let way = Way { mask: case.mask, strip };
        let (row, out) = write(&model, way, size, lent);
        assert_eq!([row[0], row[2]], [0, 0], "what was read is written, in the room that it took");
        let bytes = &out[..row[1] as usize];
        read_again(&model, way, bytes);
        let (short, _) = write(&model, way, bytes.len() - 1, lent);
        assert_eq!(short, [NO_ROOM, row[1], 0], "one byte short there is no room");
        bytes.to_vec()
    });
    assert!(stripped.len() <= kept.len(), "what is stripped is no longer than what is kept");
    // The wounds hang on the input alone, so that an input that fails does so again.
    let mut random = Random::new(kept.iter().fold(0, |hash: u64, &b| hash.wrapping_mul(31) ^ u64::from(b)));
    for _ in 0..2 {
        wound(&mut model, &mut random);
        let strip = random.below(2) as u8;
        if model.tables.iter().all(|table| table.len() <= MOST_WORDS) {
            write(&model, Way { mask: case.mask, strip }, size, lent);
        }
    }
}

/// Writes in memory that ends where it was lent. Answer and output are as the plain reading has them; a refusal leaves all as it
/// was, and what is lent to be read stays in any case.
fn write(model: &Model, way: Way, room: usize, lent: &mut Lent) -> (Row, Vec<u8>) {
    let before: Vec<u8> = (0..room).map(|k| (k as u8).wrapping_mul(0x65) ^ 0xa5).collect();
    let text = lent.file.bytes(model.text.len());
    text.copy_from_slice(&model.text);
    let mut of = model.tables.iter();
    let tables = lent.tables.each_mut().map(|space| {
        let words = of.next().unwrap();
        let table = space.words(words.len());
        table.copy_from_slice(words);
        &*table
    });
    let given = Tables { heading: &model.heading, tables, text };
    let out = lent.out.bytes(room);
    out.copy_from_slice(&before);
    let row = ours_written::write(given, way, out);
    assert!(given.text == model.text && given.tables.iter().zip(&model.tables).all(|(lent, words)| lent == words), "what is lent to be read stays");
    let out = out.to_vec();
    assert!(lent.out.untouched_before(room), "nothing is written before the output");
    let mut expected = before.clone();
    assert_eq!(reference::write(model.lent(), way, &mut expected), row, "the answer of a plain reading to tables");
    assert!(row[0] == 0 || out == before, "a refusal leaves the output as it was");
    assert!(row[0] != BAD_MODEL || (1..=11).contains(&row[1]), "a rule is named");
    assert!(out == expected, "the bytes of a plain reading are written");
    (row, out)
}

/// It is accepted, with the same counts, chunk, caps and debug id, and texts as long as they were.
fn read_again(model: &Model, way: Way, bytes: &[u8]) {
    let mut tables: [Vec<u64>; 13] = std::array::from_fn(|k| vec![0; model.heading[18 + k] as usize * WIDTHS[k]]);
    let words = ours::read(bytes, way.mask, tables.each_mut().map(|table| &mut table[..]));
    let said = |words: &Words| [&words[..6], &words[14..]].concat();
    assert_eq!(said(&words), said(&model.heading), "what is written is read again");
    let lengths = [7, 9, 11].map(|at| (words[at], model.heading[at]));
    assert!(lengths.iter().all(|(again, before)| again == before), "texts are as long as they were");
    let table = if way.strip == 0 { model.heading[POSITIONS + 1] } else { 0 };
    assert_eq!(words[POSITIONS + 1], table, "the position table is kept, or none is there");
}
