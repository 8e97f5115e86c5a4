//! A plain reading of document 01, in its order, into bounded tables: for what the original cannot say, which has no bounds.
mod constants;
mod cursor;
mod sections;
mod writing;

use crate::artifact::Answer;
use crate::refusals::{LONGEST, TOO_LONG};
use cursor::Reader;
pub use writing::write;

/// What is read of `bytes` into tables with so many places.
pub fn read(bytes: &[u8], mask: u8, places: [usize; 13]) -> Answer {
    if bytes.len() > LONGEST {
        return Answer::refused([TOO_LONG, bytes.len() as u64, 0]);
    }
    let mut reader = Reader::new(bytes, mask, places);
    match sections::artifact(&mut reader) {
        Ok(outside) => Answer::accepted(outside, reader.tables),
        Err(row) => Answer::refused(row),
    }
}
