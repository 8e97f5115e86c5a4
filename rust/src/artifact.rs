//! What a reader of artifacts answers: 32 words, and the rows of thirteen tables.
use crate::refusals::Row;

/// The words of a row, table by table.
pub const WIDTHS: [usize; 13] = [1, 8, 2, 6, 9, 11, 3, 2, 4, 3, 5, 7, 1];

/// The words behind the refusal's number and values: 3 caps, 4 and 5 the debug id's halves, low first, 6 to 13 where the source
/// name, the name blob, the code and the position table start and how long they are, 14 to 16 the main chunk, 17 the top
/// constants, 18 to 30 the rows used of each table, 31 zero. All are zero where the file is refused.
pub type Words = [u64; 32];

#[derive(Debug, Clone, PartialEq)]
pub struct Answer {
    pub words: Words,
    /// The rows that are used, and no more.
    pub tables: [Vec<u64>; 13],
}

impl Answer {
    pub fn refused([number, first, second]: Row) -> Answer {
        let mut words = [0; 32];
        words[..3].copy_from_slice(&[number, first, second]);
        Answer { words, tables: Default::default() }
    }

    /// `outside` is the words from 3 to 17.
    pub fn accepted(outside: [u64; 15], tables: [Vec<u64>; 13]) -> Answer {
        let mut words = [0; 32];
        words[3..18].copy_from_slice(&outside);
        for (k, table) in tables.iter().enumerate() {
            words[18 + k] = (table.len() / WIDTHS[k]) as u64;
        }
        Answer { words, tables }
    }

    pub fn row(&self) -> Row {
        [self.words[0], self.words[1], self.words[2]]
    }

    /// The rows used of each table.
    pub fn used(&self) -> [usize; 13] {
        std::array::from_fn(|k| self.words[18 + k] as usize)
    }
}
