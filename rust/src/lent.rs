//! What is lent to be written: the words of a heading, laid out as those of an answer, thirteen tables, and the text that spans cut.
use crate::artifact::{Answer, Words, WIDTHS};

/// The words of the heading that are counts: of the top constants, and from the next on of each table's used rows.
pub const TOPS: usize = 17;

/// The places in the heading of the spans: source name, name blob, code, position table.
pub const SOURCE: usize = 6;
pub const BLOB: usize = 8;
pub const CODE: usize = 10;
pub const POSITIONS: usize = 12;

/// The known step flags, and whether positions are left out: 0 keeps them.
#[derive(Debug, Clone, Copy, PartialEq)]
pub struct Way {
    pub mask: u8,
    pub strip: u8,
}

#[derive(Debug, Clone, Copy)]
pub struct Lent<'a> {
    pub heading: &'a Words,
    pub tables: [&'a [u64]; 13],
    pub text: &'a [u8],
}

/// The same, held.
#[derive(Debug, Clone, PartialEq)]
pub struct Model {
    pub heading: Words,
    pub tables: [Vec<u64>; 13],
    pub text: Vec<u8>,
}

impl Model {
    pub fn empty() -> Model {
        Model { heading: [0; 32], tables: Default::default(), text: Vec::new() }
    }

    /// What was read of a file.
    pub fn of(answer: &Answer, bytes: &[u8]) -> Model {
        Model { heading: answer.words, tables: answer.tables.clone(), text: bytes.to_vec() }
    }

    pub fn lent(&self) -> Lent<'_> {
        Lent { heading: &self.heading, tables: self.tables.each_ref().map(|table| &table[..]), text: &self.text }
    }
}

impl<'a> Lent<'a> {
    /// The rows used of a table, which are numbered from 1; those that are there, where more are said to be.
    pub fn rows(self, table: usize) -> impl Iterator<Item = &'a [u64]> {
        self.tables[table - 1].chunks_exact(WIDTHS[table - 1]).take(self.used(table) as usize)
    }

    pub fn used(self, table: usize) -> u64 {
        self.heading[TOPS + table]
    }

    /// The span in two words of the heading.
    pub fn span(self, at: usize) -> [u64; 2] {
        [self.heading[at], self.heading[at + 1]]
    }

    /// The bytes of a span that lies in the text.
    pub fn part(self, [start, size]: [u64; 2]) -> &'a [u8] {
        &self.text[start as usize..][..size as usize]
    }
}
