//! What stands outside of the tables. The archive has it in 32 words, an answer's.

use crate::records::Chunk;
use crate::rows;
use crate::sys::ANSWER_WORDS;

/// A part of the text: of the bytes that were read, or of those that are lent to a [`Model`](crate::Model).
#[derive(Clone, Copy, Debug, Default, PartialEq, Eq)]
pub struct Span {
    /// Where it begins.
    pub start: usize,
    /// Its bytes.
    pub length: usize,
}

impl Span {
    /// What it cuts of a text.
    pub(crate) fn bytes(self, text: &[u8]) -> &[u8] {
        rows::span(text, self.start as u64, self.length as u64)
    }

    /// The same as a string, where the reader tested that it is one.
    pub(crate) fn text(self, text: &[u8]) -> &str {
        rows::text(text, self.start as u64, self.length as u64)
    }
}

/// What stands outside of the tables, and how many of their rows are used.
#[derive(Clone, Copy, Debug, Default, PartialEq, Eq)]
pub struct Heading {
    /// The capabilities that the script asks for, as bits.
    pub caps: u32,
    /// What names the diagnostics that were compiled with it.
    pub debug_id: u128,
    /// The name of the source; empty where it has none.
    pub source: Span,
    /// The text of all names.
    pub blob: Span,
    /// The code.
    pub code: Span,
    /// The position table; empty where the artifact is stripped.
    pub positions: Span,
    /// The chunk that runs first.
    pub main: Chunk,
    /// How many of the constants are top ones, and no items of others.
    pub top_constants: usize,
    /// The rows that are used, of each table in the order of [`Table::ALL`](crate::Table::ALL).
    pub rows: [usize; 13],
}

// The places of the words, as `enum grain_answer` of `include/grain.h` has them.
const CAPS: usize = 3;
const DEBUG_ID: usize = 4;
const SOURCE: usize = 6;
const BLOB: usize = 8;
const CODE: usize = 10;
const POSITIONS: usize = 12;
const MAIN: usize = 14;
const TOP_CONSTANTS: usize = 17;
const ROWS: usize = 18;

impl Heading {
    /// Of the words of an answer that accepts: each number fits its kind.
    pub(crate) fn of(words: &[u64; ANSWER_WORDS]) -> Heading {
        let span = |at: usize| Span { start: words[at] as usize, length: words[at + 1] as usize };
        let mut rows = [0; 13];
        for (count, word) in rows.iter_mut().zip(&words[ROWS..]) {
            *count = *word as usize;
        }
        Heading {
            caps: words[CAPS] as u32,
            debug_id: u128::from(words[DEBUG_ID + 1]) << 64 | u128::from(words[DEBUG_ID]),
            source: span(SOURCE),
            blob: span(BLOB),
            code: span(CODE),
            positions: span(POSITIONS),
            main: Chunk::of(words[MAIN], words[MAIN + 1], words[MAIN + 2]),
            top_constants: words[TOP_CONSTANTS] as usize,
            rows,
        }
    }

    /// As words, to be written.
    pub(crate) fn words(&self) -> [u64; ANSWER_WORDS] {
        let mut words = [0; ANSWER_WORDS];
        words[CAPS] = self.caps.into();
        words[DEBUG_ID] = self.debug_id as u64;
        words[DEBUG_ID + 1] = (self.debug_id >> 64) as u64;
        let spans = [(SOURCE, self.source), (BLOB, self.blob), (CODE, self.code), (POSITIONS, self.positions)];
        for (at, span) in spans {
            words[at] = span.start as u64;
            words[at + 1] = span.length as u64;
        }
        words[MAIN] = self.main.entry.into();
        words[MAIN + 1] = self.main.end.into();
        words[MAIN + 2] = self.main.slots.into();
        words[TOP_CONSTANTS] = self.top_constants as u64;
        for (word, count) in words[ROWS..].iter_mut().zip(self.rows) {
            *word = count as u64;
        }
        words
    }
}

#[cfg(test)]
mod tests {
    use super::*;

    #[test]
    fn words_are_a_heading_and_back() {
        let mut words = [0; ANSWER_WORDS];
        // No two alike; the first three and the last one belong to no heading.
        for (at, word) in words.iter_mut().enumerate().take(31).skip(3) {
            *word = 100 + at as u64;
        }
        assert_eq!(Heading::of(&words).words(), words);
        words[DEBUG_ID] = u64::MAX;
        words[MAIN + 2] = 0xFFFF;
        assert_eq!(Heading::of(&words).words(), words);
    }
}
