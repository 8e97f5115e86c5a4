//! The rows of a table, one after the other.

use core::marker::PhantomData;
use core::slice::ChunksExact;

/// What a row is made from, beside its own words.
#[derive(Clone, Copy, Debug)]
pub struct Source<'a> {
    /// The artifact's bytes, which spans lie in.
    pub bytes: &'a [u8],
    /// The words of up to two further tables that have the items of this one's rows, each row's behind those before it.
    pub items: [&'a [u64]; 2],
}

/// A record that is kept as a row of words.
pub trait Row<'a>: Sized {
    /// The words of a row.
    const WORDS: usize;

    /// The record of these words. What it owns of the items is taken from their front.
    fn of(words: &[u64], source: &mut Source<'a>) -> Self;
}

/// The rows of a table, as records. It is an iterator that may be cloned to begin anew.
#[derive(Clone, Debug)]
pub struct Rows<'a, R> {
    words: ChunksExact<'a, u64>,
    source: Source<'a>,
    kind: PhantomData<R>,
}

impl<'a, R: Row<'a>> Rows<'a, R> {
    pub(crate) fn new(words: &'a [u64], source: Source<'a>) -> Self {
        Rows { words: words.chunks_exact(R::WORDS), source, kind: PhantomData }
    }
}

impl<'a, R: Row<'a>> Iterator for Rows<'a, R> {
    type Item = R;

    fn next(&mut self) -> Option<R> {
        let words = self.words.next()?;
        Some(R::of(words, &mut self.source))
    }

    fn size_hint(&self) -> (usize, Option<usize>) {
        self.words.size_hint()
    }
}

impl<'a, R: Row<'a>> ExactSizeIterator for Rows<'a, R> {}

impl<'a> Source<'a> {
    /// The next `count` rows of one of the tables of items.
    pub fn share<R: Row<'a>>(&mut self, table: usize, count: u64) -> Rows<'a, R> {
        let rest = self.items[table];
        let size = (count as usize).saturating_mul(R::WORDS).min(rest.len());
        let (own, others) = rest.split_at(size);
        self.items[table] = others;
        Rows::new(own, Source { bytes: self.bytes, items: [&[], &[]] })
    }
}

/// The words of a row as an array; each record says by its pattern how many there are.
pub fn words<const N: usize>(row: &[u64]) -> [u64; N] {
    let mut words = [0; N];
    for (word, kept) in words.iter_mut().zip(row) {
        *word = *kept;
    }
    words
}

/// The bytes of a span. The reader is proved to keep spans that lie in the bytes, so that none is ever cut here; firmware
/// gets a function without a panic.
pub fn span(bytes: &[u8], start: u64, length: u64) -> &[u8] {
    let from = bytes.get(start as usize..).unwrap_or_default();
    from.get(..length as usize).unwrap_or_default()
}

/// The text of a span that the reader tested to be UTF-8.
pub fn text(bytes: &[u8], start: u64, length: u64) -> &str {
    core::str::from_utf8(span(bytes, start, length)).unwrap_or_default()
}
