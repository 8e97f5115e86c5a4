//! What the sections share: bytes, numbers, strings, positions, chunks, and free places.
use crate::artifact::WIDTHS;
use crate::refusals::{Row, BAD_UTF8, FULL, MALFORMED, TRUNCATED};

pub type Got<T> = Result<T, Row>;

pub struct Reader<'a> {
    pub bytes: &'a [u8],
    pub at: usize,
    pub mask: u8,
    places: [usize; 13],
    pub tables: [Vec<u64>; 13],
}

impl<'a> Reader<'a> {
    pub fn new(bytes: &'a [u8], mask: u8, places: [usize; 13]) -> Self {
        Self { bytes, at: 0, mask, places, tables: Default::default() }
    }

    pub fn left(&self) -> u64 {
        (self.bytes.len() - self.at) as u64
    }

    pub fn take(&mut self, n: u64) -> Got<&'a [u8]> {
        if n > self.left() {
            return Err([TRUNCATED, 0, 0]);
        }
        let start = self.at;
        self.at += n as usize;
        Ok(&self.bytes[start..self.at])
    }

    pub fn byte(&mut self) -> Got<u8> {
        Ok(self.take(1)?[0])
    }

    /// So many bytes, low first.
    pub fn fixed(&mut self, n: u64) -> Got<u64> {
        Ok(self.take(n)?.iter().rev().fold(0, |value, &b| value << 8 | u64::from(b)))
    }

    pub fn number(&mut self) -> Got<u64> {
        let mut value = 0;
        for group in 0..10 {
            let b = self.byte()?;
            if group == 9 && b > 1 {
                break;
            }
            value |= u64::from(b & 0x7f) << (7 * group);
            if b < 0x80 {
                return Ok(value);
            }
        }
        Err([MALFORMED, 0, 0])
    }

    fn narrow(&mut self, largest: u64) -> Got<u64> {
        let value = self.number()?;
        if value > largest {
            return Err([MALFORMED, 0, 0]);
        }
        Ok(value)
    }

    pub fn index(&mut self) -> Got<u64> {
        self.narrow(0xffff_ffff)
    }

    pub fn small(&mut self) -> Got<u64> {
        self.narrow(0xffff)
    }

    /// The 64 bits of a signed number: u / 2, or minus (u + 1) / 2.
    pub fn signed(&mut self) -> Got<u64> {
        let u = self.number()?;
        Ok(if u % 2 == 0 { u / 2 } else { (u / 2 + 1).wrapping_neg() })
    }

    /// Where the bytes behind a length stand.
    pub fn span(&mut self) -> Got<[u64; 2]> {
        let size = self.number()?;
        let start = self.at as u64;
        self.take(size)?;
        Ok([start, size])
    }

    pub fn spanned(&self, [start, size]: [u64; 2]) -> &'a [u8] {
        &self.bytes[start as usize..(start + size) as usize]
    }

    pub fn string(&mut self) -> Got<[u64; 2]> {
        let span = self.span()?;
        std::str::from_utf8(self.spanned(span)).map_err(|_| [BAD_UTF8, 0, 0])?;
        Ok(span)
    }

    /// Line 0 means none, whatever the column.
    pub fn position(&mut self) -> Got<[u64; 2]> {
        let at = [self.small()?, self.small()?];
        Ok(if at[0] == 0 { [0, 0] } else { at })
    }

    pub fn chunk(&mut self) -> Got<[u64; 3]> {
        Ok([self.index()?, self.index()?, self.small()?])
    }

    /// Before a record's first byte is read, its table must have a free place. Tables are numbered from 1.
    pub fn room(&self, table: usize) -> Got<()> {
        if self.tables[table - 1].len() / WIDTHS[table - 1] >= self.places[table - 1] {
            return Err([FULL, table as u64, 0]);
        }
        Ok(())
    }

    pub fn push(&mut self, table: usize, row: &[u64]) {
        self.tables[table - 1].extend_from_slice(row);
    }

    /// A count, and so many records. Answers the count.
    pub fn list(&mut self, table: usize, mut record: impl FnMut(&mut Self) -> Got<()>) -> Got<u64> {
        let count = self.number()?;
        for _ in 0..count {
            self.room(table)?;
            record(self)?;
        }
        Ok(count)
    }
}
