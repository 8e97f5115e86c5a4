//! Fields: bytes, numbers and texts, one of which may be wrong.
use crate::inputs::bytes::put_padded;
use crate::inputs::Random;

/// Which field is wrong, and in which way.
#[derive(Debug, Clone, Copy)]
pub struct Fault {
    pub field: usize,
    pub way: usize,
}

/// The ways in which a field can be wrong.
pub const WAYS: usize = 6;

/// What numbers and texts are like.
#[derive(Debug, Clone, Copy, PartialEq)]
pub enum Style {
    /// Numbers of every width, and letters of one to four bytes: all that a file may have.
    Any,
    /// Nine in ten numbers of one byte, and words in ASCII, as a compiler writes them.
    Plain,
}

pub struct Writer {
    pub random: Random,
    out: Vec<u8>,
    fields: usize,
    fault: Option<Fault>,
    records: Option<usize>,
    style: Style,
}

impl Writer {
    pub fn new(seed: u64, fault: Option<Fault>) -> Self {
        Self { random: Random::new(2 * seed + 1), out: Vec::new(), fields: 0, fault, records: None, style: Style::Any }
    }

    /// With so many records in each section, and stripped.
    pub fn large(seed: u64, records: usize, style: Style) -> Self {
        Self { records: Some(records), style, ..Self::new(seed, None) }
    }

    fn width(&mut self, most: u64) -> u64 {
        if self.style == Style::Plain && self.random.below(10) > 0 {
            return self.random.below(0x80);
        }
        self.random.width(most)
    }

    /// The records of a section: a few, where no number is given.
    pub fn records(&mut self) -> usize {
        self.records.unwrap_or_else(|| self.few())
    }

    pub fn stripped(&self) -> bool {
        self.records.is_some()
    }

    pub fn done(self) -> (Vec<u8>, usize) {
        (self.out, self.fields)
    }

    /// The way in which the next field is wrong, if it is the one.
    fn wrong(&mut self) -> Option<usize> {
        let here = self.fields;
        self.fields += 1;
        self.fault.filter(|fault| fault.field == here).map(|fault| fault.way)
    }

    /// A tag, a flag byte, or a byte of the header.
    pub fn byte(&mut self, b: u8) {
        let wrong = [b ^ 1, b ^ 2, b.wrapping_add(1), b ^ 0x80, 0x0c, 0xff];
        let written = self.wrong().map_or(b, |way| wrong[way]);
        self.out.push(written);
    }

    /// A count, a length, an index or any other number that fits so many bits: padded, one off, too wide or the widest.
    pub fn number(&mut self, value: u64, bits: u32) {
        let widest = u64::MAX >> (64 - bits);
        let wrong = [
            (value, 1),
            (value, 9),
            (value.wrapping_add(1), 0),
            (value.wrapping_sub(1), 0),
            (widest.checked_add(1).unwrap_or(1 << 63), 0),
            (widest, 0),
        ];
        let (written, pad) = self.wrong().map_or((value, 0), |way| wrong[way]);
        put_padded(&mut self.out, written, pad);
    }

    pub fn count(&mut self, n: usize) {
        self.number(n as u64, 64);
    }

    pub fn index(&mut self) {
        let value = self.width(32);
        self.number(value, 32);
    }

    pub fn small(&mut self) {
        let value = self.width(16);
        self.number(value, 16);
    }

    pub fn signed(&mut self) {
        let value = self.width(64);
        self.number(value, 64);
    }

    /// One in three lines is 0, whatever the column.
    pub fn position(&mut self) {
        let line = if self.random.below(3) == 0 { 0 } else { self.width(16) };
        self.number(line, 16);
        self.small();
    }

    pub fn chunk(&mut self) {
        self.index();
        self.index();
        self.small();
    }

    /// A length and bytes, which are wrong as UTF-8 in all ways but the last.
    pub fn text(&mut self, text: &str) {
        let mut bytes = text.as_bytes().to_vec();
        let tails: [&[u8]; WAYS] = [&[], &[0x80], &[0xed, 0xa0, 0x80], &[0xc0, 0x80], &[0xf4, 0x90, 0x80, 0x80], b"\xc3\xa9"];
        match (self.wrong(), bytes.last_mut()) {
            (Some(0), Some(last)) => *last = 0xff,
            (Some(way), _) => bytes.extend(tails[way]),
            _ => (),
        }
        self.counted(&bytes);
    }

    /// A length and bytes.
    pub fn counted(&mut self, bytes: &[u8]) {
        self.count(bytes.len());
        self.out.extend(bytes);
    }

    pub fn raw(&mut self, bytes: &[u8]) {
        self.out.extend(bytes);
    }

    /// Fields whose length stands before them.
    pub fn behind_length(&mut self, fields: impl FnOnce(&mut Self)) {
        let front = std::mem::take(&mut self.out);
        fields(self);
        let part = std::mem::replace(&mut self.out, front);
        self.counted(&part);
    }

    /// A few: from none to three.
    pub fn few(&mut self) -> usize {
        self.random.below(4) as usize
    }

    /// A short text, one in four empty; or a word of up to twelve letters.
    pub fn word(&mut self) -> String {
        if self.style == Style::Plain {
            let size = 1 + self.random.below(12);
            return (0..size).map(|_| char::from(b'a' + self.random.below(26) as u8)).collect();
        }
        let letters = ['a', '+', '=', '\u{e9}', '\u{20ac}', '\u{1f600}'];
        (0..self.few()).map(|_| letters[self.random.below(6) as usize]).collect()
    }
}
