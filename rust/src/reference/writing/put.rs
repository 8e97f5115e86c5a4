//! The bytes of well-formed tables, section by section.
use super::rules::items;
use crate::inputs::bytes::put_padded;
use crate::lent::{Lent, BLOB, CODE, POSITIONS, SOURCE, TOPS};
use crate::refusals::LONGEST;

pub fn artifact(m: Lent, strip: bool) -> Vec<u8> {
    let mut out = Out { m, strip, bytes: Vec::new() };
    out.header();
    out.run(m.span(SOURCE));
    out.records(1, |out, row| out.number(row[0]));
    out.run(m.span(BLOB));
    out.number(m.heading[TOPS]);
    out.constants(&mut m.rows(2), m.heading[TOPS], false);
    out.records(3, |out, row| out.run([row[0], row[1]]));
    out.records(4, Out::assign);
    let mut steps = m.rows(6);
    out.records(5, |out, row| out.chain(row, &mut steps));
    let (mut cases, mut ranges) = (m.rows(8), m.rows(9));
    out.records(7, |out, row| out.switch(row, &mut cases, &mut ranges));
    let mut inputs = m.rows(11);
    out.records(10, |out, row| out.site(row, &mut inputs));
    out.numbers(&m.heading[14..17]);
    let mut parameters = m.rows(13);
    out.records(12, |out, row| out.function(row, &mut parameters));
    out.run(m.span(CODE));
    out.run(if strip { [0, 0] } else { m.span(POSITIONS) });
    out.bytes
}

struct Out<'a> {
    m: Lent<'a>,
    strip: bool,
    bytes: Vec<u8>,
}

/// Rows of a table of which the records of another have their shares.
type Rows<'r, 'a> = &'r mut dyn Iterator<Item = &'a [u64]>;

impl<'a> Out<'a> {
    fn number(&mut self, value: u64) {
        put_padded(&mut self.bytes, value, 0);
    }

    fn numbers(&mut self, values: &[u64]) {
        values.iter().for_each(|&value| self.number(value));
    }

    /// Of the 64 bits of a signed number: 2 z, or minus 2 z, less 1.
    fn signed(&mut self, bits: u64) {
        let z = i128::from(bits as i64);
        self.number(if z >= 0 { 2 * z } else { -2 * z - 1 } as u64);
    }

    fn low_bytes(&mut self, word: u64, size: usize) {
        self.bytes.extend(&word.to_le_bytes()[..size]);
    }

    /// A length and the bytes of a span. What is too long already grows by no more texts, which may be the same one many times.
    fn run(&mut self, span: [u64; 2]) {
        self.number(span[1]);
        if span[1] > 0 && self.bytes.len() <= LONGEST {
            self.bytes.extend(self.m.part(span));
        }
    }

    fn position(&mut self, at: &[u64]) {
        let [line, column] = if self.strip { [0, 0] } else { [at[0], at[1]] };
        self.number(line);
        self.number(column);
    }

    fn records(&mut self, table: usize, mut put: impl FnMut(&mut Self, &'a [u64])) {
        self.number(self.m.used(table));
        self.m.rows(table).for_each(|row| put(self, row));
    }

    fn header(&mut self) {
        self.bytes.extend(b"RGRN\x0b\x00\x08\x08");
        self.low_bytes(self.m.heading[3], 4);
        self.low_bytes(self.m.heading[4], 8);
        self.low_bytes(self.m.heading[5], 8);
    }

    fn constants(&mut self, rows: Rows<'_, 'a>, count: u64, keyed: bool) {
        for _ in 0..count {
            let row = rows.next().unwrap();
            if keyed {
                self.run([row[6], row[7]]);
            }
            self.constant(row, rows);
        }
    }

    fn constant(&mut self, row: &'a [u64], rows: Rows<'_, 'a>) {
        let tag = row[0];
        self.low_bytes(tag, 1);
        match tag {
            0x03 => self.signed(row[1]),
            0x04 => self.low_bytes(row[1], 8),
            0x05 => self.number(row[1]),
            0x06 | 0x09 | 0x0d => self.run([row[3], row[4]]),
            0x0a | 0x0b => row[1..3].iter().for_each(|&end| self.signed(end)),
            _ => (),
        }
        if matches!(tag, 0x07 | 0x08 | 0x0d) {
            self.number(items(row));
            self.constants(rows, items(row), tag == 0x08);
        }
        if tag == 0x0d {
            self.low_bytes(row[1], 1);
            if row[1] == 0x82 {
                self.number(row[2]);
            }
        }
    }

    fn assign(&mut self, row: &[u64]) {
        self.run([row[0], row[1]]);
        self.number(row[2]);
        self.run([row[3], row[4]]);
        self.number(row[5]);
    }

    fn chain(&mut self, row: &[u64], steps: Rows<'_, 'a>) {
        self.low_bytes(row[0], 1);
        match row[0] {
            1 => self.numbers(&row[1..3]),
            3 => self.number(row[2]),
            _ => (),
        }
        if row[0] > 2 {
            self.position(&row[3..5]);
        }
        self.numbers(&row[5..7]);
        (0..row[6]).for_each(|_| self.step(steps.next().unwrap()));
        self.low_bytes(row[7], 1);
        if row[7] == 3 {
            self.number(row[8]);
        }
    }

    fn step(&mut self, row: &[u64]) {
        self.low_bytes(row[0], 1);
        self.low_bytes(row[1], 1);
        match row[0] {
            1 => self.number(row[2]),
            2 => self.numbers(&row[3..6]),
            _ => {
                self.number(row[3]);
                self.low_bytes(row[6], 1);
                self.number(row[2]);
            }
        }
        self.position(&row[7..9]);
        if row[0] == 1 {
            self.position(&row[9..11]);
        }
    }

    fn switch(&mut self, row: &[u64], cases: Rows<'_, 'a>, ranges: Rows<'_, 'a>) {
        self.number(row[0]);
        (0..row[0]).for_each(|_| self.numbers(cases.next().unwrap()));
        self.number(row[1]);
        for _ in 0..row[1] {
            let range = ranges.next().unwrap();
            self.signed(range[0]);
            self.signed(range[1]);
            self.low_bytes(range[2], 1);
            self.number(range[3]);
        }
        self.number(row[2]);
    }

    fn site(&mut self, row: &[u64], inputs: Rows<'_, 'a>) {
        self.numbers(row);
        for _ in 0..row[2] {
            let input = inputs.next().unwrap();
            self.numbers(&input[..3]);
            self.number(if input[3] == 0 { 0xffff_ffff } else { input[4] });
        }
    }

    fn function(&mut self, row: &[u64], parameters: Rows<'_, 'a>) {
        self.numbers(&row[..4]);
        (0..row[3]).for_each(|_| self.numbers(parameters.next().unwrap()));
        self.numbers(&row[4..]);
    }
}
