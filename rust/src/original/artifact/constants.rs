//! The rows of the constants, which are a tree in the original and a list in file order here.
use super::rows::Spans;
use rhai_grain::types::fn_ptr::FnPtrType;
use rhai_grain::{Dynamic, FnPtr, ImmutableString};

/// Goes along the bytes with the tree, because the original copies a blob and forgets where it stood.
pub struct Walk<'a> {
    pub spans: Spans<'a>,
    pub at: usize,
    pub rows: Vec<u64>,
}

const NOWHERE: [u64; 2] = [0, 0];

/// A row without its key.
#[derive(Default)]
struct Own {
    tag: u64,
    pair: [u64; 2],
    span: [u64; 2],
    items: usize,
}

impl Walk<'_> {
    /// The constants of a list, behind its count.
    pub fn list(&mut self, values: &[Dynamic]) {
        self.number();
        for value in values {
            self.constant(value, NOWHERE);
        }
    }

    fn number(&mut self) {
        while self.spans.bytes[self.at] & 0x80 != 0 {
            self.at += 1;
        }
        self.at += 1;
    }

    /// The walk must come by where the string stood.
    fn text(&mut self, text: &ImmutableString) -> [u64; 2] {
        self.number();
        let span = self.spans.of(text);
        assert_eq!(span[0], self.at as u64, "the walk along the constants lost its way");
        self.at += text.len();
        span
    }

    fn blob(&mut self, blob: &[u8]) -> [u64; 2] {
        self.number();
        let start = self.at;
        self.at += blob.len();
        [start as u64, blob.len() as u64]
    }

    fn push(&mut self, own: Own, key: [u64; 2]) {
        let Own { tag, pair, span, items } = own;
        self.rows.extend([tag, pair[0], pair[1], span[0], span[1], items as u64, key[0], key[1]]);
    }

    fn constant(&mut self, value: &Dynamic, key: [u64; 2]) {
        self.at += 1;
        match value {
            Dynamic::Array(items) => {
                self.push(Own { tag: 0x07, items: items.len(), ..Own::default() }, key);
                self.list(items);
            }
            Dynamic::Map(entries) => {
                self.push(Own { tag: 0x08, items: entries.len(), ..Own::default() }, key);
                self.number();
                for (key, item) in entries.iter() {
                    let key = self.text(key);
                    self.constant(item, key);
                }
            }
            Dynamic::FnPtr(pointer) => self.pointer(pointer, key),
            scalar => {
                let own = self.scalar(scalar);
                self.push(own, key);
            }
        }
    }

    /// The name, the curried constants, and the kind behind them.
    fn pointer(&mut self, pointer: &FnPtr, key: [u64; 2]) {
        let span = self.text(&pointer.name);
        let pair = match pointer.typ {
            FnPtrType::Script { num_params, .. } => [0x82, num_params as u64],
            _ => [0x81, 0],
        };
        self.push(Own { tag: 0x0d, pair, span, items: pointer.curry.len() }, key);
        self.list(&pointer.curry);
        self.at += 1;
        if pair[0] == 0x82 {
            self.number();
        }
    }

    fn scalar(&mut self, value: &Dynamic) -> Own {
        let own = |tag, pair, span| Own { tag, pair, span, items: 0 };
        match value {
            Dynamic::Bool(b) => own(0x01 + u64::from(*b), NOWHERE, NOWHERE),
            Dynamic::Int(n) => own(0x03, self.numbers([*n, 0], 1), NOWHERE),
            Dynamic::Float(x) => {
                self.at += 8;
                own(0x04, [x.to_bits(), 0], NOWHERE)
            }
            Dynamic::Char(c) => own(0x05, self.numbers([i64::from(u32::from(*c)), 0], 1), NOWHERE),
            Dynamic::Str(text) => own(0x06, NOWHERE, self.text(text)),
            Dynamic::Blob(blob) => own(0x09, NOWHERE, self.blob(blob)),
            Dynamic::Range(r) => own(0x0a, self.numbers([r.start, r.end], 2), NOWHERE),
            Dynamic::RangeInclusive(r) => own(0x0b, self.numbers([*r.start(), *r.end()], 2), NOWHERE),
            _ => Own::default(),
        }
    }

    /// So many numbers stand in the file for the two words.
    fn numbers(&mut self, pair: [i64; 2], count: usize) -> [u64; 2] {
        (0..count).for_each(|_| self.number());
        pair.map(|n| n as u64)
    }
}
