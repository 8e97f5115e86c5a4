//! Constants: trees that are kept as rows, a parent just before its items.

use crate::rows::{span, text, words};
use crate::Table;

/// A constant. Those with items hold an iterator over them.
#[derive(Clone, Debug)]
pub enum Constant<'a> {
    /// `()`
    Unit,
    /// `false` or `true`
    Bool(bool),
    /// An integer.
    Int(i64),
    /// A float.
    Float(f64),
    /// A character.
    Char(char),
    /// A string.
    String(&'a str),
    /// An array.
    Array(Constants<'a>),
    /// A map, its entries in the file's order; a key may stand twice.
    Map(Entries<'a>),
    /// Bytes.
    Blob(&'a [u8]),
    /// `from..to`
    Range {
        /// The first number.
        from: i64,
        /// The number behind the last one.
        to: i64,
    },
    /// `from..=to`
    RangeInclusive {
        /// The first number.
        from: i64,
        /// The last number.
        to: i64,
    },
    /// A pointer to a function.
    FnPtr {
        /// The function's name.
        name: &'a str,
        /// The arguments that it brings along.
        curried: Constants<'a>,
        /// What it points to.
        kind: FnPtrKind,
    },
}

/// What a pointer to a function points to.
#[derive(Clone, Copy, Debug, PartialEq, Eq)]
pub enum FnPtrKind {
    /// Any function of the name.
    Normal,
    /// A function of the script.
    Script {
        /// How many parameters it has.
        parameters: u64,
    },
}

/// Constants that stand side by side: the top ones, the items of an array, or curried arguments.
#[derive(Clone, Debug)]
pub struct Constants<'a> {
    bytes: &'a [u8],
    /// The rows from the next constant on; those of its siblings' items among them.
    rows: &'a [u64],
    left: usize,
}

/// The entries of a map: key and value.
#[derive(Clone, Debug)]
pub struct Entries<'a>(Constants<'a>);

const WORDS: usize = Table::Constants.words();

impl<'a> Constants<'a> {
    pub(crate) fn new(bytes: &'a [u8], rows: &'a [u64], count: u64) -> Self {
        Constants { bytes, rows, left: count as usize }
    }

    /// The next constant, with its key: that is empty unless it is an entry of a map.
    fn next_keyed(&mut self) -> Option<(&'a str, Constant<'a>)> {
        self.left = self.left.checked_sub(1)?;
        let rows = self.rows;
        let inner = rows.get(WORDS..)?;
        self.rows = behind(rows);
        let [tag, a, b, start, length, items, key_start, key_length] = words(rows);
        let items = Constants::new(self.bytes, inner, items);
        let constant = match tag {
            0 => Constant::Unit,
            1 | 2 => Constant::Bool(tag == 2),
            3 => Constant::Int(a as i64),
            4 => Constant::Float(f64::from_bits(a)),
            5 => Constant::Char(char::from_u32(a as u32).unwrap_or_default()),
            6 => Constant::String(text(self.bytes, start, length)),
            7 => Constant::Array(items),
            8 => Constant::Map(Entries(items)),
            9 => Constant::Blob(span(self.bytes, start, length)),
            10 => Constant::Range { from: a as i64, to: b as i64 },
            11 => Constant::RangeInclusive { from: a as i64, to: b as i64 },
            _ => Constant::FnPtr { name: text(self.bytes, start, length), curried: items, kind: pointed_to(a, b) },
        };
        Some((text(self.bytes, key_start, key_length), constant))
    }
}

fn pointed_to(kind: u64, parameters: u64) -> FnPtrKind {
    match kind {
        0x82 => FnPtrKind::Script { parameters },
        _ => FnPtrKind::Normal,
    }
}

/// The rows behind the first constant and all that is inside of it: each row settles one and owes its items.
fn behind(rows: &[u64]) -> &[u64] {
    let mut rest = rows;
    let mut owed = 1u64;
    while owed > 0 {
        let Some(next) = rest.get(WORDS..) else { return &[] };
        let [.., items, _, _]: [u64; WORDS] = words(rest);
        owed = (owed - 1).saturating_add(items);
        rest = next;
    }
    rest
}

impl<'a> Iterator for Constants<'a> {
    type Item = Constant<'a>;

    fn next(&mut self) -> Option<Constant<'a>> {
        self.next_keyed().map(|(_, constant)| constant)
    }

    fn size_hint(&self) -> (usize, Option<usize>) {
        (self.left, Some(self.left))
    }
}

impl ExactSizeIterator for Constants<'_> {}

impl<'a> Iterator for Entries<'a> {
    type Item = (&'a str, Constant<'a>);

    fn next(&mut self) -> Option<Self::Item> {
        self.0.next_keyed()
    }

    fn size_hint(&self) -> (usize, Option<usize>) {
        self.0.size_hint()
    }
}

impl ExactSizeIterator for Entries<'_> {}
