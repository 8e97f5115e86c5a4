//! Why something was refused: document 01's table, a variant for each row, under its name there and in its order.

mod row;
mod words;

use crate::Table;

/// Where the byte stood that is no known tag, or the flags outside of the mask.
#[derive(Clone, Copy, Debug, PartialEq, Eq)]
pub enum Place {
    /// The tag of a constant, or the kind of a function pointer.
    Constant,
    /// The tag of a chain's root.
    Root,
    /// The flags of a step.
    Flags,
    /// The tag of a step.
    Step,
    /// The tag of a chain's tail.
    Tail,
}

/// What is wrong with the names.
#[derive(Clone, Copy, Debug, PartialEq, Eq)]
pub enum NamesFault {
    /// An end is below the one before it.
    Falls,
    /// The last end is not the length of the text of all names.
    LastEnd,
    /// The text of all names is not UTF-8.
    NotUtf8,
}

/// What is wrong with a position table.
#[derive(Clone, Copy, Debug, PartialEq, Eq)]
pub enum PositionsFault {
    /// It ends too early.
    Truncated,
    /// A number, or an address, is above 32 bits.
    Overflow,
    /// An entry does not ascend.
    OutOfOrder {
        /// The address of the entry before it.
        earlier: u32,
    },
    /// Bytes stand behind the last entry.
    Trailing {
        /// How many.
        count: usize,
    },
}

/// Why something was refused. [`Refusal::number`] is its number in document 01, and in `include/grain.h`.
///
/// Its text has document 01's name and both values in words:
///
/// ```
/// use grain::{Place, Refusal};
/// assert_eq!(Refusal::Truncated.to_string(), "Truncated");
/// let tag = Refusal::UnknownTag { place: Place::Root, byte: 5 };
/// assert_eq!(tag.to_string(), "UnknownTag: byte 05 in the place of a chain root's tag");
/// ```
#[derive(Clone, Copy, Debug, PartialEq, Eq)]
pub enum Refusal {
    /// 1: an artifact above 1,048,576 bytes, or a list of sites above 262,144.
    TooLong {
        /// The bytes, or the sites.
        length: usize,
    },
    /// 2: the bytes end too early.
    Truncated,
    /// 3: it does not begin with "RGRN".
    BadMagic,
    /// 4: another version of the format.
    UnsupportedVersion {
        /// The version found.
        found: u16,
        /// The version that is read: 11.
        supported: u16,
    },
    /// 5: numbers of another width than 8 bytes.
    Abi {
        /// The width of an integer.
        int: u8,
        /// The width of a float.
        float: u8,
    },
    /// 6: a number that does not end, or is too wide for its kind.
    MalformedVarint,
    /// 7: a string that is not UTF-8.
    BadUtf8,
    /// 8: a tag that is not known, or a flag outside of the mask.
    UnknownTag {
        /// Where it stood.
        place: Place,
        /// The byte.
        byte: u8,
    },
    /// 9: a constant inside of more than 64 others.
    ConstantTooDeep,
    /// 10: a case names a constant that there is not.
    BadIndex {
        /// Where the index stands in the file.
        place: usize,
        /// The index.
        index: u32,
    },
    /// 11: the names do not fit their text.
    Names(NamesFault),
    /// 12: a position table that is not sound.
    Positions(PositionsFault),
    /// 13: bytes behind the end.
    TrailingBytes {
        /// How many.
        count: usize,
    },
    /// 14: a lent table has no free place.
    Full {
        /// The table.
        table: Table,
    },
    /// 15: tables that are to be written break a rule.
    BadModel {
        /// The lowest broken rule, 1 to 11: `enum grain_rule` of `include/grain.h` lists them, and this refusal's text has
        /// them in words.
        rule: u8,
    },
    /// 16: the output is too small.
    NoRoom {
        /// The bytes that are needed.
        needed: usize,
    },
    /// 17: sites that do not ascend.
    NotAscending {
        /// The address.
        address: u32,
        /// The one before it.
        earlier: u32,
    },
}

impl Refusal {
    /// Its number in document 01: 1 to 17.
    pub const fn number(self) -> u64 {
        self.row()[0]
    }

    /// Its two values in document 01; those that it does not have are 0.
    pub const fn values(self) -> [u64; 2] {
        let [_, first, second] = self.row();
        [first, second]
    }

    /// Its name in document 01.
    pub const fn name(self) -> &'static str {
        match self {
            Refusal::TooLong { .. } => "TooLong",
            Refusal::Truncated => "Truncated",
            Refusal::BadMagic => "BadMagic",
            Refusal::UnsupportedVersion { .. } => "UnsupportedVersion",
            Refusal::Abi { .. } => "Abi",
            Refusal::MalformedVarint => "MalformedVarint",
            Refusal::BadUtf8 => "BadUtf8",
            Refusal::UnknownTag { .. } => "UnknownTag",
            Refusal::ConstantTooDeep => "ConstantTooDeep",
            Refusal::BadIndex { .. } => "BadIndex",
            Refusal::Names(_) => "Names",
            Refusal::Positions(_) => "Positions",
            Refusal::TrailingBytes { .. } => "TrailingBytes",
            Refusal::Full { .. } => "Full",
            Refusal::BadModel { .. } => "BadModel",
            Refusal::NoRoom { .. } => "NoRoom",
            Refusal::NotAscending { .. } => "NotAscending",
        }
    }
}

#[cfg(feature = "std")]
impl std::error::Error for Refusal {}
