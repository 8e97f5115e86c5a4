//! A refusal in words.

use super::{NamesFault, Place, PositionsFault, Refusal};
use core::fmt;

impl fmt::Display for Refusal {
    fn fmt(&self, f: &mut fmt::Formatter<'_>) -> fmt::Result {
        f.write_str(self.name())?;
        match *self {
            Refusal::Truncated
            | Refusal::BadMagic
            | Refusal::MalformedVarint
            | Refusal::BadUtf8
            | Refusal::ConstantTooDeep => Ok(()),
            Refusal::TooLong { length } => write!(f, ": a length of {length}"),
            Refusal::UnsupportedVersion { found, supported } => {
                write!(f, ": version {found} found, version {supported} is read")
            }
            Refusal::Abi { int, float } => write!(f, ": int width {int}, float width {float}"),
            Refusal::UnknownTag { place, byte } => write!(f, ": byte {byte:02X} in the place of {place}"),
            Refusal::BadIndex { place, index } => write!(f, ": no constant {index}, named at byte {place}"),
            Refusal::Names(fault) => write!(f, ": {fault}"),
            Refusal::Positions(fault) => write!(f, ": {fault}"),
            Refusal::TrailingBytes { count } => write!(f, ": {count} behind the end"),
            Refusal::Full { table } => write!(f, ": table {}, {}", table.number(), table.name()),
            Refusal::BadModel { rule } => write!(f, ": rule {rule}, {}", broken(rule)),
            Refusal::NoRoom { needed } => write!(f, ": {needed} needed"),
            Refusal::NotAscending { address, earlier } => write!(f, ": address {address} behind {earlier}"),
        }
    }
}

/// What is wrong where a rule is broken.
fn broken(rule: u8) -> &'static str {
    match rule {
        1 => "a count or a share does not fit its table",
        2 => "a span lies outside of the text",
        3 => "a string is not UTF-8",
        4 => "the names do not fit their text",
        5 => "a tag or an access is not known, or a flag is outside of the mask",
        6 => "a constant stands inside of more than 64 others",
        7 => "a char is no Unicode scalar",
        8 => "a case names no top constant",
        9 => "a number does not fit its kind",
        10 => "the position table is not sound",
        _ => "the artifact would be longer than 1048576 bytes",
    }
}

impl fmt::Display for Place {
    fn fmt(&self, f: &mut fmt::Formatter<'_>) -> fmt::Result {
        f.write_str(match self {
            Place::Constant => "a constant's tag",
            Place::Root => "a chain root's tag",
            Place::Flags => "a step's flags",
            Place::Step => "a step's tag",
            Place::Tail => "a chain tail's tag",
        })
    }
}

impl fmt::Display for NamesFault {
    fn fmt(&self, f: &mut fmt::Formatter<'_>) -> fmt::Result {
        f.write_str(match self {
            NamesFault::Falls => "an end falls",
            NamesFault::LastEnd => "the last end is not the end of their text",
            NamesFault::NotUtf8 => "their text is not UTF-8",
        })
    }
}

impl fmt::Display for PositionsFault {
    fn fmt(&self, f: &mut fmt::Formatter<'_>) -> fmt::Result {
        match self {
            PositionsFault::Truncated => f.write_str("truncated"),
            PositionsFault::Overflow => f.write_str("overflow"),
            PositionsFault::OutOfOrder { earlier } => write!(f, "out of order behind address {earlier}"),
            PositionsFault::Trailing { count } => write!(f, "{count} trailing"),
        }
    }
}
