//! A refusal as a row of document 01's table, and back.

use super::{NamesFault, Place, PositionsFault, Refusal};
use crate::Table;

impl Refusal {
    /// The row of document 01's table: number, first and second value.
    pub(super) const fn row(self) -> [u64; 3] {
        match self {
            Refusal::TooLong { length } => [1, length as u64, 0],
            Refusal::Truncated => [2, 0, 0],
            Refusal::BadMagic => [3, 0, 0],
            Refusal::UnsupportedVersion { found, supported } => [4, found as u64, supported as u64],
            Refusal::Abi { int, float } => [5, int as u64, float as u64],
            Refusal::MalformedVarint => [6, 0, 0],
            Refusal::BadUtf8 => [7, 0, 0],
            Refusal::UnknownTag { place, byte } => [8, place as u64 + 1, byte as u64],
            Refusal::ConstantTooDeep => [9, 0, 0],
            Refusal::BadIndex { place, index } => [10, place as u64, index as u64],
            Refusal::Names(fault) => [11, fault as u64 + 1, 0],
            Refusal::Positions(PositionsFault::Truncated) => [12, 1, 0],
            Refusal::Positions(PositionsFault::Overflow) => [12, 2, 0],
            Refusal::Positions(PositionsFault::OutOfOrder { earlier }) => [12, 3, earlier as u64],
            Refusal::Positions(PositionsFault::Trailing { count }) => [12, 4, count as u64],
            Refusal::TrailingBytes { count } => [13, count as u64, 0],
            Refusal::Full { table } => [14, table as u64, 0],
            Refusal::BadModel { rule } => [15, rule as u64, 0],
            Refusal::NoRoom { needed } => [16, needed as u64, 0],
            Refusal::NotAscending { address, earlier } => [17, address as u64, earlier as u64],
        }
    }

    /// The refusal of a row that a function of the archive answered. These answer 1 to 17 and nothing else, so the last arms
    /// stand for one number, too: a total function needs no panic.
    pub(crate) fn of(row: [u64; 3]) -> Refusal {
        let [number, first, second] = row;
        match number {
            1 => Refusal::TooLong { length: first as usize },
            2 => Refusal::Truncated,
            3 => Refusal::BadMagic,
            4 => Refusal::UnsupportedVersion { found: first as u16, supported: second as u16 },
            5 => Refusal::Abi { int: first as u8, float: second as u8 },
            6 => Refusal::MalformedVarint,
            7 => Refusal::BadUtf8,
            8 => Refusal::UnknownTag { place: Place::of(first), byte: second as u8 },
            9 => Refusal::ConstantTooDeep,
            10 => Refusal::BadIndex { place: first as usize, index: second as u32 },
            11 => Refusal::Names(NamesFault::of(first)),
            12 => Refusal::Positions(PositionsFault::of(first, second)),
            13 => Refusal::TrailingBytes { count: first as usize },
            14 => Refusal::Full { table: Table::numbered(first) },
            15 => Refusal::BadModel { rule: first as u8 },
            16 => Refusal::NoRoom { needed: first as usize },
            _ => Refusal::NotAscending { address: first as u32, earlier: second as u32 },
        }
    }

    /// The first value of a function that answers a number and two values, where the number is 0; else the refusal.
    pub(crate) fn answered(row: [u64; 3]) -> Result<u64, Refusal> {
        match row {
            [0, value, _] => Ok(value),
            refused => Err(Refusal::of(refused)),
        }
    }
}

impl Place {
    fn of(number: u64) -> Place {
        match number {
            1 => Place::Constant,
            2 => Place::Root,
            3 => Place::Flags,
            4 => Place::Step,
            _ => Place::Tail,
        }
    }
}

impl NamesFault {
    fn of(number: u64) -> NamesFault {
        match number {
            1 => NamesFault::Falls,
            2 => NamesFault::LastEnd,
            _ => NamesFault::NotUtf8,
        }
    }
}

impl PositionsFault {
    fn of(number: u64, value: u64) -> PositionsFault {
        match number {
            1 => PositionsFault::Truncated,
            2 => PositionsFault::Overflow,
            3 => PositionsFault::OutOfOrder { earlier: value as u32 },
            _ => PositionsFault::Trailing { count: value as usize },
        }
    }
}

#[cfg(test)]
mod tests {
    use super::*;

    /// Every row that can be answered, and some of its values.
    fn rows() -> impl Iterator<Item = [u64; 3]> {
        let plain = [2, 3, 6, 7, 9].map(|n| [n, 0, 0]);
        let counted = [1, 13, 16].map(|n| [n, 1 << 40, 0]);
        let rules = (1..=11).map(|rule| [15, rule, 0]);
        let places = (1..=5).map(|place| [8, place, 0xFE]);
        let names = (1..=3).map(|fault| [11, fault, 0]);
        let positions = [[12, 1, 0], [12, 2, 0], [12, 3, 0xFFFF_FFFF], [12, 4, 1 << 40]];
        let tables = (1..=13).map(|table| [14, table, 0]);
        let pairs = [[4, 0xFFFF, 11], [5, 4, 255], [10, 1 << 20, 0xFFFF_FFFF], [17, 1, 0xFFFF_FFFF]];
        let some = plain.into_iter().chain(counted).chain(rules).chain(places);
        some.chain(names).chain(positions).chain(tables).chain(pairs)
    }

    #[test]
    fn a_row_is_its_refusal_and_back() {
        for row in rows() {
            assert_eq!(Refusal::of(row).row(), row);
        }
        assert_eq!(rows().count(), 5 + 3 + 11 + 5 + 3 + 4 + 13 + 4);
    }
}
