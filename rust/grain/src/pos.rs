//! Position tables: from the address of an instruction back to a place in the source.
//!
//! A stripped artifact has none; the host that compiled it keeps the table, and resolves the addresses of faults with it.
//! [`check`], [`count`], [`resolve`] and [`encode`] are proved functions; [`entries`] is a walk over proved reads.
//!
//! ```
//! use grain::pos::{self, Site};
//!
//! // Address 0 at 1:1, address 5 at 2:300.
//! let mut table = [0; 16];
//! let size = pos::encode(&[0, 5], &[1, 2], &[1, 300], &mut table)?;
//! let table = &table[..size];
//! assert_eq!(table, [2, 0, 1, 1, 5, 2, 0xAC, 2]);
//!
//! pos::check(table)?;
//! assert_eq!(pos::count(table)?, 2);
//! assert_eq!(pos::resolve(table, 5), Some(Site { line: 2, column: 300 }));
//! assert_eq!(pos::resolve(table, 3), None);
//! # Ok::<(), grain::Refusal>(())
//! ```

use crate::{sys, Refusal};

/// A place in the source.
#[derive(Clone, Copy, Debug, PartialEq, Eq)]
pub struct Site {
    /// The line, from 1; 0 means that it is not known.
    pub line: u32,
    /// The column, from 1; 0 is the start of the line.
    pub column: u32,
}

/// An entry of a table.
#[derive(Clone, Copy, Debug, PartialEq, Eq)]
pub struct Entry {
    /// The address of an instruction.
    pub address: u32,
    /// Its place in the source.
    pub site: Site,
}

/// Checks that a table is sound. Such a table has no limit of length.
///
/// # Errors
///
/// [`Refusal::Positions`] with the first fault.
///
/// ```
/// use grain::{pos, PositionsFault, Refusal};
/// assert_eq!(pos::check(&[0, 0]), Err(Refusal::Positions(PositionsFault::Trailing { count: 1 })));
/// ```
pub fn check(table: &[u8]) -> Result<(), Refusal> {
    Refusal::answered(sys::pos_check(table)).map(|_| ())
}

/// How many entries a table says that it has.
///
/// # Errors
///
/// [`Refusal::Positions`] where that number cannot be read.
pub fn count(table: &[u8]) -> Result<u32, Refusal> {
    let [number, count] = sys::pos_count(table);
    if number != 0 {
        // The number that cannot be read is the first thing that a check reads: it tells the reason.
        check(table)?;
    }
    Ok(count as u32)
}

/// The site of an address, where the table has one. In a table that is not sound a fault before the address gives `None`,
/// and one behind it is not seen.
pub fn resolve(table: &[u8], address: u32) -> Option<Site> {
    let [line, column] = sys::pos_resolve(table, address)?;
    Some(Site { line: line as u32, column: column as u32 })
}

/// Encodes a table into the front of `out` and gives its size. There are as many sites as the shortest list has, at most
/// 262,144. Those of line 0 are dropped; the addresses of the others must ascend.
///
/// # Errors
///
/// [`Refusal::TooLong`], [`Refusal::NotAscending`], or [`Refusal::NoRoom`] with the bytes that are needed; `out` stays as it
/// was.
pub fn encode(addresses: &[u32], lines: &[u32], columns: &[u32], out: &mut [u8]) -> Result<usize, Refusal> {
    Refusal::answered(sys::pos_encode(addresses, lines, columns, out)).map(|size| size as usize)
}

/// The entries of a table, in their order, sites of line 0 too. It ends at the first fault, so [`check`] the table first.
///
/// ```
/// use grain::pos::{self, Entry, Site};
/// let entries: Vec<_> = pos::entries(&[2, 0, 1, 1, 5, 2, 0xAC, 2]).collect();
/// assert_eq!(entries[1], Entry { address: 5, site: Site { line: 2, column: 300 } });
/// ```
pub fn entries(table: &[u8]) -> Entries<'_> {
    let mut entries = Entries { table, at: 0, address: 0, left: 0 };
    entries.left = entries.number().unwrap_or(0);
    entries
}

/// The entries of a table; see [`entries`].
#[derive(Clone, Debug)]
pub struct Entries<'a> {
    table: &'a [u8],
    at: usize,
    address: u32,
    left: u32,
}

impl Entries<'_> {
    fn number(&mut self) -> Option<u32> {
        let (value, next) = sys::number(self.table, self.at)?;
        self.at = next;
        u32::try_from(value).ok()
    }

    fn entry(&mut self) -> Option<Entry> {
        self.left = self.left.checked_sub(1)?;
        self.address = self.address.checked_add(self.number()?)?;
        let site = Site { line: self.number()?, column: self.number()? };
        Some(Entry { address: self.address, site })
    }
}

impl Iterator for Entries<'_> {
    type Item = Entry;

    fn next(&mut self) -> Option<Entry> {
        let entry = self.entry();
        if entry.is_none() {
            self.left = 0;
        }
        entry
    }
}

#[cfg(test)]
mod tests {
    use super::*;
    use crate::PositionsFault;

    #[test]
    fn refused_sites_leave_the_output_as_it_was() {
        let mut out = [7; 8];
        let falling = Refusal::NotAscending { address: 5, earlier: 5 };
        assert_eq!(encode(&[5, 5], &[1, 1], &[1, 1], &mut out), Err(falling));
        assert_eq!(encode(&[0, 5], &[1, 2], &[1, 300], &mut out[..7]), Err(Refusal::NoRoom { needed: 8 }));
        static MANY: [u32; 262_145] = [0; 262_145];
        assert_eq!(encode(&MANY, &MANY, &MANY, &mut out), Err(Refusal::TooLong { length: 262_145 }));
        assert_eq!(out, [7; 8]);
    }

    #[test]
    fn a_count_that_cannot_be_read_has_its_reason() {
        assert_eq!(count(&[]), Err(Refusal::Positions(PositionsFault::Truncated)));
        assert_eq!(count(&[0x80; 10]), Err(Refusal::Positions(PositionsFault::Overflow)));
        assert_eq!(count(&[0x80, 0x80, 0x80, 0x80, 0x10]), Err(Refusal::Positions(PositionsFault::Overflow)));
        // Its entries are not looked at.
        assert_eq!(count(&[9]), Ok(9));
    }

    #[test]
    fn entries_are_what_addresses_resolve_to() {
        let table = [3, 0, 1, 1, 5, 0, 4, 2, 9, 9];
        assert_eq!(check(&table), Ok(()));
        for entry in entries(&table) {
            assert_eq!(resolve(&table, entry.address), (entry.site.line != 0).then_some(entry.site));
        }
        assert_eq!(entries(&table).map(|entry| entry.address).sum::<u32>(), 5 + 7);
        // Cut in the last entry.
        assert_eq!(entries(&table[..9]).count(), 2);
    }
}
