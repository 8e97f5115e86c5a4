//! Position tables: a row of document 01's table of refusals, or what was asked for.
use crate::refusals::{Row, POSITIONS};
use rhai_grain::pos::{self, Error, Site};
use std::panic::{catch_unwind, AssertUnwindSafe};

pub fn refused(why: Error) -> Row {
    match why {
        Error::Truncated => [POSITIONS, 1, 0],
        Error::Overflow => [POSITIONS, 2, 0],
        Error::OutOfOrder { at } => [POSITIONS, 3, u64::from(at)],
        Error::TrailingBytes { count } => [POSITIONS, 4, count as u64],
    }
}

#[inline]
pub fn check(table: &[u8]) -> Row {
    pos::check(table).map_or_else(refused, |()| [0; 3])
}

/// The number and the count, or the number of the refusal and 0.
#[inline]
pub fn count(table: &[u8]) -> [u64; 2] {
    pos::count(table).map_or_else(|why| [refused(why)[0], 0], |n| [0, u64::from(n)])
}

/// Line and column.
#[inline]
pub fn resolve(table: &[u8], address: u32) -> Option<[u64; 2]> {
    pos::resolve(table, address).map(|site| [u64::from(site.line), u64::from(site.column)])
}

/// The table, or the address and the earlier one at which the original panics.
///
/// Sites are address, line and column.
pub fn encode(sites: &[[u32; 3]]) -> Result<Vec<u8>, [u64; 2]> {
    let given = sites.iter().map(|&[address, line, column]| (address, Site { line, column }));
    catch_unwind(AssertUnwindSafe(|| pos::encode(given))).map_err(|why| offence(why.downcast_ref::<String>().unwrap()))
}

/// The two addresses of the panic's message, which ends in "5 follows 7".
fn offence(message: &str) -> [u64; 2] {
    let (front, earlier) = message.split_once(" follows ").unwrap();
    let (_, address) = front.rsplit_once(' ').unwrap();
    [address, earlier].map(|n| n.parse().unwrap())
}
