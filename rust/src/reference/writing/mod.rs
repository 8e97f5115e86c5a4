//! A plain reading of document 01's "Well-formed tables, and writing", rule by rule.
mod put;
mod rules;

use crate::lent::{Lent, Way};
use crate::refusals::{Row, BAD_MODEL, LONGEST, NO_ROOM};

/// The number, or 0, and two values; the bytes stand in front of `out` where it is long enough.
pub fn write(lent: Lent, way: Way, out: &mut [u8]) -> Row {
    let rule = rules::lowest_broken(lent, way.mask);
    if rule > 0 {
        return [BAD_MODEL, rule, 0];
    }
    let bytes = put::artifact(lent, way.strip != 0);
    if bytes.len() > LONGEST {
        return [BAD_MODEL, 11, 0];
    }
    let size = bytes.len() as u64;
    match out.get_mut(..bytes.len()) {
        None => [NO_ROOM, size, 0],
        Some(front) => {
            front.copy_from_slice(&bytes);
            [0, size, 0]
        }
    }
}
