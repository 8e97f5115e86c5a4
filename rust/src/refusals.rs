//! Document 01's table: the numbers of the refusals.

/// The refusal's number, or 0, and two values.
pub type Row = [u64; 3];

pub const TOO_LONG: u64 = 1;
pub const TRUNCATED: u64 = 2;
pub const BAD_MAGIC: u64 = 3;
pub const UNSUPPORTED_VERSION: u64 = 4;
pub const ABI: u64 = 5;
pub const MALFORMED: u64 = 6;
pub const BAD_UTF8: u64 = 7;
pub const UNKNOWN_TAG: u64 = 8;
pub const CONSTANT_TOO_DEEP: u64 = 9;
pub const BAD_INDEX: u64 = 10;
pub const NAMES: u64 = 11;
pub const POSITIONS: u64 = 12;
pub const TRAILING_BYTES: u64 = 13;
pub const FULL: u64 = 14;
pub const BAD_MODEL: u64 = 15;
pub const NO_ROOM: u64 = 16;
pub const NOT_ASCENDING: u64 = 17;

/// The longest artifact that is read or written.
pub const LONGEST: usize = 1_048_576;
