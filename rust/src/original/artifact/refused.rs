//! The original's refusals as rows of document 01.
use crate::original::positions;
use crate::refusals::*;
use rhai_grain::grain::bytecode::{BadTable, TableError, VerifyError};
use rhai_grain::grain::format::AbiMismatch;
use rhai_grain::ReadError;

pub fn row(bytes: &[u8], why: &ReadError) -> Row {
    match why {
        ReadError::Truncated => [TRUNCATED, 0, 0],
        ReadError::BadMagic => [BAD_MAGIC, 0, 0],
        ReadError::UnsupportedVersion { found, supported } => {
            [UNSUPPORTED_VERSION, u64::from(*found), u64::from(*supported)]
        }
        ReadError::Abi(AbiMismatch::DataWidth { what, artifact, .. }) => abi(bytes, what, *artifact),
        ReadError::MalformedVarint => [MALFORMED, 0, 0],
        ReadError::BadUtf8 => [BAD_UTF8, 0, 0],
        ReadError::UnknownTag { section, tag } => [UNKNOWN_TAG, place(section), u64::from(*tag)],
        ReadError::ConstantTooDeep => [CONSTANT_TOO_DEEP, 0, 0],
        ReadError::Unverifiable(VerifyError::BadIndex { at, index, .. }) => [BAD_INDEX, *at as u64, u64::from(*index)],
        ReadError::Names(BadTable::Falls) => [NAMES, 1, 0],
        ReadError::Names(BadTable::LastEnd) => [NAMES, 2, 0],
        ReadError::Names(BadTable::Utf8) => [NAMES, 3, 0],
        ReadError::Positions(TableError::Malformed(error)) => positions::refused(*error),
        ReadError::TrailingBytes { count } => [TRAILING_BYTES, *count as u64, 0],
        other => panic!("document 01 has no row for {other:?}"),
    }
}

/// The original names the first width that differs, and document 01 both.
fn abi(bytes: &[u8], what: &str, artifact: u8) -> Row {
    match what {
        "integer" => [ABI, u64::from(artifact), u64::from(bytes[7])],
        _ => [ABI, u64::from(bytes[6]), u64::from(artifact)],
    }
}

fn place(section: &str) -> u64 {
    match section {
        "constant" => 1,
        "chain root" => 2,
        "chain step flags" => 3,
        "chain step" => 4,
        "chain tail" => 5,
        other => panic!("document 01 has no number for {other}"),
    }
}
