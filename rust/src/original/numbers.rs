//! Numbers: the value and the next place, or a refusal's number.
//!
//! Three things differ between the two, and are brought together here:
//! - The original moves its place before it refuses, and document 01 leaves the place where it stood. So a refused read is
//!   compared by its refusal alone, and the next place only where the read succeeds.
//! - Its `Overflow` is document 01's MalformedVarint in the file.
//! - It has no read of 16 bits. The one here is its 64-bit read and then `u16::try_from`, as its caller does.
use crate::refusals::{MALFORMED, TRUNCATED};
use rhai_grain::pos::varint::{self, Error};

/// The value and the next place, or the refusal's number.
pub type Read<T> = Result<(T, usize), u64>;

fn read<T>(at: usize, f: impl FnOnce(&mut usize) -> Result<T, Error>) -> Read<T> {
    let mut place = at;
    match f(&mut place) {
        Ok(value) => Ok((value, place)),
        Err(Error::Truncated) => Err(TRUNCATED),
        Err(Error::Overflow) => Err(MALFORMED),
    }
}

#[inline]
pub fn number(bytes: &[u8], at: usize) -> Read<u64> {
    read(at, |place| varint::u64(bytes, place))
}

#[inline]
pub fn index(bytes: &[u8], at: usize) -> Read<u64> {
    read(at, |place| varint::u32(bytes, place).map(u64::from))
}

#[inline]
pub fn small(bytes: &[u8], at: usize) -> Read<u64> {
    read(at, |place| {
        let wide = varint::u64(bytes, place)?;
        u16::try_from(wide).map(u64::from).map_err(|_| Error::Overflow)
    })
}

#[inline]
pub fn signed(bytes: &[u8], at: usize) -> Read<i64> {
    read(at, |place| varint::i64(bytes, place))
}

/// The bytes that the original appends for a value.
pub fn put(value: u64) -> Vec<u8> {
    let mut out = Vec::new();
    varint::put_u64(&mut out, value);
    out
}

/// The number that stands for a signed one in the file: what the original writes for it, read back as unsigned.
pub fn zigzag(z: i64) -> u64 {
    let mut out = Vec::new();
    varint::put_i64(&mut out, z);
    number(&out, 0).unwrap().0
}

/// The signed number that an unsigned one stands for.
pub fn unzigzag(u: u64) -> i64 {
    signed(&put(u), 0).unwrap().0
}
