//! Reads and `put`, an item being a number.
use super::{best, row, SIZE};
use crate::ours::numbers as ours;
use beside::inputs::Random;
use beside::original;
use rhai_grain::pos::varint;
use std::hint::black_box;

/// The original behind the signatures of libbeside.a.
mod theirs {
    use super::*;

    fn told(read: original::Read<u64>, at: usize, out: *mut [u64; 2]) -> u64 {
        let (number, pair) = match read {
            Ok((value, next)) => (0, [value, next as u64]),
            Err(number) => (number, [0, at as u64]),
        };
        unsafe { *out = pair };
        number
    }

    #[inline(never)]
    pub unsafe extern "C" fn number(bytes: *const u8, len: usize, at: usize, out: *mut [u64; 2]) -> u64 {
        told(original::number(std::slice::from_raw_parts(bytes, len), at), at, out)
    }

    #[inline(never)]
    pub unsafe extern "C" fn index(bytes: *const u8, len: usize, at: usize, out: *mut [u64; 2]) -> u64 {
        told(original::index(std::slice::from_raw_parts(bytes, len), at), at, out)
    }

    #[inline(never)]
    pub unsafe extern "C" fn small(bytes: *const u8, len: usize, at: usize, out: *mut [u64; 2]) -> u64 {
        told(original::small(std::slice::from_raw_parts(bytes, len), at), at, out)
    }

    #[inline(never)]
    pub unsafe extern "C" fn signed(bytes: *const u8, len: usize, at: usize, value: *mut i64, next: *mut usize) -> u64 {
        let (number, z, to) = match original::signed(std::slice::from_raw_parts(bytes, len), at) {
            Ok((z, to)) => (0, z, to),
            Err(number) => (number, 0, at),
        };
        *value = z;
        *next = to;
        number
    }

    /// The original appends to a vector: `out` points to that, with room reserved for all that is appended.
    #[inline(never)]
    pub unsafe extern "C" fn put(out: *mut u8, _room: usize, value: u64, size: *mut usize) -> u64 {
        let vector = &mut *out.cast::<Vec<u8>>();
        let before = vector.len();
        varint::put_u64(vector, value);
        *size = vector.len() - before;
        0
    }
}

/// All numbers of `bytes`, one after the other; answers their sum.
#[inline(never)]
fn read_unsigned(f: ours::ReadUnsigned, bytes: &[u8]) -> u64 {
    let (mut at, mut sum) = (0, 0u64);
    let mut out = [0; 2];
    while at < bytes.len() {
        let number = unsafe { f(bytes.as_ptr(), bytes.len(), at, &mut out) };
        sum = sum.wrapping_add(out[0]).wrapping_add(number);
        at = out[1] as usize + number as usize;
    }
    sum
}

#[inline(never)]
fn read_signed(f: ours::ReadSigned, bytes: &[u8]) -> u64 {
    let (mut at, mut sum) = (0, 0u64);
    let (mut value, mut next) = (0, 0);
    while at < bytes.len() {
        let number = unsafe { f(bytes.as_ptr(), bytes.len(), at, &mut value, &mut next) };
        sum = sum.wrapping_add(value as u64).wrapping_add(number);
        at = next + number as usize;
    }
    sum
}

/// All `values`, one behind the other; answers how many bytes they took. `out` moves on by the bytes written where `moves`
/// is all ones, and stays (it is a vector, which moves by itself) where that is 0.
#[inline(never)]
fn put_all(f: ours::Put, out: *mut u8, room: usize, moves: usize, values: &[u64]) -> u64 {
    let mut at = 0;
    let mut size = 0;
    for &value in values {
        unsafe { f(out.add(at & moves), room - at, value, &mut size) };
        at += size;
    }
    at as u64
}

/// Numbers until their shortest forms take `SIZE` bytes, and those forms.
fn numbers(mut next: impl FnMut() -> u64) -> (Vec<u64>, Vec<u8>) {
    let (mut values, mut bytes) = (Vec::new(), Vec::new());
    while bytes.len() < SIZE {
        let value = next();
        varint::put_u64(&mut bytes, value);
        values.push(value);
    }
    (values, bytes)
}

fn unsigned(what: &str, count: usize, bytes: &[u8], theirs: ours::ReadUnsigned, ours: ours::ReadUnsigned) {
    let (theirs, ours) = (black_box(theirs), black_box(ours));
    row(what, count, best(|| read_unsigned(theirs, bytes), || read_unsigned(ours, bytes)));
}

fn put(what: &str, values: &[u64], size: usize) {
    let mut vector: Vec<u8> = Vec::with_capacity(size);
    let mut lent = vec![0u8; size];
    let (theirs, ours): (ours::Put, ours::Put) = (black_box(theirs::put), black_box(ours::beside_put));
    let least = best(
        || {
            vector.clear();
            put_all(theirs, (&raw mut vector).cast(), size, 0, values)
        },
        || put_all(ours, lent.as_mut_ptr(), size, !0, values),
    );
    row(what, values.len(), least);
    assert_eq!(vector, lent);
}

pub fn all() {
    let mut random = Random::new(5);
    let short = numbers(|| random.below(128));
    let mut random = Random::new(6);
    let mix = numbers(|| if random.below(10) < 9 { random.below(128) } else { random.any_width() });
    let mut random = Random::new(7);
    let long = numbers(|| random.next() | 1 << (56 + random.below(8)));
    // The index's mix is of numbers that fit one.
    let mut random = Random::new(8);
    let narrow = numbers(|| if random.below(10) < 9 { random.below(128) } else { random.any_width() >> 32 });

    unsigned("number, one byte each", short.0.len(), &short.1, theirs::number, ours::grain_number);
    unsigned("number, nine in ten one byte", mix.0.len(), &mix.1, theirs::number, ours::grain_number);
    unsigned("number, nine and ten bytes", long.0.len(), &long.1, theirs::number, ours::grain_number);
    unsigned("index, nine in ten one byte", narrow.0.len(), &narrow.1, theirs::index, ours::beside_index);
    unsigned("small, one byte each", short.0.len(), &short.1, theirs::small, ours::beside_small);
    let (f, g): (ours::ReadSigned, ours::ReadSigned) = (black_box(theirs::signed), black_box(ours::beside_signed));
    row("signed, nine in ten one byte", mix.0.len(), best(|| read_signed(f, &mix.1), || read_signed(g, &mix.1)));
    put("put, nine in ten one byte", &mix.0, mix.1.len());
    put("put, nine and ten bytes", &long.0, long.1.len());
}
