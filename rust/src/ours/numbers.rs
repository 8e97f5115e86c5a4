//! Numbers and UTF-8.
use beside::original::Read;

pub type ReadUnsigned = unsafe extern "C" fn(*const u8, usize, usize, *mut [u64; 2]) -> u64;
pub type ReadSigned = unsafe extern "C" fn(*const u8, usize, usize, *mut i64, *mut usize) -> u64;
pub type Put = unsafe extern "C" fn(*mut u8, usize, u64, *mut usize) -> u64;
pub type Test = unsafe extern "C" fn(*const u8, usize) -> bool;

extern "C" {
    pub fn grain_number(bytes: *const u8, len: usize, at: usize, out: *mut [u64; 2]) -> u64;
    pub fn beside_index(bytes: *const u8, len: usize, at: usize, out: *mut [u64; 2]) -> u64;
    pub fn beside_small(bytes: *const u8, len: usize, at: usize, out: *mut [u64; 2]) -> u64;
    pub fn beside_signed(bytes: *const u8, len: usize, at: usize, value: *mut i64, next: *mut usize) -> u64;
    pub fn beside_put(out: *mut u8, len: usize, value: u64, size: *mut usize) -> u64;
    fn beside_size(value: u64) -> usize;
    fn beside_zigzag(z: i64) -> u64;
    fn beside_unzigzag(u: u64) -> i64;
    fn grain_utf8(bytes: *const u8, len: usize) -> u64;
}

/// The original answers a bool, and ours 1 or 0.
pub unsafe extern "C" fn utf8(bytes: *const u8, len: usize) -> bool {
    grain_utf8(bytes, len) == 1
}

/// What a read answers. Where it is refused it has to leave 0 and the place where it began.
pub fn unsigned(f: ReadUnsigned, bytes: &[u8], at: usize) -> Read<u64> {
    let mut out = [!0, !0];
    let number = unsafe { f(bytes.as_ptr(), bytes.len(), at, &mut out) };
    answered(number, out[0], out[1] as usize, at, 0)
}

pub fn signed(bytes: &[u8], at: usize) -> Read<i64> {
    let (mut value, mut next) = (-1, !0);
    let number = unsafe { beside_signed(bytes.as_ptr(), bytes.len(), at, &mut value, &mut next) };
    answered(number, value, next, at, 0)
}

fn answered<T: PartialEq + std::fmt::Debug>(number: u64, value: T, next: usize, at: usize, zero: T) -> Read<T> {
    if number == 0 {
        return Ok((value, next));
    }
    if value != zero || next != at {
        println!("refused as {number} at place {at}, and left {value:?} and {next}");
        std::process::exit(1);
    }
    Err(number)
}

/// The refusal's number or 0, and the bytes written or needed.
pub fn put(out: &mut [u8], value: u64) -> (u64, usize) {
    let mut size = !0;
    let number = unsafe { beside_put(out.as_mut_ptr(), out.len(), value, &mut size) };
    (number, size)
}

pub fn size(value: u64) -> usize {
    unsafe { beside_size(value) }
}

pub fn zigzag(z: i64) -> u64 {
    unsafe { beside_zigzag(z) }
}

pub fn unzigzag(u: u64) -> i64 {
    unsafe { beside_unzigzag(u) }
}

pub fn is_utf8(bytes: &[u8]) -> bool {
    unsafe { utf8(bytes.as_ptr(), bytes.len()) }
}
