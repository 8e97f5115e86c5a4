//! How the format writes things: as much of it as the sample needs.

/// A number in its shortest form.
pub fn number(mut value: u64) -> Vec<u8> {
    let mut bytes = Vec::new();
    while value >= 0x80 {
        bytes.push(value as u8 | 0x80);
        value >>= 7;
    }
    bytes.push(value as u8);
    bytes
}

/// A signed number: an even one means its half, an odd one minus the half of its successor.
pub fn signed(value: i64) -> Vec<u8> {
    number((value << 1 ^ value >> 63) as u64)
}

/// A length, and so many bytes.
pub fn text(bytes: impl AsRef<[u8]>) -> Vec<u8> {
    let bytes = bytes.as_ref();
    [number(bytes.len() as u64), bytes.to_vec()].concat()
}

/// A count, and so many records.
pub fn each(records: &[Vec<u8>]) -> Vec<u8> {
    [number(records.len() as u64), records.concat()].concat()
}
