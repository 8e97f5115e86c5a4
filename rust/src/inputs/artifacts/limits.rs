//! The least artifact with one section changed, which reaches the limits.

/// What the least artifact has of each section behind the header: source name, names, constants, tokens, assigns, chains,
/// switches, custom syntax, main chunk, functions, code, position table.
pub const SECTIONS: [&[u8]; 12] = [b"\0", b"\0\0", b"\0", b"\0", b"\0", b"\0", b"\0", b"\0", b"\0\0\0", b"\0", b"\0", b"\0"];

pub const CONSTANTS: usize = 2;
pub const CODE: usize = 10;

/// The least artifact with other bytes for one section.
pub fn least_with(section: usize, bytes: &[u8]) -> Vec<u8> {
    let mut out = b"RGRN\x0b\0\x08\x08".to_vec();
    out.resize(28, 0);
    for (k, least) in SECTIONS.iter().enumerate() {
        out.extend_from_slice(if k == section { bytes } else { least });
    }
    out
}

/// One constant: a unit under so many arrays, maps or pointers.
pub fn nested(list: u8, levels: usize) -> Vec<u8> {
    nested_over(list, levels, b"\0")
}

/// One constant: another one under so many arrays, maps or pointers.
pub fn nested_over(list: u8, levels: usize, innermost: &[u8]) -> Vec<u8> {
    let mut out = vec![1];
    for _ in 0..levels {
        match list {
            0x07 => out.extend([0x07, 1]),
            0x08 => out.extend([0x08, 1, 1, b'k']),
            _ => out.extend([0x0d, 1, b'f', 1]),
        }
    }
    out.extend(innermost);
    if list == 0x0d {
        out.resize(out.len() + levels, 0x81);
    }
    least_with(CONSTANTS, &out)
}
