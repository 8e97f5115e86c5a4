//! A case of ../vectors: the flag mask, how many words of each table are lent, and the artifact.

pub struct Case<'a> {
    pub mask: u8,
    pub lengths: [usize; 13],
    pub artifact: &'a [u8],
}

/// A byte, and two for each table.
const FRONT: usize = 1 + 2 * 13;

impl Case<'_> {
    /// Nothing, where the bytes do not reach to the artifact.
    pub fn of(bytes: &[u8]) -> Option<Case<'_>> {
        let (front, artifact) = bytes.split_at_checked(FRONT)?;
        let lengths = std::array::from_fn(|k| usize::from(u16::from_le_bytes([front[1 + 2 * k], front[2 + 2 * k]])));
        Some(Case { mask: front[0], lengths, artifact })
    }
}
