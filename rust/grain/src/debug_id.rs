//! The debug id.

use crate::sys;

/// The debug id of a position table and of the bytes of the chains: what names the diagnostics that a stripped artifact left
/// behind, and the artifact with them.
///
/// ```
/// assert_eq!(grain::debug_id(b"", b""), 0x6c62272e07bb014262b821756295c58d);
/// assert_eq!(grain::debug_id(b"ab", b"c"), grain::debug_id(b"a", b"bc"));
/// ```
pub fn debug_id(table: &[u8], chains: &[u8]) -> u128 {
    let [low, high] = sys::debug_id(table, chains);
    u128::from(high) << 64 | u128::from(low)
}
