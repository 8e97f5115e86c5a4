//! Position tables, as the rest of the original sees them.
pub use crate::pos::*;

/// The original's own, or 0 where `settings` says so. `from_table`, which alone calls it, then leaves out its walk over the code,
/// which document 01 leaves out: it asks whether each entry names an instruction.
pub fn count(table: &[u8]) -> Result<u32, Error> {
    if crate::settings::walks_code() {
        crate::pos::count(table)
    } else {
        Ok(0)
    }
}
