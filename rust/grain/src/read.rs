//! Reading an artifact into what is lent.

use crate::{sys, Artifact, Heading, Refusal, StepFlags, Tables};

/// The bytes that an artifact may have at most.
pub const MAX_BYTES: usize = 1_048_576;

/// Reads an artifact. `mask` has the step flags that are known, usually [`StepFlags::SKIP_IF_UNIT`].
///
/// Where it accepts, the tables have their rows in front and zeros behind them, and the artifact shows them under their
/// names. Where it refuses, every word of every table is zero.
///
/// # Errors
///
/// The first fault in file order, as document 01 has it; [`Refusal::TooLong`] comes before all others.
///
/// ```
/// use grain::{read, Refusal, StepFlags, Tables};
/// let mut tables = Tables::default();
/// assert_eq!(read(b"XYZW", StepFlags::SKIP_IF_UNIT, &mut tables).unwrap_err(), Refusal::BadMagic);
/// ```
pub fn read<'t>(bytes: &'t [u8], mask: StepFlags, tables: &'t mut Tables<'_>) -> Result<Artifact<'t>, Refusal> {
    let answer = sys::read(bytes, mask.0, tables);
    let [number, first, second, ..] = answer;
    if number != 0 {
        return Err(Refusal::of([number, first, second]));
    }
    Ok(Artifact::new(bytes, mask, Heading::of(&answer), tables.shared()))
}

/// Whether the bytes are UTF-8, as RFC 3629 has it.
///
/// ```
/// assert!(grain::is_utf8("größe".as_bytes()));
/// assert!(!grain::is_utf8(b"\xC3"));
/// ```
pub fn is_utf8(bytes: &[u8]) -> bool {
    sys::utf8(bytes)
}
