//! An artifact that owns its bytes and its tables.

use crate::{sys, Artifact, Heading, Refusal, StepFlags, Table, Tables};
use std::vec::Vec;

/// An artifact with its bytes and its tables, for those who have an allocator.
///
/// ```
/// use grain::{OwnedArtifact, Refusal, StepFlags};
///
/// let mut bytes = vec![0; 43];
/// bytes[..8].copy_from_slice(b"RGRN\x0b\x00\x08\x08");
/// let owned = OwnedArtifact::read(bytes, StepFlags::SKIP_IF_UNIT)?;
/// assert_eq!(owned.artifact().caps(), 0);
///
/// let refused = OwnedArtifact::read(*b"RGRN\x0c\x00", StepFlags::SKIP_IF_UNIT).unwrap_err();
/// assert_eq!(refused.to_string(), "UnsupportedVersion: version 12 found, version 11 is read");
/// # Ok::<(), Refusal>(())
/// ```
#[derive(Clone, Debug)]
pub struct OwnedArtifact {
    bytes: Vec<u8>,
    mask: StepFlags,
    heading: Heading,
    tables: [Vec<u64>; 13],
}

/// The places that each table begins with.
const FIRST_PLACES: usize = 64;

impl OwnedArtifact {
    /// Reads an artifact. A table that is full is made larger, and the read is tried again.
    ///
    /// # Errors
    ///
    /// As [`read`](crate::read), without [`Refusal::Full`].
    pub fn read(bytes: impl Into<Vec<u8>>, mask: StepFlags) -> Result<OwnedArtifact, Refusal> {
        let bytes = bytes.into();
        let mut tables = Table::ALL.map(|table| std::vec![0; FIRST_PLACES * table.words()]);
        loop {
            let answer = sys::read(&bytes, mask.0, &mut lent(&mut tables));
            let [number, first, second, ..] = answer;
            if number == 0 {
                return Ok(OwnedArtifact { bytes, mask, heading: Heading::of(&answer), tables });
            }
            match Refusal::of([number, first, second]) {
                Refusal::Full { table } if grow(&mut tables[table.at()], table, bytes.len()) => {}
                refusal => return Err(refusal),
            }
        }
    }

    /// The artifact, to be looked at.
    pub fn artifact(&self) -> Artifact<'_> {
        Artifact::new(&self.bytes, self.mask, self.heading, self.tables.each_ref().map(Vec::as_slice))
    }
}

/// Four times the places, at most one for each byte: each row is read from at least one. Whether there are more now.
fn grow(words: &mut Vec<u64>, table: Table, bytes: usize) -> bool {
    let places = words.len() / table.words();
    let more = (4 * places).min(bytes);
    if more <= places {
        return false;
    }
    words.resize(more * table.words(), 0);
    true
}

fn lent(tables: &mut [Vec<u64>; 13]) -> Tables<'_> {
    let [names, constants, tokens, assigns, chains, steps, switches, cases, ranges, customs, inputs, functions, parameters] =
        tables;
    Tables {
        names,
        constants,
        tokens,
        assigns,
        chains,
        steps,
        switches,
        cases,
        ranges,
        customs,
        inputs,
        functions,
        parameters,
    }
}
