//! Writing tables as an artifact.

use crate::{sys, Artifact, Heading, Refusal, StepFlags};

/// What becomes of the positions of what is written.
#[derive(Clone, Copy, Debug, PartialEq, Eq)]
pub enum Positions {
    /// They are written as they are.
    Kept,
    /// Every position of a chain is written as none, and the position table as empty.
    Stripped,
}

/// What is lent to be written: any heading, any tables and any text. The writer refuses what is not well-formed.
///
/// [`Artifact::model`] gives that of an artifact; its fields may be changed before it is written. [`Model::default`] has
/// nothing in any section, and is the least artifact:
///
/// ```
/// use grain::{Model, Positions, Refusal};
///
/// let model = Model::default();
/// let mut out = [7; 64];
/// assert_eq!(model.write(Positions::Kept, &mut out[..42]), Err(Refusal::NoRoom { needed: 43 }));
/// assert_eq!(out, [7; 64]);
///
/// assert_eq!(model.write(Positions::Kept, &mut out), Ok(43));
/// assert_eq!(&out[..8], b"RGRN\x0b\x00\x08\x08");
/// assert_eq!(out[8..43], [0; 35]);
/// assert_eq!(out[43..], [7; 21]);
/// ```
#[derive(Clone, Copy, Debug, Default)]
pub struct Model<'a> {
    /// What stands outside of the tables, and how many of their rows are written.
    pub heading: Heading,
    /// The words of the tables, in the order of [`Table::ALL`](crate::Table::ALL).
    pub tables: [&'a [u64]; 13],
    /// What the spans cut, those of the heading and those of the rows.
    pub text: &'a [u8],
    /// The step flags that may be written.
    pub mask: StepFlags,
}

impl Model<'_> {
    /// Writes an artifact into the front of `out` and gives its size; the bytes behind it stay. Numbers are written in their
    /// shortest form; code and position table are copied.
    ///
    /// # Errors
    ///
    /// [`Refusal::BadModel`] with the lowest broken rule, else [`Refusal::NoRoom`] with the bytes that are needed; `out`
    /// stays as it was.
    ///
    /// ```
    /// use grain::{Model, Positions, Refusal};
    /// let mut model = Model::default();
    /// model.heading.top_constants = 1; // and there is no row for it
    /// let refused = model.write(Positions::Kept, &mut [0; 64]).unwrap_err();
    /// assert_eq!(refused, Refusal::BadModel { rule: 1 });
    /// ```
    pub fn write(&self, positions: Positions, out: &mut [u8]) -> Result<usize, Refusal> {
        let heading = self.heading.words();
        let lent = sys::Lent { heading, tables: self.tables, text: self.text, mask: self.mask.0 };
        let size = Refusal::answered(sys::write(&lent, positions == Positions::Stripped, out))?;
        Ok(size as usize)
    }

    /// The bytes that are needed: what a write into no room at all answers.
    ///
    /// # Errors
    ///
    /// [`Refusal::BadModel`] with the lowest broken rule.
    ///
    /// ```
    /// use grain::{Model, Positions};
    /// assert_eq!(Model::default().size(Positions::Kept), Ok(43));
    /// ```
    pub fn size(&self, positions: Positions) -> Result<usize, Refusal> {
        match self.write(positions, &mut []) {
            Err(Refusal::NoRoom { needed }) => Ok(needed),
            answered => answered,
        }
    }

    /// Writes an artifact into bytes of its own.
    ///
    /// # Errors
    ///
    /// [`Refusal::BadModel`] with the lowest broken rule.
    #[cfg(feature = "std")]
    pub fn to_bytes(&self, positions: Positions) -> Result<std::vec::Vec<u8>, Refusal> {
        let mut bytes = std::vec![0; self.size(positions)?];
        self.write(positions, &mut bytes)?;
        Ok(bytes)
    }
}

impl Artifact<'_> {
    /// Writes the artifact anew into the front of `out` and gives its size; the bytes behind it stay. What was accepted is
    /// well-formed and takes no more bytes than were read, so as much room as [`Artifact::bytes`] has is always enough.
    ///
    /// # Errors
    ///
    /// [`Refusal::NoRoom`] with the bytes that are needed; `out` stays as it was.
    ///
    /// ```
    /// use grain::{read, Positions, Refusal, StepFlags, Table, Tables};
    ///
    /// // The least artifact with a position table: address 7 at 2:5.
    /// let mut bytes = [0; 47];
    /// bytes[..8].copy_from_slice(b"RGRN\x0b\x00\x08\x08");
    /// bytes[42..].copy_from_slice(&[4, 1, 7, 2, 5]);
    /// let mut tables = Tables::default();
    /// let artifact = read(&bytes, StepFlags::SKIP_IF_UNIT, &mut tables)?;
    ///
    /// let mut out = [0; 47];
    /// assert_eq!(artifact.write(Positions::Kept, &mut out), Ok(47));
    /// assert_eq!(out, bytes);
    /// assert_eq!(artifact.write(Positions::Stripped, &mut out), Ok(43));
    /// assert_eq!(out[42], 0);
    /// # Ok::<(), Refusal>(())
    /// ```
    pub fn write(&self, positions: Positions, out: &mut [u8]) -> Result<usize, Refusal> {
        self.model().write(positions, out)
    }

    /// Writes the artifact anew into bytes of its own, in one call: as many as were read are enough.
    ///
    /// # Errors
    ///
    /// None, as long as the archive keeps what is proved of it: what was accepted is well-formed, and takes no more bytes.
    #[cfg(feature = "std")]
    pub fn to_bytes(&self, positions: Positions) -> Result<std::vec::Vec<u8>, Refusal> {
        let mut bytes = std::vec![0; self.bytes().len()];
        let size = self.write(positions, &mut bytes)?;
        bytes.truncate(size);
        Ok(bytes)
    }
}
