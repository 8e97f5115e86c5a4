//! The loader of Rhai Grain artifacts, through functions that are proved.
//!
//! The reading and the writing are done by `libgrain.a`, machine code compiled from Rattle, each of whose functions is proved
//! equal to a definition of the format for every input: a torn copy is refused as [`Refusal::Truncated`], bytes too many are
//! counted, and what [`Artifact::write`] writes is read back to the same. This crate lends it buffers and gives what it stored
//! types and names. Any bytes and any tables may be given; none makes it panic.
//!
//! Without features the crate is `no_std` and allocates nothing: the caller lends thirteen tables of words. The feature
//! `std`, which is on by default, adds [`OwnedArtifact`], which brings its own.
//!
//! ```
//! use grain::{read, Refusal, StepFlags, Tables};
//!
//! // The least artifact: magic, version 11, both widths 8, and nothing in any section.
//! let mut bytes = [0; 43];
//! bytes[..8].copy_from_slice(b"RGRN\x0b\x00\x08\x08");
//!
//! let mut tables = Tables::default(); // no room at all, which is enough for it
//! let artifact = read(&bytes, StepFlags::SKIP_IF_UNIT, &mut tables)?;
//! assert_eq!(artifact.source(), None);
//! assert_eq!(artifact.functions().len(), 0);
//!
//! // A copy that ends too early.
//! let torn = read(&bytes[..42], StepFlags::SKIP_IF_UNIT, &mut tables);
//! assert_eq!(torn.unwrap_err(), Refusal::Truncated);
//! # Ok::<(), Refusal>(())
//! ```
#![no_std]
#![deny(unsafe_code, missing_docs)]

#[cfg(feature = "std")]
extern crate std;

mod artifact;
mod constants;
mod debug_id;
mod heading;
#[cfg(feature = "std")]
mod owned;
pub mod pos;
mod read;
pub mod records;
mod refusal;
mod rows;
mod sys;
mod tables;
mod write;

pub use artifact::{Artifact, Names};
pub use constants::{Constant, Constants, Entries, FnPtrKind};
pub use debug_id::debug_id;
pub use heading::{Heading, Span};
#[cfg(feature = "std")]
pub use owned::OwnedArtifact;
pub use read::{is_utf8, read, MAX_BYTES};
pub use refusal::{NamesFault, Place, PositionsFault, Refusal};
pub use rows::Rows;
pub use tables::{StepFlags, Table, Tables};
pub use write::{Model, Positions};
