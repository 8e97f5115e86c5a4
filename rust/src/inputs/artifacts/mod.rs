//! Artifacts, written field by field in document 01's order, and with one field that is wrong.
mod constants;
pub mod limits;
pub mod measured;
mod sections;
mod writer;

pub use limits::{least_with, SECTIONS};
pub use writer::{Fault, Style, WAYS};
use writer::Writer;

/// The artifact of a seed, and its fields. With a fault, everything else is the same up to the field that is wrong.
pub fn artifact(seed: u64, fault: Option<Fault>) -> (Vec<u8>, usize) {
    let mut writer = Writer::new(seed, fault);
    sections::artifact(&mut writer);
    writer.done()
}
