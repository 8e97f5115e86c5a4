//! The original's folder `grain`, as far as an artifact needs it.
pub mod bytecode;
pub mod pos;
pub mod program;
pub mod vm;

include!(concat!(env!("OUT_DIR"), "/format.rs"));
