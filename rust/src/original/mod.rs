//! What the original answers, in the terms of document 01.
pub mod artifact;
mod numbers;
mod positions;

pub use numbers::{index, number, put, signed, small, unzigzag, zigzag, Read};
pub use positions::{check, count, encode, resolve};
pub use rhai_grain::debug_id;
