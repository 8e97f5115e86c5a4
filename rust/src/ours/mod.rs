//! The functions of libgrain.a and libbeside.a, which Rattle proved. A slice is two words in C, where it stands and how long it is.
pub mod artifact;
pub mod numbers;
pub mod positions;
pub mod written;
