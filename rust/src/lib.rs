//! What the original answers, in document 01's terms; what the two are tried on; and what the programs share.
pub mod artifact;
pub mod inputs;
pub mod lent;
pub mod original;
pub mod reference;
pub mod refusals;
