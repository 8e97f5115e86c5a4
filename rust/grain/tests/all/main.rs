//! The crate held to `vectors/`, and the command line held to its words.
mod broken;
mod cases;
mod check;
mod dump;
mod manners;
mod process;
mod rewrite;
mod saved;
mod stack;
mod tables;
mod vectors;
mod words;
mod write;
