//! The original's reader, compiled from its own files beside stand-ins for what it leans on and what is not at hand.
//!
//! Every stand-in is named in docs/DIFFERENCES.md. Two of them can be told what to do, through `settings`.
extern crate alloc;
// The original calls its own crate by two names, and finds a macro in a third.
extern crate self as bitflags;
extern crate self as rhai;

mod flags;
pub mod func;
pub mod grain;
pub mod settings;
pub mod types;

include!(concat!(env!("OUT_DIR"), "/pos.rs"));

pub use func::{calc_fn_hash, FnAccess};
pub use types::dynamic::{Array, Blob, Dynamic, FnPtr, Map, FLOAT, INT};
pub use types::position::Position;
pub use types::text::ImmutableString;

pub type ThinVec<T> = Vec<T>;
pub type Shared<T> = alloc::rc::Rc<T>;
/// An AST, a module and a module resolver: no artifact holds one.
#[derive(Debug)]
pub enum Expr {}
pub enum SharedModule {}
pub enum StaticModuleResolver {}

pub use grain::format::ReadError;
pub use grain::program::Program;

pub fn debug_id(positions: &[u8], chains: &[u8]) -> u128 {
    grain::format::debug_id(positions, chains)
}
