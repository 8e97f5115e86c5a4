//! The engine's types, as far as an artifact needs them.
pub mod dynamic;
pub mod position;
pub mod text;

pub use text::{StringsInterner, Token};

pub mod fn_ptr {
    #[derive(Debug, Clone)]
    pub enum FnPtrType {
        Normal,
        Script { num_params: usize, hash: u64 },
        Native(core::convert::Infallible),
    }
}
