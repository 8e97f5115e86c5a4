//! Chains, positions and sites are the original's own, and so are the widths of instructions and `VerifyError`.
use crate::func::StraightHashMap;
use crate::types::Token;

include!(concat!(env!("OUT_DIR"), "/bytecode.rs"));

pub mod code {
    include!(concat!(env!("OUT_DIR"), "/code.rs"));
}

mod verify {
    include!(concat!(env!("OUT_DIR"), "/verify.rs"));
}

pub use chain::{Chain, Root, Step, StepFlags, Tail};
pub use positions::{Positions, TableError};
pub use verify::VerifyError;

pub type Code<'a> = alloc::borrow::Cow<'a, [u8]>;

/// The names: a blob, and where each begins and the last ends.
#[derive(Debug)]
pub struct Strings<'a> {
    blob: &'a [u8],
    starts: Vec<u32>,
}

/// What is wrong with the names, by document 01's house rule.
#[derive(Debug, Clone, PartialEq, Eq)]
pub enum BadTable {
    Falls,
    LastEnd,
    Utf8,
}

impl<'a> Strings<'a> {
    pub fn borrowed(blob: &'a [u8], starts: Vec<u32>) -> Result<Self, BadTable> {
        if starts.windows(2).any(|pair| pair[1] < pair[0]) {
            return Err(BadTable::Falls);
        }
        if starts.last().map(|&last| last as usize) != Some(blob.len()) {
            return Err(BadTable::LastEnd);
        }
        core::str::from_utf8(blob).map_err(|_| BadTable::Utf8)?;
        Ok(Self { blob, starts })
    }

    pub fn len(&self) -> usize {
        self.starts.len() - 1
    }

    pub fn starts(&self) -> &[u32] {
        &self.starts
    }

    pub fn blob(&self) -> &'a [u8] {
        self.blob
    }
}

#[derive(Debug, Clone, Copy)]
pub struct Chunk {
    entry: u32,
    end: u32,
    max_stack: u16,
}

impl Chunk {
    pub fn new(entry: u32, end: u32, max_stack: u16) -> Self {
        Self { entry, end, max_stack }
    }

    pub fn entry(&self) -> u32 {
        self.entry
    }

    pub fn end(&self) -> u32 {
        self.end
    }

    pub fn max_stack(&self) -> u16 {
        self.max_stack
    }
}

#[derive(Debug)]
pub struct AssignOp {
    pub op_assign: Token,
    pub op_assign_name: u32,
    pub op: Token,
    pub op_name: u32,
}

#[derive(Debug)]
pub struct SwitchRange {
    pub from: crate::INT,
    pub to: crate::INT,
    pub inclusive: bool,
    pub target: u32,
}

#[derive(Debug)]
pub struct Switch {
    pub cases: Option<StraightHashMap<(u32, u32)>>,
    pub ranges: Vec<SwitchRange>,
    pub default: u32,
}

#[derive(Debug)]
pub struct CustomSyntaxSite {
    pub key: u32,
    pub state: u32,
    pub inputs: Vec<(Chunk, Option<u32>)>,
}
