//! What was read. A function and the parts of a program are the original's own; `verify` answers yes to all.
use crate::grain::bytecode::{AssignOp, Chain, Chunk, Code, CustomSyntaxSite, Positions, Strings, Switch, VerifyError};
use crate::grain::format::Caps;
use crate::types::Token;
use crate::{Dynamic, Expr, FnAccess, ImmutableString, Position, Shared, SharedModule, StaticModuleResolver};

include!(concat!(env!("OUT_DIR"), "/parts.rs"));

pub struct Program<'a> {
    caps: Caps,
    code: Code<'a>,
    main: Chunk,
    functions: Vec<Function>,
    parts: Parts<'a>,
}

impl<'a> Program<'a> {
    pub(crate) fn new(caps: Caps, code: Code<'a>, main: Chunk, functions: Vec<Function>, parts: Parts<'a>) -> Self {
        Self { caps, code, main, functions, parts }
    }

    pub(crate) fn verify(&self) -> Result<(), VerifyError> {
        Ok(())
    }

    pub fn caps(&self) -> Caps {
        self.caps
    }

    pub fn code(&self) -> &[u8] {
        &self.code
    }

    pub fn main(&self) -> &Chunk {
        &self.main
    }

    pub fn functions(&self) -> &[Function] {
        &self.functions
    }

    pub fn positions(&self) -> &Positions {
        &self.parts.positions
    }

    /// Every file has one.
    pub fn debug_id(&self) -> u128 {
        self.parts.debug_id.unwrap()
    }

    pub fn consts(&self) -> &[Dynamic] {
        &self.parts.consts
    }

    pub fn names(&self) -> &Strings<'a> {
        &self.parts.names
    }

    pub fn tokens(&self) -> &[Token] {
        &self.parts.tokens
    }

    pub fn assign_ops(&self) -> &[AssignOp] {
        &self.parts.assign_ops
    }

    pub fn chains(&self) -> &[Chain] {
        &self.parts.chains
    }

    pub fn switches(&self) -> &[Switch] {
        &self.parts.switches
    }

    pub fn custom_syntax(&self) -> &[CustomSyntaxSite] {
        &self.parts.custom_syntax
    }

    pub fn source(&self) -> Option<&ImmutableString> {
        self.parts.source.as_ref()
    }

    pub(crate) fn residual_count(&self) -> usize {
        self.parts.residuals.len()
    }

    pub(crate) fn first_unsupported(&self) -> Option<(&'static str, Position)> {
        None
    }

    pub(crate) fn lib(&self) -> Option<&SharedModule> {
        self.parts.lib.as_ref()
    }
}
