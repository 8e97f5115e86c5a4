//! The original's writer, on what its reader made of a file.
use super::{know_flags, CAPS};
use rhai_grain::grain::bytecode::TableError;
use rhai_grain::grain::format::AbiMismatch;
use rhai_grain::{settings, Program, ReadError};

pub struct Rewritten {
    pub kept: Vec<u8>,
    pub stripped: Vec<u8>,
    /// Whether the original took the position table for this program's. Where it did not, it is read without one.
    pub has_table: bool,
}

/// Of a file that document 01 accepts. Caps that the original's build lacks are put into what it wrote without them.
pub fn rewritten(bytes: &[u8], mask: u8) -> Rewritten {
    know_flags(mask);
    settings::walk_code(true);
    let (lacking, plain) = match Program::read(bytes) {
        Err(ReadError::Abi(AbiMismatch::MissingCaps { .. })) => (true, without_caps(bytes)),
        _ => (false, bytes.to_vec()),
    };
    let mut again = match Program::read(&plain) {
        Err(ReadError::Positions(TableError::PastTheEnd { .. })) => without_table(&plain),
        program => written(&program.unwrap(), true),
    };
    if lacking {
        again.kept[CAPS].copy_from_slice(&bytes[CAPS]);
        again.stripped[CAPS].copy_from_slice(&bytes[CAPS]);
    }
    again
}

pub fn without_caps(bytes: &[u8]) -> Vec<u8> {
    let mut plain = bytes.to_vec();
    plain[CAPS].fill(0);
    plain
}

fn without_table(bytes: &[u8]) -> Rewritten {
    settings::walk_code(false);
    written(&Program::read(bytes).unwrap(), false)
}

fn written(program: &Program, has_table: bool) -> Rewritten {
    let stripped = program.write_stripped().unwrap().artifact;
    Rewritten { kept: program.write().unwrap(), stripped, has_table }
}
