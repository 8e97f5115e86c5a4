//! The original's reader: what it read, in the words of the thirteen tables, or a row of document 01's refusals; and its writer.
mod constants;
mod refused;
mod rewritten;
mod rows;

use crate::artifact::Answer;
use crate::refusals::{LONGEST, TOO_LONG};
use rhai_grain::grain::bytecode::TableError;
use rhai_grain::grain::format::AbiMismatch;
pub use rewritten::{rewritten, Rewritten};
use rhai_grain::{settings, Program, ReadError};
use std::ops::Range;

/// The step flags that the original knows.
pub const OWN_MASK: u8 = 0x01;

/// The caps stand at a fixed place.
const CAPS: Range<usize> = 8..12;

/// What document 01 takes for the answer. Where the original refuses by a rule that document 01 leaves behind, that rule is
/// passed by: the walk over the code is off, and missing caps are made none.
pub fn read(bytes: &[u8], mask: u8) -> Answer {
    if bytes.len() > LONGEST {
        return Answer::refused([TOO_LONG, bytes.len() as u64, 0]);
    }
    know_flags(mask);
    settings::walk_code(false);
    match Program::read(bytes) {
        Err(ReadError::Abi(AbiMismatch::MissingCaps { .. })) => without_caps(bytes),
        read => answer(bytes, read),
    }
}

fn know_flags(mask: u8) {
    settings::know_flags((mask != OWN_MASK).then_some(mask));
}

/// A rule that document 01 leaves behind, and that `read` passes by.
#[derive(Debug, Clone, Copy, PartialEq)]
pub enum LeftBehind {
    Caps,
    Walk,
}

/// As the original has it, with its own mask, caps and walk over the code, unless one of the last two refuses the file.
pub fn read_by_all_rules(bytes: &[u8]) -> Result<Answer, LeftBehind> {
    settings::know_flags(None);
    settings::walk_code(true);
    match Program::read(bytes) {
        Err(ReadError::Abi(AbiMismatch::MissingCaps { .. })) => Err(LeftBehind::Caps),
        Err(ReadError::Positions(TableError::PastTheEnd { .. })) => Err(LeftBehind::Walk),
        read => Ok(answer(bytes, read)),
    }
}

fn without_caps(bytes: &[u8]) -> Answer {
    let plain = rewritten::without_caps(bytes);
    let mut answer = answer(&plain, Program::read(&plain));
    if answer.words[0] == 0 {
        answer.words[3] = u64::from(u32::from_le_bytes(bytes[CAPS].try_into().unwrap()));
    }
    answer
}

fn answer(bytes: &[u8], read: Result<Program<'_>, ReadError>) -> Answer {
    match read {
        Ok(program) => Answer::accepted(rows::outside(bytes, &program), rows::tables(bytes, &program)),
        Err(why) => Answer::refused(refused::row(bytes, &why)),
    }
}
