//! Files to measure by: of a given size, mixed or all of one section.
use super::limits::{least_with, CODE};
use super::writer::{Style, Writer};
use super::{constants, sections};
use crate::inputs::bytes::put_padded;
use crate::original;

/// What a file is made of: as many records in each section, or all of one.
#[derive(Debug, Clone, Copy)]
pub enum Of {
    All,
    Names,
    Constants,
    Tokens,
    Assigns,
    Chains,
    Switches,
    Sites,
    Functions,
    Code,
}

/// A stripped file of about so many bytes.
pub fn file(of: Of, style: Style, size: usize) -> Vec<u8> {
    // The records of a sample say how many it takes.
    let sample = 1_000;
    let records = size * sample / with_records(of, style, sample).len();
    with_records(of, style, records.max(1))
}

fn with_records(of: Of, style: Style, records: usize) -> Vec<u8> {
    let mut writer = Writer::large(1, records, style);
    let w = &mut writer;
    match of {
        Of::All => sections::artifact(w),
        Of::Names => sections::names(w),
        Of::Constants => drop(constants::constants(w)),
        Of::Tokens => sections::tokens(w),
        Of::Assigns => sections::assigns(w),
        Of::Chains => sections::chains(w),
        // There are no constants, so there are ranges and no cases.
        Of::Switches => sections::switches(w, 0),
        Of::Sites => sections::sites(w),
        Of::Functions => sections::functions(w),
        Of::Code => return with_code(records),
    }
    let written = writer.done().0;
    section(of).map_or_else(|| written.clone(), |section| least_with(section, &written))
}

/// Its number among the sections, where it is one.
fn section(of: Of) -> Option<usize> {
    let numbers = [None, Some(1), Some(2), Some(3), Some(4), Some(5), Some(6), Some(7), Some(9), Some(CODE)];
    numbers[of as usize]
}

/// The least instruction, so many times.
fn with_code(instructions: usize) -> Vec<u8> {
    let mut section = Vec::new();
    put_padded(&mut section, instructions as u64, 0);
    section.resize(section.len() + instructions, 0x02);
    least_with(CODE, &section)
}

/// Code of so many instructions, and a position for each.
pub fn with_positions(instructions: usize) -> Vec<u8> {
    let sites: Vec<[u32; 3]> = (0..instructions as u32).map(|at| [at, 1 + at / 4, 1 + at % 80]).collect();
    let table = original::encode(&sites).unwrap();
    let mut file = with_code(instructions);
    file.pop();
    put_padded(&mut file, table.len() as u64, 0);
    file.extend(table);
    file
}
