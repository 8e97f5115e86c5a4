//! Loads an artifact as a display would: into tables of a fixed size, through the part of the crate that allocates nothing.
//!
//!     cargo run --example display -- FILE
//!
//! Exit status: 0 accepted, 1 refused, 2 usage or a file that cannot be read.
use grain::{read, Artifact, StepFlags, Table, Tables};
use std::process::ExitCode;
use std::{env, fs};

/// The words of so many rows: this display's own limits.
const fn rows(table: Table, count: usize) -> usize {
    count * table.words()
}

fn main() -> ExitCode {
    let Some(name) = env::args_os().nth(1) else {
        eprintln!("usage: display FILE");
        return ExitCode::from(2);
    };
    match fs::read(&name) {
        Ok(bytes) => load(&bytes),
        Err(why) => {
            eprintln!("display: {}: {why}", name.to_string_lossy());
            ExitCode::from(2)
        }
    }
}

fn load(bytes: &[u8]) -> ExitCode {
    let mut tables = Tables {
        names: &mut [0; rows(Table::Names, 512)],
        constants: &mut [0; rows(Table::Constants, 512)],
        tokens: &mut [0; rows(Table::Tokens, 64)],
        assigns: &mut [0; rows(Table::Assigns, 64)],
        chains: &mut [0; rows(Table::Chains, 256)],
        steps: &mut [0; rows(Table::Steps, 512)],
        switches: &mut [0; rows(Table::Switches, 64)],
        cases: &mut [0; rows(Table::Cases, 256)],
        ranges: &mut [0; rows(Table::Ranges, 64)],
        customs: &mut [0; rows(Table::Customs, 64)],
        inputs: &mut [0; rows(Table::Inputs, 128)],
        functions: &mut [0; rows(Table::Functions, 128)],
        parameters: &mut [0; rows(Table::Parameters, 512)],
    };
    match read(bytes, StepFlags::SKIP_IF_UNIT, &mut tables) {
        Ok(artifact) => {
            show(&artifact);
            ExitCode::SUCCESS
        }
        Err(refusal) => {
            println!("refused {}: {refusal}", refusal.number());
            ExitCode::FAILURE
        }
    }
}

fn show(artifact: &Artifact<'_>) {
    println!("accepted, debug id {:032x}", artifact.debug_id());
    for function in artifact.functions() {
        let name = artifact.name(function.name).map(String::from_utf8_lossy);
        let name = name.as_deref().unwrap_or("without a name");
        println!("function {name}, parameters {}", function.parameters.len());
    }
}
