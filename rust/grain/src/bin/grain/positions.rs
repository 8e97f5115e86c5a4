//! `grain positions`: the entries of a position table.
use crate::progress::Progress;
use crate::status::{self, complain, Failure, Status};
use crate::{args, files, output, shown};
use grain::pos;
use grain::{Refusal, StepFlags};
use std::ffi::{OsStr, OsString};
use std::io::Write;

pub fn run(words: &[OsString], out: &mut dyn Write) -> Result<Status, Failure> {
    let args = args::parse(words, &["--table", "--raw"], &["--mask"])?;
    let (name, mask) = (args.only("FILE")?, args.mask()?);
    let table = if args.has("--table") { lone(name)? } else { of_artifact(name, mask)? };
    let table = match table {
        Ok(table) => table,
        Err(refusal) => return Ok(status::refused(name, refusal)),
    };
    if args.has("--raw") {
        output::bytes(&table, out)?;
    } else {
        for entry in pos::entries(&table) {
            writeln!(out, "{} {}", entry.address, shown::site(entry.site))?;
        }
    }
    Ok(Status::Accepted)
}

/// The position table of an artifact. Where that was stripped it is empty, and this is told.
pub fn of_artifact(name: &OsStr, mask: StepFlags) -> Result<Result<Vec<u8>, Refusal>, Failure> {
    let read = files::artifact(name, mask, &mut Progress::new())?;
    let table = read.map(|owned| owned.artifact().positions().to_vec());
    if table.as_ref().is_ok_and(Vec::is_empty) {
        complain(&format!("grain: {}: stripped, there is no position table", shown::file(name)));
    }
    Ok(table)
}

fn lone(name: &OsStr) -> Result<Result<Vec<u8>, Refusal>, Failure> {
    let table = files::whole(name)?;
    Ok(pos::check(&table).map(|()| table))
}
