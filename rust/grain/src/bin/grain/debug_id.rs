//! `grain debug-id`: what names a position table and the bytes of the chains.
use crate::status::{Failure, Status};
use crate::{args, files};
use std::ffi::OsString;
use std::io::Write;

pub fn run(words: &[OsString], out: &mut dyn Write) -> Result<Status, Failure> {
    let args = args::parse(words, &[], &[])?;
    let [table, chains] = args.plain.as_slice() else {
        return Err(Failure::usage("TABLE and CHAINS are to be given"));
    };
    files::input_once(&args.plain)?;
    let id = grain::debug_id(&files::whole(table)?, &files::whole(chains)?);
    writeln!(out, "{id:032x}")?;
    Ok(Status::Accepted)
}
