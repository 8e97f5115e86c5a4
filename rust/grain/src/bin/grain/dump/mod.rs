//! `grain dump`: every section of an artifact.
mod code;
mod json;
mod json_constants;
mod text;
mod tree;
mod view;

use crate::progress::Progress;
use crate::status::{self, Failure, Status};
use crate::{args, files};
use std::ffi::OsString;
use std::io::Write;
use view::View;

pub fn run(words: &[OsString], out: &mut dyn Write) -> Result<Status, Failure> {
    let args = args::parse(words, &["--json"], &["--mask"])?;
    let (name, mask) = (args.only("FILE")?, args.mask()?);
    let owned = match files::artifact(name, mask, &mut Progress::new())? {
        Ok(owned) => owned,
        Err(refusal) => return Ok(status::refused(name, refusal)),
    };
    let view = View::new(owned.artifact());
    if args.has("--json") {
        json::write(&view, out)?;
    } else {
        text::write(&view, out)?;
    }
    Ok(Status::Accepted)
}

#[cfg(test)]
mod tests;
