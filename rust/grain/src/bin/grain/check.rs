//! `grain check`: accepted or refused, a line a file.
use crate::progress::Progress;
use crate::status::{Failure, Status};
use crate::{args, files, shown};
use grain::StepFlags;
use std::ffi::{OsStr, OsString};
use std::io::Write;

pub fn run(words: &[OsString], out: &mut dyn Write) -> Result<Status, Failure> {
    let args = args::parse(words, &[], &["--mask"])?;
    let mask = args.mask()?;
    if args.plain.is_empty() {
        return Err(Failure::usage("FILE is missing"));
    }
    files::input_once(&args.plain)?;

    let mut progress = Progress::new();
    let mut worst = Status::Accepted;
    for (done, name) in args.plain.iter().enumerate() {
        progress.say(|| format!("{done} of {} files", args.plain.len()));
        let status = match file(name, mask, &mut progress, out) {
            // The files behind it go on.
            Err(failure @ Failure::File(..)) => failure.tell(),
            Err(Failure::Pipe) => return Ok(worst),
            checked => checked?,
        };
        worst = worst.max(status);
    }
    progress.clear();
    Ok(worst)
}

fn file(name: &OsStr, mask: StepFlags, progress: &mut Progress, out: &mut dyn Write) -> Result<Status, Failure> {
    let answer = files::artifact(name, mask, progress);
    progress.clear();
    let name = shown::file(name);
    match answer? {
        Ok(_) => {
            writeln!(out, "{name}: accepted")?;
            Ok(Status::Accepted)
        }
        Err(refusal) => {
            writeln!(out, "{name}: refused {} {refusal}", refusal.number())?;
            Ok(Status::Refused)
        }
    }
}
