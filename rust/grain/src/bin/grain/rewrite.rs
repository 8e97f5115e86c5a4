//! `grain rewrite` and `grain strip`: an artifact written anew, with its positions and without them.
use crate::args::{self, Args};
use crate::progress::Progress;
use crate::save::{self, Place};
use crate::status::{self, complain, Failure, Status};
use crate::{files, output, shown};
use grain::{OwnedArtifact, Positions, Refusal};
use std::ffi::{OsStr, OsString};
use std::io::Write;

pub fn rewrite(words: &[OsString], out: &mut dyn Write) -> Result<Status, Failure> {
    let args = args::parse(words, &[], &["--mask", "-o", "--output"])?;
    run(&args, Positions::Kept, out)
}

pub fn strip(words: &[OsString], out: &mut dyn Write) -> Result<Status, Failure> {
    let args = args::parse(words, &[], &["--mask", "-o", "--output", "--positions"])?;
    run(&args, Positions::Stripped, out)
}

fn run(args: &Args, positions: Positions, out: &mut dyn Write) -> Result<Status, Failure> {
    let (name, mask) = (args.only("FILE")?, args.mask()?);
    let places = Places::of(args, name)?;
    let read = files::artifact(name, mask, &mut Progress::new())?;
    let (owned, bytes) = match read.and_then(|owned| written(owned, positions)) {
        Ok(written) => written,
        Err(refusal) => return Ok(status::refused(name, refusal)),
    };
    let table = owned.artifact().positions();
    // An empty table in the place of one that was saved before would lose that.
    if places.table.is_some() && table.is_empty() {
        complain(&format!("grain: {}: stripped, there is no position table to save", shown::file(name)));
        return Ok(Status::Refused);
    }
    // The table first: a stripped artifact never stands without it.
    let saved = places.table.iter().map(|place| (place, table));
    let saved = saved.chain(places.output.iter().map(|place| (place, bytes.as_slice())));
    save::all(&saved.collect::<Vec<_>>())?;
    if places.output.is_none() {
        output::bytes(&bytes, out)?;
    }
    Ok(Status::Accepted)
}

fn written(owned: OwnedArtifact, positions: Positions) -> Result<(OwnedArtifact, Vec<u8>), Refusal> {
    let bytes = owned.artifact().to_bytes(positions)?;
    Ok((owned, bytes))
}

/// Where the output and the position table go. What is wrong there is told before anything is read.
struct Places<'a> {
    /// None is standard output.
    output: Option<Place<'a>>,
    table: Option<Place<'a>>,
}

impl<'a> Places<'a> {
    fn of(args: &'a Args, name: &OsStr) -> Result<Places<'a>, Failure> {
        let output = args.output().map(Place::of).transpose()?;
        if output.is_none() {
            output::takes_bytes()?;
        }
        let table = args.value("--positions").map(to_file).transpose()?;
        if let Some(table) = &table {
            if output.as_ref().is_some_and(|output| output.is(table)) {
                return Err(Failure::usage("OUT and TABLE are one file"));
            }
            if name != "-" && table.holds(name) {
                return Err(Failure::usage("FILE and TABLE are one file"));
            }
        }
        Ok(Places { output, table })
    }
}

fn to_file(table: &OsStr) -> Result<Place<'_>, Failure> {
    if table == "-" {
        return Err(Failure::usage("TABLE is a file: `grain positions --raw` writes to standard output"));
    }
    Place::of(table)
}
