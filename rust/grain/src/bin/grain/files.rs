//! Reading files, and standard input.
use crate::progress::Progress;
use crate::shown;
use crate::status::Failure;
use grain::{OwnedArtifact, Refusal, StepFlags, MAX_BYTES};
use std::ffi::{OsStr, OsString};
use std::fs::File;
use std::io::{self, Read};

/// An artifact, or why it was refused. Of a file that is too long no more than the reader looks at is kept.
pub fn artifact(
    name: &OsStr,
    mask: StepFlags,
    progress: &mut Progress,
) -> Result<Result<OwnedArtifact, Refusal>, Failure> {
    let (bytes, length) = read(name, MAX_BYTES + 1, progress)?;
    let answer = OwnedArtifact::read(bytes, mask);
    Ok(answer.map_err(|refusal| match refusal {
        Refusal::TooLong { .. } => Refusal::TooLong { length },
        other => other,
    }))
}

/// All bytes of a file: position tables have no limit.
pub fn whole(name: &OsStr) -> Result<Vec<u8>, Failure> {
    read(name, usize::MAX, &mut Progress::new()).map(|(bytes, _)| bytes)
}

/// Standard input is there once.
pub fn input_once(names: &[OsString]) -> Result<(), Failure> {
    match names.iter().filter(|name| *name == "-").count() {
        0 | 1 => Ok(()),
        _ => Err(Failure::usage("standard input can be read only once")),
    }
}

fn read(name: &OsStr, keep: usize, progress: &mut Progress) -> Result<(Vec<u8>, usize), Failure> {
    let told = |why| Failure::file(name, why);
    let taken = if name == "-" {
        take(&mut io::stdin().lock(), name, keep, progress)
    } else {
        take(&mut File::open(name).map_err(told)?, name, keep, progress)
    };
    progress.clear();
    taken.map_err(told)
}

/// The first bytes, and how many there are in all.
fn take(source: &mut dyn Read, name: &OsStr, keep: usize, progress: &mut Progress) -> io::Result<(Vec<u8>, usize)> {
    let mut part = vec![0; 1 << 16];
    let (mut kept, mut length) = (Vec::new(), 0);
    loop {
        let size = match source.read(&mut part) {
            Ok(0) => return Ok((kept, length)),
            Ok(size) => size,
            Err(why) if why.kind() == io::ErrorKind::Interrupted => continue,
            Err(why) => return Err(why),
        };
        let room = keep - kept.len();
        kept.extend_from_slice(&part[..size.min(room)]);
        length += size;
        progress.say(|| format!("{}: {} MB read", shown::file(name), length >> 20));
    }
}
