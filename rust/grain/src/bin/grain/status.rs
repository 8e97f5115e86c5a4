//! How a run ends.
use crate::shown;
use grain::Refusal;
use std::ffi::OsStr;
use std::io::{self, Write};
use std::process::ExitCode;

/// The exit status; the worst one of a run is its own.
#[derive(Clone, Copy, Debug, PartialEq, Eq, PartialOrd, Ord)]
pub enum Status {
    /// All that was asked for was accepted.
    Accepted = 0,
    /// Something was refused.
    Refused = 1,
    /// The words were wrong, or something could not be read or written.
    Failed = 2,
}

impl From<Status> for ExitCode {
    fn from(status: Status) -> ExitCode {
        ExitCode::from(status as u8)
    }
}

/// Why a run cannot go on.
#[derive(Debug)]
pub enum Failure {
    /// The words of the command line.
    Usage(String),
    /// A file, by the name that is shown.
    File(String, io::Error),
    /// The output.
    Output(io::Error),
    /// Whoever read the output has gone. Nobody is left to be told.
    Pipe,
}

impl Failure {
    pub fn usage(why: impl Into<String>) -> Failure {
        Failure::Usage(why.into())
    }

    pub fn file(name: &OsStr, why: io::Error) -> Failure {
        Failure::File(shown::file(name), why)
    }

    /// Tells it on standard error, and what it makes of the run.
    pub fn tell(&self) -> Status {
        match self {
            Failure::Usage(why) => {
                complain(&format!("grain: {why}\nTry `grain --help`."));
                Status::Failed
            }
            Failure::File(name, why) => {
                complain(&format!("grain: {name}: {why}"));
                Status::Failed
            }
            Failure::Output(why) => {
                complain(&format!("grain: standard output: {why}"));
                Status::Failed
            }
            Failure::Pipe => Status::Accepted,
        }
    }
}

/// Errors of files are told by [`Failure::file`]; what `?` turns into a failure comes from writing.
impl From<io::Error> for Failure {
    fn from(why: io::Error) -> Failure {
        match why.kind() {
            io::ErrorKind::BrokenPipe => Failure::Pipe,
            _ => Failure::Output(why),
        }
    }
}

/// Tells that what was to be shown is refused.
pub fn refused(name: &OsStr, refusal: Refusal) -> Status {
    complain(&format!("grain: {}: refused {} {refusal}", shown::file(name), refusal.number()));
    Status::Refused
}

/// A line on standard error. Where even that is closed, nothing can be said.
pub fn complain(line: &str) {
    let _ = writeln!(io::stderr(), "{line}");
}
