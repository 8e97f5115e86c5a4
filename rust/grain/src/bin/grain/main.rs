//! The command line `grain`: looks at Rhai Grain artifacts, and writes them anew, through the proved functions.
mod args;
mod check;
mod debug_id;
mod dump;
mod files;
mod help;
mod json;
mod output;
mod positions;
mod progress;
mod resolve;
mod rewrite;
mod sample;
mod save;
mod shown;
mod status;
mod writer;

use status::{Failure, Status};
use std::ffi::OsString;
use std::io::{self, Write};
use std::process::ExitCode;

fn main() -> ExitCode {
    let words: Vec<OsString> = std::env::args_os().skip(1).collect();
    let mut out = output::open();
    let ended = match run(&words, &mut *out) {
        Ok(status) => written(out.flush(), status),
        Err(failure) => {
            // What was written before comes first.
            let _ = out.flush();
            failure.tell()
        }
    };
    ended.into()
}

/// The status, unless the last of the output could not be written. A closed pipe does not change it.
fn written(flushed: io::Result<()>, status: Status) -> Status {
    match flushed.map_err(Failure::from) {
        Ok(()) | Err(Failure::Pipe) => status,
        Err(failure) => failure.tell(),
    }
}

fn run(words: &[OsString], out: &mut dyn Write) -> Result<Status, Failure> {
    let Some((command, words)) = words.split_first() else {
        return Err(Failure::usage("a command is missing"));
    };
    let command = command.to_str().unwrap_or_default();
    match command {
        "-h" | "--help" | "help" => return help::asked(words, out),
        "-V" | "--version" => {
            writeln!(out, "grain {}", env!("CARGO_PKG_VERSION"))?;
            return Ok(Status::Accepted);
        }
        _ => {}
    }
    if words.iter().take_while(|word| *word != "--").any(|word| word == "--help" || word == "-h") {
        return help::of(command, out);
    }
    match command {
        "check" => check::run(words, out),
        "dump" => dump::run(words, out),
        "positions" => positions::run(words, out),
        "resolve" => resolve::run(words, out),
        "debug-id" => debug_id::run(words, out),
        "rewrite" => rewrite::rewrite(words, out),
        "strip" => rewrite::strip(words, out),
        "sample" => sample::run(words, out),
        _ => Err(help::unknown(command)),
    }
}
