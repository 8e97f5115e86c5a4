//! Running the command line.
use std::ffi::OsStr;
use std::io::Write;
use std::path::PathBuf;
use std::process::{Child, Command, Output, Stdio};
use std::{fs, thread};

/// What a run left.
#[derive(Debug, PartialEq, Eq)]
pub struct Ended {
    pub status: i32,
    pub out: String,
    pub err: String,
}

/// A run that said this on standard output, and nothing on standard error.
pub fn said(status: i32, out: impl Into<String>) -> Ended {
    Ended { status, out: out.into(), err: String::new() }
}

/// A run that said this on standard error, and nothing on standard output.
pub fn complained(status: i32, err: impl Into<String>) -> Ended {
    Ended { status, out: String::new(), err: err.into() }
}

pub fn command() -> Command {
    let mut command = Command::new(env!("CARGO_BIN_EXE_grain"));
    command.stdin(Stdio::null()).stdout(Stdio::piped()).stderr(Stdio::piped());
    command
}

pub fn grain<W: AsRef<OsStr>>(words: impl IntoIterator<Item = W>) -> Ended {
    ended(command().args(words).output().unwrap())
}

/// With these bytes on standard input.
pub fn fed<W: AsRef<OsStr>>(input: &[u8], words: impl IntoIterator<Item = W>) -> Ended {
    let mut child: Child = command().args(words).stdin(Stdio::piped()).spawn().unwrap();
    let (mut pipe, input) = (child.stdin.take().unwrap(), input.to_vec());
    // Both ends at once, or a full pipe would hold both. A command that does not read it leaves the pipe closed.
    let feeding = thread::spawn(move || pipe.write_all(&input).ok());
    let output = child.wait_with_output().unwrap();
    feeding.join().unwrap();
    ended(output)
}

fn ended(output: Output) -> Ended {
    Ended {
        status: output.status.code().expect("it ended by itself"),
        out: String::from_utf8(output.stdout).expect("text"),
        err: String::from_utf8(output.stderr).expect("text"),
    }
}

/// The bytes that a command writes.
pub fn bytes(words: &[&str]) -> Vec<u8> {
    let output = command().args(words).output().unwrap();
    assert!(output.status.success() && output.stderr.is_empty(), "{output:?}");
    output.stdout
}

/// A file of a test's own, by a name that no other test uses.
pub fn file(name: &str, bytes: &[u8]) -> String {
    let path = PathBuf::from(env!("CARGO_TARGET_TMPDIR")).join(name);
    fs::write(&path, bytes).unwrap();
    path.into_os_string().into_string().unwrap()
}

/// A folder of a test's own, empty, by a name that no other test uses.
pub fn folder(name: &str) -> PathBuf {
    let path = PathBuf::from(env!("CARGO_TARGET_TMPDIR")).join(name);
    if path.exists() {
        fs::remove_dir_all(&path).unwrap();
    }
    fs::create_dir(&path).unwrap();
    path
}

/// The least artifact.
pub fn least() -> Vec<u8> {
    [b"RGRN\x0b\x00\x08\x08".as_slice(), &[0; 35]].concat()
}
