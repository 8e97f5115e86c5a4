//! Help, versions, wrong words, closed pipes, full disks and terminals.
use crate::process::{bytes, command, complained, file, grain, least, said};
use std::fs::OpenOptions;
use std::io::Read;
use std::process::Command;

const COMMANDS: [&str; 8] = ["check", "dump", "positions", "resolve", "debug-id", "rewrite", "strip", "sample"];

#[test]
fn help_for_all_and_for_each() {
    let all = grain(["--help"]);
    assert_eq!((all.status, all.err.as_str()), (0, ""));
    assert_eq!(grain(["-h"]), all);
    assert_eq!(grain(["help"]), all);
    for command in COMMANDS {
        assert!(all.out.contains(&format!("\n  {command} ")), "{command}");
        let one = grain([command, "--help"]);
        assert!(one.status == 0 && one.out.starts_with(&format!("usage: grain {command} ")), "{one:?}");
        assert_eq!(grain([command, "-h"]), one);
        assert_eq!(grain(["help", command]), one);
    }
}

#[test]
fn the_version() {
    let version = said(0, format!("grain {}\n", env!("CARGO_PKG_VERSION")));
    assert_eq!(grain(["--version"]), version);
    assert_eq!(grain(["-V"]), version);
}

#[test]
fn wrong_words() {
    let none: [&str; 0] = [];
    assert_eq!(grain(none), complained(2, "grain: a command is missing\nTry `grain --help`.\n"));
    assert_eq!(grain(["chek"]), complained(2, "grain: there is no command `chek`\nTry `grain --help`.\n"));
    assert_eq!(grain(["chek", "--help"]).status, 2);
    for command in COMMANDS {
        let unknown = "grain: unknown option `--what`\nTry `grain --help`.\n";
        assert_eq!(grain([command, "--what"]), complained(2, unknown));
    }
    for command in ["check", "dump", "positions", "resolve", "debug-id", "rewrite", "strip"] {
        assert_eq!(grain([command]).status, 2, "{command}");
    }
}

/// An artifact whose dump is far longer than what a pipe holds.
fn long(name: &str) -> String {
    let mut bytes = bytes(&["sample"]);
    let code = bytes.len() - 13;
    bytes.splice(code..code + 4, [vec![0xA0, 0x8D, 0x06], vec![0; 100_000]].concat());
    file(name, &bytes)
}

#[test]
fn a_closed_pipe_ends_it_quietly() {
    let name = long("manners-pipe");
    for words in [vec!["dump", &name], vec!["dump", "--json", &name]] {
        let mut child = command().args(words).spawn().unwrap();
        let mut pipe = child.stdout.take().unwrap();
        pipe.read_exact(&mut [0; 5]).unwrap();
        drop(pipe);
        let ended = child.wait_with_output().unwrap();
        assert!(ended.status.success() && ended.stderr.is_empty(), "{ended:?}");
    }
}

#[test]
fn a_full_disk_is_told() {
    let full = OpenOptions::new().write(true).open("/dev/full").unwrap();
    let ended = command().args(["dump", &long("manners-disk")]).stdout(full).output().unwrap();
    assert_eq!(ended.status.code(), Some(2));
    let err = String::from_utf8(ended.stderr).unwrap();
    assert_eq!(err, "grain: standard output: No space left on device (os error 28)\n");
}

/// What a check writes to standard error, on a terminal or not, when a program of Python feeds it.
fn watched(terminal: bool, feeder: &str, files: &[&str]) -> String {
    let mode = if terminal { "terminal" } else { "pipe" };
    let mut python = Command::new("python3");
    python.args(["-c", include_str!("terminal.py"), mode, feeder, env!("CARGO_BIN_EXE_grain"), "check"]).args(files);
    let ended = python.output().expect("python3 is the terminal");
    assert!(ended.status.success(), "{ended:?}");
    String::from_utf8(ended.stdout).unwrap()
}

#[test]
fn progress_of_a_large_input_is_for_terminals() {
    let slowly = "import os, time\nfor _ in range(8): os.write(1, bytes(1 << 19)); time.sleep(0.1)";
    assert_eq!(watched(false, slowly, &["-"]), "");
    let shown = watched(true, slowly, &["-"]);
    // How much was read when depends on the machine.
    assert!(shown.starts_with("\r\x1b[Kstandard input: ") && shown.contains(" MB read"), "{shown:?}");
    assert!(shown.ends_with("\r\x1b[K"), "{shown:?}");
}

#[test]
fn progress_of_many_files_is_for_terminals() {
    let name = file("manners-least", &least());
    let late = "import time; time.sleep(0.5)";
    assert_eq!(watched(false, late, &["-", &name]), "");
    assert_eq!(watched(true, late, &["-", &name]), "\r\x1b[K1 of 2 files\r\x1b[K");
}
