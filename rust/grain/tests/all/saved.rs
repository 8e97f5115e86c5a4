//! Where `grain rewrite` and `grain strip` write: a file whole or not at all, and nothing left beside it.
use crate::process::{bytes, command, complained, folder, grain, said};
use std::fs::{self, Permissions};
use std::os::unix::fs::{symlink, PermissionsExt};
use std::path::{Path, PathBuf};
use std::process::Command;

/// A folder with the sample in it, and an output that was there before.
struct Desk {
    at: PathBuf,
}

const BEFORE: &[u8] = b"before";

impl Desk {
    fn new(name: &str) -> Desk {
        let at = folder(name);
        fs::write(at.join("source"), bytes(&["sample"])).unwrap();
        fs::write(at.join("out"), BEFORE).unwrap();
        Desk { at }
    }

    fn path(&self, name: &str) -> String {
        self.at.join(name).into_os_string().into_string().unwrap()
    }

    fn read(&self, name: &str) -> Vec<u8> {
        fs::read(self.at.join(name)).unwrap()
    }

    fn names(&self) -> Vec<String> {
        names(&self.at)
    }
}

/// A link that a test made would be in the way of the next gate: `rt ci` takes none in the repository.
impl Drop for Desk {
    fn drop(&mut self) {
        let _ = fs::remove_dir_all(&self.at);
    }
}

/// What is in a folder, hidden files too.
fn names(at: &Path) -> Vec<String> {
    let entries = fs::read_dir(at).unwrap().map(|entry| entry.unwrap().file_name().into_string().unwrap());
    let mut names: Vec<_> = entries.collect();
    names.sort();
    names
}

fn stripped(desk: &Desk) -> Vec<u8> {
    bytes(&["strip", &desk.path("source")])
}

#[test]
fn what_is_there_is_replaced_and_keeps_its_mode() {
    let desk = Desk::new("saved-replaced");
    fs::set_permissions(desk.path("out"), Permissions::from_mode(0o640)).unwrap();
    assert_eq!(grain(["strip", &desk.path("source"), "-o", &desk.path("out")]), said(0, ""));
    assert_eq!(desk.read("out"), stripped(&desk));
    assert_eq!(fs::metadata(desk.path("out")).unwrap().permissions().mode() & 0o777, 0o640);
    assert_eq!(desk.names(), ["out", "source"]);
}

/// The old one or the new one, whenever it is looked at.
#[test]
fn whoever_reads_meanwhile_finds_a_whole_file() {
    let desk = Desk::new("saved-meanwhile");
    let (source, out) = (desk.path("source"), desk.path("out"));
    let whole = [bytes(&["rewrite", &source]), bytes(&["strip", &source])];
    fs::write(&out, &whole[0]).unwrap();
    let writing = std::thread::spawn(move || {
        for command in ["strip", "rewrite"].repeat(20) {
            assert_eq!(grain([command, &source, "-o", &out]), said(0, ""));
        }
    });
    while !writing.is_finished() {
        assert!(whole.contains(&desk.read("out")));
    }
    writing.join().unwrap();
    assert_eq!(desk.names(), ["out", "source"]);
}

#[test]
fn out_may_be_the_file_itself() {
    let desk = Desk::new("saved-itself");
    let wanted = stripped(&desk);
    let (source, table) = (desk.path("source"), desk.path("table"));
    assert_eq!(grain(["strip", &source, "-o", &source, "--positions", &table]), said(0, ""));
    assert_eq!(desk.read("source"), wanted);
    assert_eq!(desk.names(), ["out", "source", "table"]);
}

#[test]
fn a_name_without_a_folder_is_in_this_one() {
    let desk = Desk::new("saved-here");
    let ended = command().args(["rewrite", "source", "-o", "new"]).current_dir(&desk.at).output().unwrap();
    assert!(ended.status.success(), "{ended:?}");
    assert_eq!(desk.names(), ["new", "out", "source"]);
}

#[test]
fn a_link_stays_and_its_file_is_replaced() {
    let desk = Desk::new("saved-link");
    let away = folder("saved-link-away");
    fs::write(away.join("file"), BEFORE).unwrap();
    symlink(away.join("file"), desk.path("link")).unwrap();
    assert_eq!(grain(["strip", &desk.path("source"), "-o", &desk.path("link")]), said(0, ""));
    assert!(fs::symlink_metadata(desk.path("link")).unwrap().is_symlink());
    assert_eq!(fs::read(away.join("file")).unwrap(), stripped(&desk));
    assert_eq!((desk.names().len(), names(&away).len()), (3, 1));
    // Two names of one file are found out.
    let (link, file) = (desk.path("link"), away.join("file"));
    let ended = grain(["strip", &desk.path("source"), "-o", &link, "--positions", file.to_str().unwrap()]);
    assert_eq!(ended, complained(2, "grain: OUT and TABLE are one file\nTry `grain --help`.\n"));
}

#[test]
fn what_is_refused_leaves_the_output_as_it_was() {
    let desk = Desk::new("saved-torn");
    fs::write(desk.path("torn"), &bytes(&["sample"])[..100]).unwrap();
    let refused = format!("grain: {}: refused 2 Truncated\n", desk.path("torn"));
    for command in ["rewrite", "strip"] {
        let ended = grain([command, &desk.path("torn"), "-o", &desk.path("out")]);
        assert_eq!(ended, complained(1, refused.clone()));
    }
    let words = ["strip", &desk.path("torn"), "-o", &desk.path("out"), "--positions", &desk.path("table")];
    assert_eq!(grain(words), complained(1, refused));
    assert_eq!(desk.read("out"), BEFORE);
    assert_eq!(desk.names(), ["out", "source", "torn"]);
}

/// A place that nothing can be written to is told by its name; the other file is not written either.
#[track_caller]
fn cannot_be_written(desk: &Desk, place: &str, why: &str) {
    let told = complained(2, format!("grain: {place}: {why}\n"));
    let before = desk.names();
    assert_eq!(grain(["rewrite", &desk.path("source"), "-o", place]), told);
    let words = ["strip", &desk.path("source"), "-o", place, "--positions", &desk.path("other")];
    assert_eq!(grain(words), told);
    assert_eq!(grain(["strip", &desk.path("source"), "-o", &desk.path("out"), "--positions", place]), told);
    assert_eq!(desk.read("out"), BEFORE);
    assert_eq!(desk.names(), before);
}

#[test]
fn places_that_cannot_be_written() {
    let desk = Desk::new("saved-places");
    fs::create_dir(desk.path("folder")).unwrap();
    symlink("nowhere", desk.path("link")).unwrap();
    cannot_be_written(&desk, &desk.path("folder"), "is a directory");
    cannot_be_written(&desk, &desk.path("link"), "a link that leads nowhere");
    cannot_be_written(&desk, &desk.path("missing/out"), "No such file or directory (os error 2)");
    cannot_be_written(&desk, &desk.path("out/out"), "Not a directory (os error 20)");
    cannot_be_written(&desk, &desk.path("new/"), "not the name of a file");
    cannot_be_written(&desk, "", "not the name of a file");
    cannot_be_written(&desk, "/dev/null", "neither a file nor free for one");
    assert_eq!(names(&desk.at.join("folder")).len(), 0);
}

#[test]
fn a_folder_that_may_not_be_written() {
    let desk = Desk::new("saved-guarded");
    // Nobody makes files there, whoever runs this.
    let ended = grain(["rewrite", &desk.path("source"), "-o", "/proc/grain-out"]);
    assert_eq!(ended.status, 2, "{ended:?}");
    assert!(ended.err.starts_with("grain: /proc/grain-out: "), "{ended:?}");
    let guarded = desk.at.join("guarded");
    fs::create_dir(&guarded).unwrap();
    fs::write(guarded.join("out"), BEFORE).unwrap();
    fs::set_permissions(&guarded, Permissions::from_mode(0o555)).unwrap();
    // The superuser may write there all the same.
    if fs::write(guarded.join("try"), b"").is_err() {
        let out = desk.path("guarded/out");
        let told = complained(2, format!("grain: {out}: Permission denied (os error 13)\n"));
        assert_eq!(grain(["rewrite", &desk.path("source"), "-o", &out]), told);
        assert_eq!(fs::read(&out).unwrap(), BEFORE);
        assert_eq!(names(&guarded), ["out"]);
    }
    fs::set_permissions(&guarded, Permissions::from_mode(0o755)).unwrap();
}

/// Runs a command that can write files of at most 1024 bytes: what is longer fails midway, as on a full disk.
fn cramped(words: &[&str]) -> (Option<i32>, String) {
    let limited = "trap '' XFSZ; ulimit -f 1; exec \"$@\"";
    let mut shell = Command::new("bash");
    let ended = shell.args(["-c", limited, "bash", env!("CARGO_BIN_EXE_grain")]).args(words).output().unwrap();
    (ended.status.code(), String::from_utf8(ended.stderr).unwrap())
}

/// The sample with so many bytes of code, and a table of so many entries.
fn longer(code: usize, entries: usize) -> Vec<u8> {
    let sample = bytes(&["sample"]);
    let number = |value: usize| vec![0x80 | (value & 0x7F) as u8, (value >> 7) as u8];
    let table = [number(entries), [1, 7, 9].repeat(entries)].concat();
    let front = &sample[..sample.len() - 13];
    [front, &number(code), &vec![0; code], &number(table.len()), &table].concat()
}

#[test]
fn a_write_that_fails_midway_leaves_nothing() {
    let desk = Desk::new("saved-midway");
    let (source, out, table) = (desk.path("source"), desk.path("out"), desk.path("table"));
    let words = ["strip", &source, "-o", &out, "--positions", &table];
    let told = |name: &str| (Some(2), format!("grain: {name}: File too large (os error 27)\n"));
    fs::write(&table, BEFORE).unwrap();
    // Only the output is too long, then only the table.
    for (code, entries, name) in [(5000, 5, &out), (5, 2000, &table)] {
        fs::write(&source, longer(code, entries)).unwrap();
        assert_eq!(cramped(&words), told(name));
        assert_eq!((desk.read("out"), desk.read("table")), (BEFORE.to_vec(), BEFORE.to_vec()));
        assert_eq!(desk.names(), ["out", "source", "table"]);
    }
    fs::write(&source, longer(5000, 5)).unwrap();
    assert_eq!(cramped(&["rewrite", &source, "-o", &source]), told(&source));
    assert_eq!(desk.read("source"), longer(5000, 5));
    // With room enough both are written.
    assert_eq!(grain(words), said(0, ""));
    assert_eq!(desk.names(), ["out", "source", "table"]);
}

#[test]
fn files_of_a_killed_run_are_passed_over() {
    let desk = Desk::new("saved-killed");
    // The shell leaves two of them, and becomes the run, which has its number and so would use their names.
    let taken = |id: u32| desk.at.join(format!(".grain-{id}-0.tmp"));
    let script = "touch .grain-$$-0.tmp .grain-$$-1.tmp; exec \"$@\"";
    let mut shell = Command::new("bash");
    shell.args(["-c", script, "bash", env!("CARGO_BIN_EXE_grain"), "rewrite", "source", "-o", "out"]);
    let mut child = shell.current_dir(&desk.at).spawn().unwrap();
    let id = child.id();
    assert!(child.wait().unwrap().success());
    assert_ne!(desk.read("out"), BEFORE);
    // Neither was touched, and no third one is left.
    assert_eq!(fs::read(taken(id)).unwrap(), b"");
    assert_eq!(desk.names().len(), 4);
}
