//! `grain dump` and `grain sample`.
use crate::cases::cases;
use crate::process::{bytes, complained, fed, file, grain, least, said};
use std::process::Command;

fn sample() -> Vec<u8> {
    bytes(&["sample"])
}

#[test]
fn the_sample_is_the_artifact_with_all_sections() {
    let cases = cases();
    let rich = cases.iter().find(|case| case.name == "all sections").unwrap();
    assert_eq!(sample(), rich.artifact);
    let name = file("dump-sample", b"");
    assert_eq!(grain(["sample", "-o", &name]), said(0, ""));
    assert_eq!(std::fs::read(&name).unwrap(), rich.artifact);
    assert_eq!(grain(["sample", "-o", "/not/there"]).status, 2);
    assert_eq!(grain(["sample", "more"]).status, 2);
}

#[test]
fn every_section_of_the_sample_is_shown() {
    assert_eq!(fed(&sample(), ["dump", "-"]), said(0, include_str!("sample.txt")));
}

#[test]
fn the_least_artifact_is_shown() {
    let lines = fed(&least(), ["dump", "-"]);
    assert_eq!(lines.status, 0);
    assert!(lines.out.starts_with("source: none\ncaps: 00000000\n"), "{lines:?}");
    assert!(lines.out.ends_with("\ncode: 0 bytes, stripped of positions\n"), "{lines:?}");
}

#[test]
fn the_json_of_the_sample() {
    let json = fed(&sample(), ["dump", "--json", "-"]);
    assert_eq!(json, said(0, include_str!("sample.json")));
}

/// One process for all, since each takes a while to start.
#[test]
fn the_json_of_every_vector_is_read_by_others() {
    let name = file("dump-all.json", b"");
    let mut all = Vec::new();
    for case in cases().iter().filter(|case| case.answer[0] == 0) {
        let ended = fed(&case.artifact, ["dump", "--json", &format!("--mask={:x}", case.mask), "-"]);
        assert_eq!((ended.status, ended.err.as_str()), (0, ""), "{}", case.name);
        all.extend(ended.out.into_bytes());
    }
    std::fs::write(&name, all).unwrap();
    let words = ["-m", "json.tool", "--json-lines", &name, "/dev/null"];
    let tool = Command::new("python3").args(words).output().expect("python3 reads the JSON back");
    assert!(tool.status.success(), "{}", String::from_utf8_lossy(&tool.stderr));
}

#[test]
fn names_that_are_no_text_are_hexadecimal() {
    let cases = cases();
    let cut = cases.iter().find(|case| case.name == "a letter cut by an end is no fault").unwrap();
    let text = fed(&cut.artifact, ["dump", "-"]);
    assert!(text.out.contains("\nnames: 2\n  0: bytes c3\n  1: bytes a4\n"), "{text:?}");
    let json = fed(&cut.artifact, ["dump", "-", "--json"]);
    assert!(json.out.contains(r#""names":[{"hex":"c3"},{"hex":"a4"}]"#), "{json:?}");
}

#[test]
fn what_is_refused_is_not_shown() {
    let refused = "grain: standard input: refused 2 Truncated\n";
    assert_eq!(fed(&sample()[..100], ["dump", "-"]), complained(1, refused));
    assert_eq!(fed(&sample()[..100], ["dump", "-", "--json"]), complained(1, refused));
    assert_eq!(grain(["dump", "not-there"]).status, 2);
    assert_eq!(grain(["dump"]), complained(2, "grain: FILE is missing\nTry `grain --help`.\n"));
    assert_eq!(grain(["dump", "a", "b"]).status, 2);
}
