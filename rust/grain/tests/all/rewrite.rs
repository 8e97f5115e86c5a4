//! `grain rewrite` and `grain strip`: what they write. Where they write it is the matter of `saved.rs`.
use crate::process::{bytes, complained, fed, file, folder, grain, least, said};
use std::fs;
use std::path::Path;

/// Address 0 at 1:1, address 5 at 2:300: the sample's table.
const TABLE: [u8; 8] = [2, 0, 1, 1, 5, 2, 0xAC, 2];

fn word(path: &Path) -> &str {
    path.to_str().unwrap()
}

#[test]
fn a_file_is_written_anew() {
    let at = folder("rewrite-anew");
    let (once, twice) = (at.join("once"), at.join("twice"));
    let sample = file("rewrite-sample", &bytes(&["sample"]));
    assert_eq!(grain(["rewrite", &sample, "-o", word(&once)]), said(0, ""));
    // Both mean the same; only what was longer than need be has changed.
    assert_eq!(bytes(&["dump", "--json", word(&once)]), bytes(&["dump", "--json", &sample]));
    assert_ne!(fs::read(&once).unwrap(), bytes(&["sample"]));
    assert_eq!(grain(["rewrite", "--output", word(&twice), word(&once)]), said(0, ""));
    assert_eq!(fs::read(&twice).unwrap(), fs::read(&once).unwrap());
    assert_eq!(fs::read_dir(&at).unwrap().count(), 2);
}

#[test]
fn numbers_take_their_shortest_form() {
    // The code's length, 0, in three bytes.
    let long = [&least()[..41], &[0x80, 0x80, 0x00, 0x00]].concat();
    let name = file("rewrite-long", &long);
    assert_eq!(bytes(&["rewrite", &name]), least());
    assert_eq!(bytes(&["rewrite", "-o", "-", &name]), least());
}

#[test]
fn a_file_is_stripped_and_its_table_saved() {
    let at = folder("rewrite-strip");
    let (out, table) = (at.join("out"), at.join("table"));
    let sample = file("rewrite-sample-2", &bytes(&["sample"]));
    let words = ["strip", &sample, "-o", word(&out), "--positions", word(&table)];
    assert_eq!(grain(words), said(0, ""));
    assert_eq!(fs::read(&table).unwrap(), TABLE);
    assert_eq!(grain(["resolve", word(&table), "5", "3"]), said(0, "5 2:300\n3 none\n"));
    let stripped = format!("grain: {}: stripped, there is no position table\n", word(&out));
    assert_eq!(grain(["positions", word(&out)]), complained(0, stripped));
    let shown = String::from_utf8(bytes(&["dump", word(&out)])).unwrap();
    assert!(shown.contains("stripped of positions"), "{shown}");
    assert_eq!(bytes(&["strip", &sample]), fs::read(&out).unwrap());
    assert_eq!(fs::read_dir(&at).unwrap().count(), 2);
}

#[test]
fn a_table_is_saved_beside_standard_output() {
    let table = folder("rewrite-beside").join("table");
    let sample = file("rewrite-sample-3", &bytes(&["sample"]));
    assert_eq!(bytes(&["strip", &sample, "--positions", word(&table)]), bytes(&["strip", &sample]));
    assert_eq!(fs::read(&table).unwrap(), TABLE);
}

#[test]
fn what_is_stripped_already_has_no_table_to_save() {
    let at = folder("rewrite-twice");
    let (out, table) = (at.join("out"), at.join("table"));
    fs::write(&out, bytes(&["sample"])).unwrap();
    let words = ["strip", word(&out), "-o", word(&out), "--positions", word(&table)];
    assert_eq!(grain(words), said(0, ""));
    let stripped = fs::read(&out).unwrap();
    // A second time would put an empty table in the place of the one that was saved.
    let none = format!("grain: {}: stripped, there is no position table to save\n", word(&out));
    assert_eq!(grain(words), complained(1, none));
    assert_eq!((fs::read(&table).unwrap(), fs::read(&out).unwrap()), (TABLE.to_vec(), stripped.clone()));
    assert_eq!(grain(["strip", word(&out), "-o", word(&out)]), said(0, ""));
    assert_eq!(fs::read(&out).unwrap(), stripped);
}

#[test]
fn the_mask_is_the_readers() {
    // A chain of a temporary with one index step, whose flags are 02.
    let chain = [1, 2, 0, 1, 1, 2, 0, 0, 0, 0, 0, 1];
    let name = file("rewrite-mask", &[&least()[..34], &chain, &[0; 8]].concat());
    let refused = format!("grain: {name}: refused 8 UnknownTag: byte 02 in the place of a step's flags\n");
    assert_eq!(grain(["rewrite", &name]), complained(1, refused));
    assert_eq!(bytes(&["rewrite", "--mask=02", &name]), fs::read(&name).unwrap());
}

#[test]
fn wrong_words_write_nothing() {
    let at = folder("rewrite-words");
    let (out, source) = (at.join("out"), at.join("source"));
    fs::write(&source, bytes(&["sample"])).unwrap();
    let (out, source) = (word(&out), word(&source));
    let usage = |why: &str| complained(2, format!("grain: {why}\nTry `grain --help`.\n"));
    assert_eq!(grain(["strip", "-o", out]), usage("FILE is missing"));
    assert_eq!(grain(["rewrite", source, source, "-o", out]), usage("only one FILE can be given"));
    assert_eq!(grain(["rewrite", source, "-o"]), usage("`-o` needs a value"));
    let unknown = usage("unknown option `--positions`");
    assert_eq!(grain(["rewrite", source, "-o", out, "--positions", out]), unknown);
    assert_eq!(grain(["strip", source, "-o", out, "--positions", out]), usage("OUT and TABLE are one file"));
    assert_eq!(grain(["strip", source, "-o", out, "--positions", source]), usage("FILE and TABLE are one file"));
    let to_file = usage("TABLE is a file: `grain positions --raw` writes to standard output");
    assert_eq!(grain(["strip", source, "-o", out, "--positions", "-"]), to_file);
    assert_eq!(fs::read(source).unwrap(), bytes(&["sample"]));
    assert_eq!(fs::read_dir(&at).unwrap().count(), 1);
}

#[test]
fn standard_input_is_taken() {
    let out = folder("rewrite-input").join("out");
    assert_eq!(fed(&least(), ["rewrite", "-", "-o", word(&out)]), said(0, ""));
    assert_eq!(fs::read(&out).unwrap(), least());
}
