//! `grain check`: lines and statuses.
use crate::cases::cases;
use crate::process::{complained, fed, file, grain, least, said, Ended};
use std::collections::BTreeSet;

#[test]
fn a_line_a_file_and_the_worst_status() {
    let whole = file("check-whole", &least());
    let torn = file("check-torn", &least()[..42]);
    let more = file("check-more", &[least(), vec![0; 4]].concat());
    assert_eq!(grain(["check", &whole]), said(0, format!("{whole}: accepted\n")));
    let lines =
        format!("{whole}: accepted\n{torn}: refused 2 Truncated\n{more}: refused 13 TrailingBytes: 4 behind the end\n");
    assert_eq!(grain(["check", &whole, &torn, &more]), said(1, lines));
}

#[test]
fn a_file_that_is_missing_does_not_stop_the_others() {
    let (whole, torn) = (file("check-whole-2", &least()), file("check-torn-2", b""));
    let out = format!("{torn}: refused 2 Truncated\n{whole}: accepted\n");
    let err = "grain: not-there: No such file or directory (os error 2)\n".to_string();
    assert_eq!(grain(["check", &torn, "not-there", &whole]), Ended { status: 2, out, err });
}

#[test]
fn a_folder_cannot_be_read() {
    let ended = grain(["check", "/"]);
    assert_eq!((ended.status, ended.out.as_str()), (2, ""));
    assert!(ended.err.starts_with("grain: /: "), "{ended:?}");
}

#[test]
fn standard_input_once() {
    assert_eq!(fed(&least(), ["check", "-"]), said(0, "standard input: accepted\n"));
    assert_eq!(fed(b"XYZ", ["check", "-"]), said(1, "standard input: refused 2 Truncated\n"));
    let twice = "grain: standard input can be read only once\nTry `grain --help`.\n";
    assert_eq!(fed(&least(), ["check", "-", "-"]), complained(2, twice));
}

#[test]
fn too_long_has_the_whole_length() {
    let most = 1_048_576;
    let mut bytes = least();
    bytes.resize(most, 0);
    let behind = most - 43;
    let trailing = format!("standard input: refused 13 TrailingBytes: {behind} behind the end\n");
    assert_eq!(fed(&bytes, ["check", "-"]), said(1, trailing));
    for length in [most + 1, 3_000_000] {
        bytes.resize(length, 0);
        let line = format!("standard input: refused 1 TooLong: a length of {length}\n");
        assert_eq!(fed(&bytes, ["check", "-"]), said(1, line));
    }
}

#[test]
fn the_mask_says_which_flags_are_known() {
    // A chain of a temporary with one index step, whose flags are 02.
    let chain = [1, 2, 0, 1, 1, 2, 0, 0, 0, 0, 0, 1];
    let bytes = [&least()[..34], &chain, &[0; 8]].concat();
    let refused = "standard input: refused 8 UnknownTag: byte 02 in the place of a step's flags\n";
    assert_eq!(fed(&bytes, ["check", "-"]), said(1, refused));
    assert_eq!(fed(&bytes, ["check", "-", "--mask", "02"]), said(0, "standard input: accepted\n"));
    assert_eq!(fed(&bytes, ["check", "--mask=0xFF", "-"]), said(0, "standard input: accepted\n"));
    let wrong = "grain: `--mask` wants a byte in hexadecimal, 00 to FF\nTry `grain --help`.\n";
    assert_eq!(fed(&bytes, ["check", "--mask", "100", "-"]), complained(2, wrong));
}

#[test]
fn file_names_are_shown_on_one_line() {
    let name = file("check-two\nlines", &least());
    let shown = name.replace('\n', "\\n");
    assert_eq!(grain(["check", &name]), said(0, format!("{shown}: accepted\n")));
    assert_eq!(grain(["check", "--", "-x"]).status, 2);
}

#[test]
fn refusals_are_told_in_words() {
    let told = [
        ("version 10", "4 UnsupportedVersion: version 10 found, version 11 is read"),
        ("int width 4", "5 Abi: int width 4, float width 8"),
        ("a source name that is not UTF-8", "7 BadUtf8"),
        ("constant: tag 0C is unknown", "8 UnknownTag: byte 0C in the place of a constant's tag"),
        ("root: tag 05", "8 UnknownTag: byte 05 in the place of a chain root's tag"),
        ("step: an unknown tag", "8 UnknownTag: byte 09 in the place of a step's tag"),
        ("tail: tag 04", "8 UnknownTag: byte 04 in the place of a chain tail's tag"),
        ("a unit under 65 arrays", "9 ConstantTooDeep"),
        ("a case where there are no constants", "10 BadIndex: no constant 0, named at byte 38"),
        ("ends fall", "11 Names: an end falls"),
        ("the last end is short", "11 Names: the last end is not the end of their text"),
        ("the blob is not UTF-8", "11 Names: their text is not UTF-8"),
        ("a position table cut", "12 Positions: truncated"),
        ("a position table with a wide line", "12 Positions: overflow"),
        ("a position table with a zero step", "12 Positions: out of order behind address 5"),
        ("a position table with bytes behind", "12 Positions: 2 trailing"),
        ("one byte behind", "13 TrailingBytes: 1 behind the end"),
        ("XYZW", "3 BadMagic"),
        ("a wide constant index", "6 MalformedVarint"),
    ];
    let cases = cases();
    for (name, words) in told {
        let case = cases.iter().find(|case| case.name == name).unwrap_or_else(|| panic!("no case {name}"));
        let line = format!("standard input: refused {words}\n");
        assert_eq!(fed(&case.artifact, ["check", "-"]), said(1, line), "{name}");
    }
}

/// One for each number that a vector has; the library's test runs them all. Tables that grow are never Full.
#[test]
fn every_refusal_by_its_number() {
    let cases = cases();
    let numbers: BTreeSet<u64> = cases.iter().map(|case| case.answer[0]).filter(|number| *number != 14).collect();
    assert_eq!(numbers, [0].into_iter().chain(2..=13).collect());
    for number in numbers {
        let case = cases.iter().find(|case| case.answer[0] == number && case.mask == 1).unwrap();
        let ended = fed(&case.artifact, ["check", "-"]);
        let start = if number == 0 { "accepted".to_string() } else { format!("refused {number} ") };
        assert_eq!(ended.status, i32::from(number != 0));
        assert!(ended.out.starts_with(&format!("standard input: {start}")), "{ended:?}");
    }
}
