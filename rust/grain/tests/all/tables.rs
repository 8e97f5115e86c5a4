//! `grain positions`, `grain resolve` and `grain debug-id`.
use crate::process::{bytes, complained, fed, file, grain, least, said, Ended};

/// Address 0 at 1:1, address 5 at 2:300.
const TABLE: [u8; 8] = [2, 0, 1, 1, 5, 2, 0xAC, 2];

#[test]
fn positions_of_an_artifact() {
    let sample = file("tables-sample", &bytes(&["sample"]));
    assert_eq!(grain(["positions", &sample]), said(0, "0 1:1\n5 2:300\n"));
    assert_eq!(bytes(&["positions", "--raw", &sample]), TABLE);
    let stripped = "grain: standard input: stripped, there is no position table\n";
    assert_eq!(fed(&least(), ["positions", "-"]), complained(0, stripped));
    let refused = "grain: standard input: refused 3 BadMagic\n";
    assert_eq!(fed(&TABLE, ["positions", "-"]), complained(1, refused));
}

#[test]
fn positions_of_a_table() {
    assert_eq!(fed(&TABLE, ["positions", "--table", "-"]), said(0, "0 1:1\n5 2:300\n"));
    assert_eq!(fed(&[1, 7, 0, 4], ["positions", "-", "--table"]), said(0, "7 none\n"));
    let refused = "grain: standard input: refused 12 Positions: 1 trailing\n";
    assert_eq!(fed(&[0, 0], ["positions", "--table", "-"]), complained(1, refused));
    assert_eq!(fed(b"", ["positions", "--table", "-"]).status, 1);
}

#[test]
fn addresses_are_resolved() {
    let table = file("tables-table", &TABLE);
    let lines = "5 2:300\n3 none\n0 1:1\n4294967295 none\n";
    assert_eq!(grain(["resolve", &table, "5", "0x3", "0", "0xffffffff"]), said(0, lines));
    let sample = file("tables-sample-2", &bytes(&["sample"]));
    assert_eq!(grain(["resolve", "--artifact", &sample, "5"]), said(0, "5 2:300\n"));
    assert_eq!(fed(b"XYZW", ["resolve", "--artifact", "-", "5"]).status, 1);
    let err = "grain: standard input: stripped, there is no position table\n".to_string();
    let none = Ended { status: 0, out: "5 none\n".to_string(), err };
    assert_eq!(fed(&least(), ["resolve", "--artifact", "-", "5"]), none);
    for wrong in ["x", "4294967296", "-1", "+1", "", "0x"] {
        assert_eq!(grain(["resolve", &table, "--", wrong]).status, 2, "{wrong}");
    }
    assert_eq!(grain(["resolve", &table]).status, 2);
    assert_eq!(grain(["resolve"]).status, 2);
}

#[test]
fn an_unsound_table_is_told_beside_its_answers() {
    let out = "0 1:1\n9 none\n".to_string();
    let err = "grain: standard input: refused 12 Positions: truncated\n".to_string();
    assert_eq!(fed(&TABLE[..6], ["resolve", "-", "0", "9"]), Ended { status: 1, out, err });
}

#[test]
fn a_table_longer_than_an_artifact_is_taken() {
    let count = 500_000u32;
    let mut table = vec![0xA0, 0xC2, 0x1E];
    for _ in 0..count {
        table.extend([1, 7, 9]);
    }
    assert_eq!(fed(&table, ["resolve", "-", "500000", "500001"]), said(0, "500000 7:9\n500001 none\n"));
}

#[test]
fn the_debug_id() {
    let (table, chains) = (file("tables-id-table", b"ab"), file("tables-id-chains", b"c"));
    let empty = file("tables-id-empty", b"");
    assert_eq!(grain(["debug-id", &empty, &empty]), said(0, "6c62272e07bb014262b821756295c58d\n"));
    // FNV-1a of 128 bits gives this for "abc".
    let abc = said(0, "a68d622cec8b5822836dbc7977af7f3b\n");
    assert_eq!(grain(["debug-id", &table, &chains]), abc);
    assert_eq!(fed(b"c", ["debug-id", &table, "-"]), abc);
    assert_eq!(fed(b"c", ["debug-id", "-", "-"]).status, 2);
    assert_eq!(grain(["debug-id", &table]).status, 2);
}
