//! Each artifact that is accepted, read and written again by the proved functions, kept and stripped.
use super::artifacts::named;
use super::{digest, fail};
use crate::ours::artifact::read;
use crate::ours::written::write;
use beside::inputs::case::Case;
use beside::lent::{Lent, Way};

pub fn all(cases: &str, rewritten: &str) {
    let mut expected = rewritten.lines();
    let mut count = 0;
    for (name, bytes) in named(cases) {
        let Some(sides) = again(&Case::of(&bytes).unwrap()) else { continue };
        let ours = format!("{} {} {name}", sides[0], sides[1]);
        let theirs = expected.next().unwrap_or("nothing more");
        if theirs != ours {
            fail(name, theirs, &ours);
        }
        count += 1;
    }
    assert_eq!(expected.next(), None, "as many artifacts are accepted as are written again");
    println!("{count} of these artifacts, written again kept and stripped: the bytes are those of vectors/rewritten.txt");
}

/// Length and digest, kept and stripped; nothing where the artifact is refused.
fn again(case: &Case) -> Option<[String; 2]> {
    let mut tables = case.lengths.map(|length| vec![0; length]);
    let heading = read(case.artifact, case.mask, tables.each_mut().map(|table| &mut table[..]));
    let lent = Lent { heading: &heading, tables: tables.each_ref().map(|table| &table[..]), text: case.artifact };
    (heading[0] == 0).then(|| [0, 1].map(|strip| side(lent, Way { mask: case.mask, strip })))
}

/// In as much room as the artifact takes, which is enough: nothing is written longer than it was.
fn side(lent: Lent, way: Way) -> String {
    let mut out = vec![0xa5; lent.text.len()];
    let row = write(lent, way, &mut out);
    assert!(row[0] == 0 && row[2] == 0, "what was read is written: {row:?}");
    let (written, behind) = out.split_at(row[1] as usize);
    assert!(behind.iter().all(|&b| b == 0xa5), "the bytes behind those that are written stay");
    format!("{} {}", written.len(), digest(written))
}
