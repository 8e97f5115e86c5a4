//! Writing through the crate: what `vectors/` accepts is written and read back.
use crate::cases::cases;
use crate::process::{bytes, least};
use grain::{Artifact, OwnedArtifact, Positions, Refusal, StepFlags, Table};
use Positions::{Kept, Stripped};

/// The words of a table without the starts of its spans, and the bytes that these cut: where a text stands may differ.
fn meant(artifact: &Artifact<'_>, table: Table, positions: Positions) -> (Vec<u64>, Vec<Vec<u8>>) {
    let (starts, placed): (&[usize], &[usize]) = match table {
        Table::Constants => (&[3, 6], &[]),
        Table::Tokens => (&[0], &[]),
        Table::Assigns => (&[0, 3], &[]),
        Table::Chains => (&[], &[3, 4]),
        Table::Steps => (&[], &[7, 8, 9, 10]),
        _ => (&[], &[]),
    };
    let mut words = artifact.table(table).to_vec();
    let mut texts = Vec::new();
    for row in words.chunks_exact_mut(table.words()) {
        for at in starts {
            let text = &artifact.bytes()[row[*at] as usize..][..row[at + 1] as usize];
            texts.push(text.to_vec());
            row[*at] = 0;
        }
        for at in placed.iter().filter(|_| positions == Stripped) {
            row[*at] = 0;
        }
    }
    (words, texts)
}

/// Two artifacts mean the same, positions aside where they are stripped.
fn mean_the_same(one: &Artifact<'_>, other: &Artifact<'_>, positions: Positions, name: &str) {
    let outside = |a: &Artifact<'_>| (a.caps(), a.debug_id(), a.main(), a.code().to_vec());
    assert_eq!(outside(one), outside(other), "{name}");
    assert_eq!((one.source(), one.blob()), (other.source(), other.blob()), "{name}");
    let kept = if positions == Kept { one.positions() } else { &[] };
    assert_eq!(other.positions(), kept, "{name}");
    for table in Table::ALL {
        assert_eq!(meant(one, table, positions), meant(other, table, positions), "{} of {name}", table.name());
    }
}

#[test]
fn what_was_accepted_is_written_and_read_back() {
    let accepted: Vec<_> = cases().into_iter().filter(|case| case.answer[0] == 0).collect();
    assert!(accepted.len() > 70, "only {} are accepted", accepted.len());
    for case in accepted {
        let mask = StepFlags(case.mask);
        let read = OwnedArtifact::read(case.artifact.clone(), mask).unwrap();
        for positions in [Kept, Stripped] {
            let bytes = read.artifact().to_bytes(positions).unwrap();
            assert!(bytes.len() <= case.artifact.len(), "{}", case.name);
            let again = OwnedArtifact::read(bytes.clone(), mask).unwrap();
            mean_the_same(&read.artifact(), &again.artifact(), positions, &case.name);
            // What was written is in its shortest form, and stays as it is.
            assert_eq!(again.artifact().to_bytes(positions).unwrap(), bytes, "{}", case.name);
        }
    }
}

#[test]
fn room_for_all_or_nothing() {
    let read = OwnedArtifact::read(bytes(&["sample"]), StepFlags::SKIP_IF_UNIT).unwrap();
    let artifact = read.artifact();
    for positions in [Kept, Stripped] {
        let needed = artifact.model().size(positions).unwrap();
        let mut out = vec![7; needed + 9];
        for short in [0, 1, needed - 1] {
            assert_eq!(artifact.write(positions, &mut out[..short]), Err(Refusal::NoRoom { needed }));
            assert_eq!(out, vec![7; needed + 9]);
        }
        assert_eq!(artifact.write(positions, &mut out[..needed]), Ok(needed));
        assert_eq!(out[..needed], artifact.to_bytes(positions).unwrap());
        let mut longer = vec![7; needed + 9];
        assert_eq!(artifact.write(positions, &mut longer), Ok(needed));
        assert_eq!(longer, out);
        assert_eq!(longer[needed..], [7; 9]);
    }
}

#[test]
fn stripping_leaves_no_position() {
    let read = OwnedArtifact::read(bytes(&["sample"]), StepFlags::SKIP_IF_UNIT).unwrap();
    let kept = read.artifact().to_bytes(Kept).unwrap();
    let bytes = read.artifact().to_bytes(Stripped).unwrap();
    assert!(bytes.len() < kept.len());
    let stripped = OwnedArtifact::read(bytes, StepFlags::SKIP_IF_UNIT).unwrap();
    let stripped = stripped.artifact();
    assert_eq!(stripped.positions(), b"");
    let rows = |table: Table| stripped.table(table).chunks_exact(table.words());
    assert!(rows(Table::Chains).all(|row| row[3..5] == [0, 0]));
    assert!(rows(Table::Steps).all(|row| row[7..11] == [0; 4]));
    assert_eq!(stripped.debug_id(), read.artifact().debug_id());
}

#[test]
fn fields_may_be_changed_before_it_is_written() {
    let read = OwnedArtifact::read(least(), StepFlags::SKIP_IF_UNIT).unwrap();
    let mut model = read.artifact().model();
    model.heading.caps = 0x0102_0304;
    model.heading.main.slots = 5;
    let again = OwnedArtifact::read(model.to_bytes(Kept).unwrap(), StepFlags::SKIP_IF_UNIT).unwrap();
    assert_eq!((again.artifact().caps(), again.artifact().main().slots), (0x0102_0304, 5));
}
