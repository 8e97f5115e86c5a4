//! Every artifact of `vectors/`, through the crate. The answers there come from document 01 by another reading of it.
use crate::cases::{cases, Case};
use crate::words;
use grain::{read, Artifact, OwnedArtifact, Refusal, StepFlags, Tables};

/// What was answered, in words: number and values, and behind an acceptance what stands outside of the tables.
fn answered(result: Result<Artifact<'_>, Refusal>) -> Vec<u64> {
    match result {
        Ok(artifact) => words::answer(&artifact),
        Err(refusal) => [vec![refusal.number()], refusal.values().to_vec()].concat(),
    }
}

/// Reads into tables that were written on before, so that what a read leaves is its own.
fn read_case(case: &Case) -> (Vec<u64>, Vec<Vec<u64>>) {
    let mut tables: Vec<Vec<u64>> = case.lengths.iter().map(|n| vec![u64::MAX; *n]).collect();
    let mut lent = tables.iter_mut().map(Vec::as_mut_slice);
    let mut next = || lent.next().unwrap();
    let mut lent = Tables {
        names: next(),
        constants: next(),
        tokens: next(),
        assigns: next(),
        chains: next(),
        steps: next(),
        switches: next(),
        cases: next(),
        ranges: next(),
        customs: next(),
        inputs: next(),
        functions: next(),
        parameters: next(),
    };
    let words = answered(read(&case.artifact, StepFlags(case.mask), &mut lent));
    (words, tables)
}

#[test]
fn every_word_is_as_document_01_answers() {
    let cases = cases();
    for case in &cases {
        let (words, tables) = read_case(case);
        assert_eq!(words, case.answer, "the answer to: {}", case.name);
        for (number, (found, wanted)) in tables.iter().zip(&case.tables).enumerate() {
            assert_eq!(found, wanted, "table {} of: {}", number + 1, case.name);
        }
    }
    assert!(cases.len() > 400, "only {} cases", cases.len());
}

#[test]
fn records_say_what_the_rows_say() {
    for case in cases().iter().filter(|case| case.answer[0] == 0) {
        let owned = OwnedArtifact::read(case.artifact.clone(), StepFlags(case.mask)).unwrap();
        let artifact = owned.artifact();
        for table in grain::Table::ALL {
            let said = words::table(&artifact, table);
            assert_eq!(said, artifact.table(table), "{} of: {}", table.name(), case.name);
        }
    }
}

#[test]
fn tables_that_grow_change_only_full() {
    for case in cases() {
        let mut places = case.lengths.iter().zip(grain::Table::ALL);
        if case.answer[0] == 14 || places.any(|(words, table)| words / table.words() < 20) {
            continue;
        }
        let owned = OwnedArtifact::read(case.artifact.clone(), StepFlags(case.mask));
        let words = answered(owned.as_ref().map(OwnedArtifact::artifact).map_err(|refusal| *refusal));
        assert_eq!(words, case.answer, "{}", case.name);
    }
}

/// So many records that each has a row, and one item where it has items, in every table.
fn crowded(count: u8) -> Vec<u8> {
    let list = |record: &[u8]| [&[count], record.repeat(count.into()).as_slice()].concat();
    let sections = [
        b"RGRN\x0b\x00\x08\x08".to_vec(),
        vec![0; 20],
        vec![0],
        [list(&[0]), vec![0]].concat(),
        list(&[0]),
        list(&[0]),
        list(&[0, 0, 0, 0]),
        list(&[2, 0, 1, 1, 0, 0, 0, 0, 0, 0, 1]),
        list(&[1, 0, 0, 1, 0, 0, 0, 0, 0]),
        list(&[0, 0, 1, 0, 0, 0, 0]),
        vec![0, 0, 0],
        list(&[0, 0, 0, 1, 0, 0, 0, 0]),
        vec![0, 0],
    ];
    sections.concat()
}

#[test]
fn every_table_grows() {
    let count = 127;
    let owned = OwnedArtifact::read(crowded(count), StepFlags::SKIP_IF_UNIT).unwrap();
    for table in grain::Table::ALL {
        let rows = owned.artifact().table(table).len() / table.words();
        assert_eq!(rows, usize::from(count), "{}", table.name());
    }
}
