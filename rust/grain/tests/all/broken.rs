//! Tables that are not well-formed: each of document 01's rules, broken in the tables of the sample.
use crate::process::bytes;
use grain::{Heading, Model, OwnedArtifact, Positions, Refusal, Span, StepFlags, Table};

/// The tables of the sample, to be damaged.
struct Damaged {
    heading: Heading,
    tables: [Vec<u64>; 13],
    text: Vec<u8>,
    mask: StepFlags,
}

impl Damaged {
    fn row(&mut self, table: Table, index: usize) -> &mut [u64] {
        &mut self.tables[usize::from(table.number()) - 1][index * table.words()..][..table.words()]
    }

    fn rows(&mut self, table: Table) -> &mut usize {
        &mut self.heading.rows[usize::from(table.number()) - 1]
    }

    /// The constant of a tag; the sample has one of each.
    fn constant(&mut self, tag: u64) -> &mut [u64] {
        let table = self.tables[1].chunks_exact(8).position(|row| row[0] == tag);
        self.row(Table::Constants, table.unwrap())
    }

    /// Where the sample's blob stands, the byte FF: start and length.
    fn blob(&mut self) -> [u64; 2] {
        let row = self.constant(9);
        [row[3], row[4]]
    }

    /// What a write answers. A refusal leaves the output as it was.
    fn write(&self) -> Result<usize, Refusal> {
        let tables = self.tables.each_ref().map(Vec::as_slice);
        let model = Model { heading: self.heading, tables, text: &self.text, mask: self.mask };
        let mut out = [7; 1000];
        let answer = model.write(Positions::Kept, &mut out);
        assert!(answer.is_ok() || out == [7; 1000]);
        assert_eq!(answer, model.to_bytes(Positions::Kept).map(|bytes| bytes.len()));
        answer
    }
}

fn sample() -> Damaged {
    let text = bytes(&["sample"]);
    let read = OwnedArtifact::read(text.clone(), StepFlags::SKIP_IF_UNIT).unwrap();
    let Model { heading, tables, mask, .. } = read.artifact().model();
    Damaged { heading, tables: tables.map(<[u64]>::to_vec), text, mask }
}

/// The rule that is told where the sample is damaged so.
#[track_caller]
fn breaks(rule: u8, damage: impl FnOnce(&mut Damaged)) {
    let mut damaged = sample();
    assert!(damaged.write().is_ok());
    damage(&mut damaged);
    assert_eq!(damaged.write(), Err(Refusal::BadModel { rule }));
}

#[test]
fn counts_and_shares() {
    for table in Table::ALL {
        breaks(1, |d| *d.rows(table) += 1);
        breaks(1, |d| *d.rows(table) = usize::MAX);
    }
    // What owns rows of another table says one too many, and one too few.
    for (table, word) in [(Table::Chains, 6), (Table::Switches, 0), (Table::Switches, 1), (Table::Customs, 2)] {
        breaks(1, |d| d.row(table, 0)[word] += 1);
        breaks(1, |d| d.row(table, 0)[word] -= 1);
    }
    breaks(1, |d| d.row(Table::Functions, 0)[3] = u64::MAX);
    breaks(1, |d| d.heading.top_constants -= 1);
    breaks(1, |d| d.constant(7)[5] = 1 << 40);
}

#[test]
fn spans_and_strings() {
    breaks(2, |d| d.heading.code = Span { start: usize::MAX, length: usize::MAX });
    breaks(2, |d| d.heading.source = Span { start: d.text.len(), length: 1 });
    breaks(2, |d| d.constant(9)[4] = 1 << 20);
    breaks(2, |d| d.row(Table::Assigns, 0)[3] = u64::MAX);
    breaks(3, |d| {
        let blob = d.blob();
        d.constant(6)[3..5].copy_from_slice(&blob);
    });
    breaks(3, |d| {
        let blob = d.blob();
        d.row(Table::Tokens, 1).copy_from_slice(&blob);
    });
    breaks(3, |d| d.heading.source = Span { start: d.blob()[0] as usize, length: 1 });
}

#[test]
fn names_and_tags() {
    breaks(4, |d| d.row(Table::Names, 0)[0] = 5);
    breaks(4, |d| d.row(Table::Names, 3)[0] += 1);
    breaks(5, |d| d.constant(0)[0] = 12);
    breaks(5, |d| d.constant(13)[1] = 0x80);
    breaks(5, |d| d.row(Table::Chains, 0)[0] = 5);
    breaks(5, |d| d.row(Table::Chains, 1)[7] = 0);
    breaks(5, |d| d.row(Table::Steps, 0)[0] = 4);
    breaks(5, |d| d.mask = StepFlags(0xFE));
    breaks(5, |d| d.row(Table::Functions, 1)[1] = 2);
}

#[test]
fn chars_cases_and_numbers() {
    breaks(7, |d| d.constant(5)[1] = 0xD800);
    breaks(7, |d| d.constant(5)[1] = 0x11_0000);
    breaks(8, |d| d.row(Table::Cases, 0)[1] = 11);
    breaks(9, |d| d.row(Table::Chains, 2)[4] = 9);
    breaks(9, |d| d.row(Table::Ranges, 0)[2] = 2);
    breaks(9, |d| d.row(Table::Inputs, 0)[4] = 0xFFFF_FFFF);
    breaks(9, |d| d.row(Table::Functions, 0)[2] = (1 << 32) + 1);
    breaks(9, |d| d.row(Table::Steps, 2)[6] = 256);
    breaks(9, |d| d.row(Table::Parameters, 0)[0] = 1 << 32);
    breaks(10, |d| d.heading.positions = Span { start: 0, length: 4 });
}

#[test]
fn the_lowest_broken_rule_is_told() {
    breaks(4, |d| {
        d.row(Table::Ranges, 0)[2] = 2;
        d.constant(5)[1] = 0xD800;
        d.row(Table::Names, 0)[0] = 5;
    });
}

/// A unit inside of so many arrays.
fn deep(arrays: usize) -> Vec<u64> {
    let array = [7, 0, 0, 0, 0, 1, 0, 0];
    [array.repeat(arrays), vec![0; 8]].concat()
}

#[test]
fn depth_at_most_64() {
    let written = |arrays| {
        let rows = deep(arrays);
        let mut model = Model::default();
        model.tables[1] = &rows;
        model.heading.rows[1] = arrays + 1;
        model.heading.top_constants = 1;
        model.to_bytes(Positions::Kept).map(|bytes| bytes.len())
    };
    assert_eq!(written(64), Ok(43 + 2 * 64 + 1));
    assert_eq!(written(65), Err(Refusal::BadModel { rule: 6 }));
}

/// Code of so many bytes makes the longest artifact: its length takes three bytes, and the least artifact has one for it.
const LONGEST_CODE: usize = 1_048_576 - 43 - 2;

#[test]
fn no_longer_than_can_be_read() {
    let text = vec![0x55; LONGEST_CODE + 1];
    let model = |length| {
        let heading = Heading { code: Span { start: 0, length }, ..Heading::default() };
        Model { heading, text: &text, ..Model::default() }
    };
    let bytes = model(LONGEST_CODE).to_bytes(Positions::Kept).unwrap();
    assert_eq!(bytes.len(), grain::MAX_BYTES);
    assert!(OwnedArtifact::read(bytes, StepFlags::SKIP_IF_UNIT).is_ok());
    assert_eq!(model(LONGEST_CODE + 1).size(Positions::Kept), Err(Refusal::BadModel { rule: 11 }));
}

#[test]
fn stripping_drops_a_table_that_would_be_too_long() {
    // One entry a three bytes, behind a count of three.
    let count = 349_000;
    let table = [vec![0xC8, 0xA6, 0x15], [1, 7, 9].repeat(count)].concat();
    let code = Span { start: 0, length: 2000 };
    let heading = Heading { positions: Span { start: 0, length: table.len() }, code, ..Heading::default() };
    let model = Model { heading, text: &table, ..Model::default() };
    assert_eq!(model.size(Positions::Kept), Err(Refusal::BadModel { rule: 11 }));
    assert_eq!(model.size(Positions::Stripped), Ok(43 + 1 + 2000));
}

#[test]
fn rules_are_told_in_words() {
    let told = |rule| Refusal::BadModel { rule }.to_string();
    assert_eq!(told(4), "BadModel: rule 4, the names do not fit their text");
    assert_eq!(told(11), "BadModel: rule 11, the artifact would be longer than 1048576 bytes");
}
