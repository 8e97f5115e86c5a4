//! Every kind of file: whole, with one field wrong, damaged, at the limits, and short strings in the place of each section.
use super::{tried, tried_in_exact_places, Met, MASK};
use beside::inputs::artifacts::limits::{nested, CODE, CONSTANTS};
use beside::inputs::artifacts::{artifact, least_with, Fault, SECTIONS, WAYS};
use beside::inputs::bytes::{damage, put_padded};
use beside::inputs::{every_byte, strings, Random};
use beside::refusals::LONGEST;

pub fn all() {
    let mut met = Met::default();
    // The shortest files first, so that a difference is met in a short one.
    stage("every string of up to 2 bytes, and of 3 edge bytes, in the place of each section", &mut met, sections);
    stage("artifacts as generated", &mut met, whole);
    stage("artifacts with one field wrong, in six ways", &mut met, wrong_fields);
    stage("artifacts cut at every place, with each byte changed, put in and taken out, and with more behind", &mut met, damaged);
    stage("artifacts damaged two to five times", &mut met, wounded);
    stage("artifacts at the limits of depth and length, and with many records", &mut met, limits);
    met.report_refusals();
    met.must_reach_all();
}

fn stage(what: &str, met: &mut Met, inputs: impl FnOnce(&mut Met)) {
    let before = (met.inputs, met.accepted);
    inputs(met);
    met.report(what, before);
}

/// The generator's own files are all accepted, under any mask that has their flags.
fn whole(met: &mut Met) {
    let before = met.inputs - met.accepted;
    for seed in 0..20_000 {
        tried(&artifact(seed, None).0, [MASK, 0x03, 0xff][seed as usize % 3], met);
    }
    if met.inputs - met.accepted > before {
        println!("the generator wrote a file that is refused");
        std::process::exit(1);
    }
}

fn wrong_fields(met: &mut Met) {
    for seed in 0..1_000 {
        let fields = artifact(seed, None).1;
        for field in 0..fields {
            for way in 0..WAYS {
                tried(&artifact(seed, Some(Fault { field, way })).0, MASK, met);
            }
        }
    }
}

fn damaged(met: &mut Met) {
    let mut random = Random::new(17);
    for seed in 0..250 {
        let whole = artifact(seed, None).0;
        let mask = [MASK, 0x00, 0xff][seed as usize % 3];
        for at in 0..whole.len() {
            tried(&whole[..at], mask, met);
            let mut s = whole.clone();
            s[at] ^= 1 << random.below(8);
            tried(&s, mask, met);
            s[at] = random.next() as u8;
            tried(&s, mask, met);
            s[at] = whole[at];
            s.insert(at, random.below(4) as u8);
            tried(&s, mask, met);
            s.drain(at..at + 2);
            tried(&s, mask, met);
        }
        for more in 1..4 {
            let mut s = whole.clone();
            s.resize(whole.len() + more, random.next() as u8);
            tried(&s, mask, met);
        }
    }
}

fn wounded(met: &mut Met) {
    let mut random = Random::new(18);
    for seed in 0..200_000 {
        let mut s = artifact(seed % 20_000, None).0;
        (0..2 + seed % 4).for_each(|_| damage(&mut s, &mut random));
        tried(&s, MASK, met);
    }
}

fn sections(met: &mut Met) {
    let edges = [0x00, 0x01, 0x02, 0x03, 0x04, 0x07, 0x08, 0x0c, 0x0d, 0x7f, 0x80, 0x81, 0x82, 0xff];
    for section in 0..SECTIONS.len() {
        for n in 0..=2 {
            strings(n, &every_byte(), |s| tried(&least_with(section, s), MASK, met));
        }
        strings(3, &edges, |s| tried(&least_with(section, s), MASK, met));
    }
}

/// Nested to the last level and one further; strings and blobs whose lengths take one, two and three bytes; many records of
/// each section that has them; the longest file, and one that is longer.
fn limits(met: &mut Met) {
    for list in [0x07, 0x08, 0x0d] {
        for levels in [1, 63, 64, 65, 66, 200] {
            tried(&nested(list, levels), MASK, met);
        }
    }
    for size in [127, 128, 16_383, 16_384] {
        for tag in [0x06, 0x09] {
            let mut constant = vec![1, tag];
            put_padded(&mut constant, size as u64, 0);
            constant.resize(constant.len() + size, b'x');
            tried(&least_with(CONSTANTS, &constant), MASK, met);
        }
    }
    for file in many().chain([long(LONGEST), long(LONGEST + 1)]) {
        tried_in_exact_places(&file, met);
    }
}

/// Many times the least record of a section. Names have their blob behind them.
fn many() -> impl Iterator<Item = Vec<u8>> {
    let records: [(usize, &[u8], &[u8]); 8] = [
        (1, b"\0", b"\0"),
        (2, b"\0", b""),
        (3, b"\0", b""),
        (4, b"\0\0\0\0", b""),
        (5, b"\x02\0\0\x01", b""),
        (6, b"\0\0\0", b""),
        (7, b"\0\0\0", b""),
        (9, b"\0\0\0\0\0\0\0", b""),
    ];
    records.into_iter().map(|(section, record, behind)| {
        let mut bytes = Vec::new();
        put_padded(&mut bytes, 100_000, 0);
        bytes.extend(record.repeat(100_000));
        bytes.extend(behind);
        least_with(section, &bytes)
    })
}

/// A file of so many bytes, nearly all of them code: the length takes three bytes, and the others 42.
pub fn long(size: usize) -> Vec<u8> {
    let code = size - 45;
    let mut section = Vec::new();
    put_padded(&mut section, code as u64, 0);
    section.resize(section.len() + code, 0x47);
    let file = least_with(CODE, &section);
    assert_eq!(file.len(), size);
    file
}
