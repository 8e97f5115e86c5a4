//! Where the original differs on purpose: what it does is shown, and the other answer is document 01's.
use super::inputs::long;
use super::rewritten::counted;
use super::{same, tried, Met, MASK};
use crate::ours::written as ours;
use beside::inputs::artifacts::limits::CODE;
use beside::inputs::artifacts::{artifact, least_with};
use beside::inputs::bytes::damage;
use beside::inputs::Random;
use beside::lent::{Model, Way};
use beside::original::artifact::{read, read_by_all_rules, rewritten, LeftBehind};
use beside::refusals::{BAD_MODEL, LONGEST};

pub fn all() {
    let mut met = Met::default();
    caps(&mut met);
    walk(&mut met);
    same("files that document 01 accepts", "rules left behind", met.inputs, met.accepted);
    met.report("artifacts about the rules left behind", (0, 0));
    length();
    kept_tables();
    long_writes();
    all_rules();
}

/// Caps that the original's build lacks, or does not know.
fn caps(met: &mut Met) {
    for bit in (0..32).filter(|bit| 0x0100_ffef_u32 >> bit & 1 == 0) {
        let mut file = least_with(0, b"\0");
        file[8..12].copy_from_slice(&(1u32 << bit).to_le_bytes());
        same("refusal by caps", &file, Err(LeftBehind::Caps), read_by_all_rules(&file));
        tried(&file, MASK, met);
    }
}

/// An entry that names no instruction, since there is no code, and one of line 0 at an instruction. An entry with a line at that
/// instruction is what the original accepts.
fn walk(met: &mut Met) {
    let with = |table: &[u8]| {
        let mut file = least_with(CODE, b"\x01\x02");
        file.pop();
        [file, table.to_vec()].concat()
    };
    for file in [least_with(11, b"\x04\x01\x00\x01\x01"), with(b"\x04\x01\x00\x00\x00")] {
        same("refusal by the walk over the code", &file, Err(LeftBehind::Walk), read_by_all_rules(&file));
        tried(&file, MASK, met);
    }
    let file = with(b"\x04\x01\x00\x01\x01");
    same("an entry at an instruction", &file, Ok(read(&file, MASK)), read_by_all_rules(&file));
    tried(&file, MASK, met);
}

/// That a longer file is TooLong here is tried with the limits.
fn length() {
    let read = read_by_all_rules(&long(LONGEST + 1)).map(|answer| answer.row());
    same("a file above the limit", LONGEST + 1, Ok([0; 3]), read);
}

/// What the original writes for a position table that it has read and keeps: one of no entries for none, the shortest form of
/// each number, and no entry whose line takes more than 16 bits. Here the table stands as it stood.
fn kept_tables() {
    let tables: [[&[u8]; 2]; 4] =
        [[b"", b"\0"], [b"\x80\0", b"\0"], [b"\x81\0\0\x01\x01", b"\x01\0\x01\x01"], [b"\x01\0\x80\x80\x04\0", b"\0"]];
    for table in tables {
        let mut front = least_with(CODE, b"\x01\x02");
        front.pop();
        let [file, theirs] = table.map(|table| [&front[..], &counted(table)].concat());
        same("a position table that is kept", &file, theirs, rewritten(&file, MASK).kept);
        let mut out = vec![0; file.len()];
        ours::write(Model::of(&read(&file, MASK), &file).lent(), Way { mask: MASK, strip: 0 }, &mut out);
        same("a position table that is kept here", &file, &file, &out);
    }
}

/// The original writes files of any length.
fn long_writes() {
    let (whole, more) = (long(LONGEST), LONGEST as u64 + 1);
    same("a longer file that the original writes", more, more, rewritten(&long(LONGEST + 1), MASK).stripped.len() as u64);
    let mut model = Model::of(&read(&whole, MASK), &whole);
    model.text.push(0x47);
    model.heading[beside::lent::CODE + 1] += 1;
    let row = ours::write(model.lent(), Way { mask: MASK, strip: 1 }, &mut vec![0; LONGEST + 1]);
    same("a longer file here", more, [BAD_MODEL, 11, 0], row);
}

/// Where neither of the two rules refuses a file, passing them by changes nothing.
fn all_rules() {
    let mut random = Random::new(19);
    let (mut alike, mut by_caps, mut by_walk) = (0u64, 0u64, 0u64);
    for seed in 0..60_000 {
        let mut file = artifact(seed % 20_000, None).0;
        (0..seed / 20_000).for_each(|_| damage(&mut file, &mut random));
        match read_by_all_rules(&file) {
            Ok(answer) => {
                same("an artifact by all the original's rules", &file, answer, read(&file, MASK));
                alike += 1;
            }
            Err(LeftBehind::Caps) => by_caps += 1,
            Err(LeftBehind::Walk) => by_walk += 1,
        }
    }
    println!("artifacts by all the original's rules: {alike} inputs agree, {by_caps} refused by caps, {by_walk} by the walk over the code");
}
