//! Artifacts written again, an item being a byte that is written. Both have read the file before: only the writing is timed.
//!
//! The original's stripped write hands back besides what it left out, as tables of their own; that is how it is called.
use super::artifacts::{places, RUN};
use super::{best, row};
use crate::ours::artifact::read;
use crate::ours::written::write;
use beside::inputs::artifacts::measured::{file, with_positions, Of};
use beside::inputs::artifacts::Style::{self, Any, Plain};
use beside::lent::{Lent, Way};
use beside::original::artifact::OWN_MASK;
use rhai_grain::{settings, Program};
use std::hint::black_box;

/// Whether positions are kept, and what the row is called.
const WAYS: [(u8, &str); 2] = [(0, "keep"), (1, "strip")];

const FILES: [(&str, Style, usize); 6] = [
    ("plain", Plain, 10_000),
    ("plain", Plain, 100_000),
    ("plain", Plain, 500_000),
    ("any widths", Any, 10_000),
    ("any widths", Any, 100_000),
    ("any widths", Any, 500_000),
];

/// Whether there is room for what is written. Where there is none all rules are judged and all bytes counted, and none is stored: so this
/// is what comes before the first byte, beside the original's whole write.
#[derive(Clone, Copy, PartialEq)]
enum Room {
    Enough,
    None,
}

fn timed(what: &str, bytes: &[u8], strip: u8, room: Room) {
    settings::know_flags(None);
    settings::walk_code(true);
    let program = Program::read(bytes).unwrap();
    let mut tables = places(bytes);
    let heading = read(bytes, OWN_MASK, tables.each_mut().map(|table| &mut table[..]));
    let lent = Lent { heading: &heading, tables: tables.each_ref().map(|table| &table[..]), text: bytes };
    let way = Way { mask: OWN_MASK, strip };
    let mut out = vec![0; bytes.len()];
    let size = write(lent, way, &mut out)[1] as usize;
    let calls = (RUN / size).max(1);
    let theirs = || {
        let program = black_box(&program);
        let written = |_| u64::from(if strip == 0 { black_box(program.write()).is_ok() } else { black_box(program.write_stripped()).is_ok() });
        (0..calls).map(written).sum()
    };
    if room == Room::None {
        out.clear();
    }
    let ours = || (0..calls).map(|_| u64::from((write(black_box(lent), way, &mut out)[0] == 0) == (room == Room::Enough))).sum();
    row(&format!("{what}, {size} bytes, a byte"), calls * size, best(theirs, ours));
}

pub fn all() {
    for (strip, way) in WAYS {
        for (what, style, size) in FILES {
            timed(&format!("{way} {what}"), &file(Of::All, style, size), strip, Room::Enough);
        }
        timed(&format!("{way} positions"), &with_positions(2_000), strip, Room::Enough);
    }
    for (what, style, size) in FILES {
        timed(&format!("judge {what}"), &file(Of::All, style, size), 0, Room::None);
    }
}
