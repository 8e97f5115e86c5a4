//! The deepest stack that a read takes, and a write of what was read: the stack below is painted, and what is no longer painted
//! afterwards was used.
use crate::ours::artifact as ours;
use crate::ours::written::write;
use beside::artifact::WIDTHS;
use beside::inputs::artifacts::{artifact, Style};
use beside::inputs::artifacts::limits::nested_over;
use beside::inputs::artifacts::measured::{file, with_positions, Of};
use beside::lent::{Lent, Way};
use beside::original::artifact::{read, OWN_MASK};
use std::hint::black_box;
use std::thread;

/// The words that are painted, and those that the painting function itself may stand on.
const PAINTED: usize = 1 << 15;
const OWN: usize = 64;
const PAINT: u64 = 0x9a1f_9a1f_9a1f_9a1f;

pub fn all() {
    // A thread has its own stack, with nothing below that would be in the way.
    thread::Builder::new().stack_size(64 * PAINTED).spawn(measured).unwrap().join().unwrap();
}

fn measured() {
    println!("bytes of stack that grain_read takes, and grain_write of what was read, their arguments with them:");
    for levels in [0, 1, 2, 63, 64, 65] {
        deepest(&format!("constants of every tag under {levels} lists"), under(levels));
    }
    deepest("ten thousand artifacts as generated", (0..10_000).map(|seed| artifact(seed, None).0));
    for of in [Of::All, Of::Constants, Of::Chains, Of::Code] {
        deepest(&format!("{of:?}, a megabyte"), [file(of, Style::Any, 1_000_000)]);
    }
    deepest("150,000 positions", [with_positions(150_000)]);
}

/// Under arrays, maps and pointers: a constant of each tag, of which the texts and numbers are long ones.
fn under(levels: usize) -> impl Iterator<Item = Vec<u8>> {
    let number: &[u8] = b"\xff\xff\xff\xff\xff\xff\xff\xff\xff\x01";
    let text = [&b"\x50"[..], &"\u{20ac}x".repeat(20).into_bytes()].concat();
    let scalars = [0x00, 0x01, 0x02].map(|tag| vec![tag]).into_iter();
    let numbers = [0x03, 0x0a, 0x0b].map(|tag| [&[tag], number, number].concat()[..if tag == 3 { 11 } else { 21 }].to_vec());
    let others = [&b"\x04\0\0\0\0\0\0\0\0"[..], b"\x05\xff\xff\x43", b"\x07\0", b"\x08\0"].map(<[u8]>::to_vec);
    let texts = [0x06, 0x09].map(|tag| [&[tag], &text[..]].concat());
    let pointer = [&b"\x0d"[..], &text, b"\0\x82", number].concat();
    let all: Vec<Vec<u8>> = scalars.chain(numbers).chain(others).chain(texts).chain([pointer]).collect();
    [0x07, 0x08, 0x0d].into_iter().flat_map(move |list| all.clone().into_iter().map(move |one| nested_over(list, levels, &one)))
}

fn deepest(what: &str, files: impl IntoIterator<Item = Vec<u8>>) {
    let mut most = [0; 2];
    for bytes in files {
        let taken = taken(&bytes);
        most = std::array::from_fn(|k| most[k].max(taken[k]));
    }
    println!("{:>8} {:>8}  {what}", most[0], most[1]);
}

/// By the read, and by the write, kept or stripped; 0 where there is nothing to write.
fn taken(bytes: &[u8]) -> [usize; 2] {
    // A refused file has places too, so that it is refused for what it says.
    let expected = read(bytes, OWN_MASK);
    let used = expected.used();
    let mut tables: [Vec<u64>; 13] = std::array::from_fn(|k| vec![0; used[k].max(100) * WIDTHS[k]]);
    let here = paint();
    let words = ours::read(bytes, OWN_MASK, tables.each_mut().map(|table| &mut table[..]));
    let taken = unpainted(here);
    assert_eq!(words, expected.words, "what is measured is a right read");
    let lent = Lent { heading: &words, tables: tables.each_ref().map(|table| &table[..]), text: bytes };
    [taken, if words[0] == 0 { written(lent, 0).max(written(lent, 1)) } else { 0 }]
}

fn written(lent: Lent, strip: u8) -> usize {
    let mut out = vec![0; lent.text.len()];
    let here = paint();
    let row = write(lent, Way { mask: OWN_MASK, strip }, &mut out);
    let taken = unpainted(here);
    assert_eq!(row[0], 0, "what is measured is a write");
    taken
}

/// Paints what is below its own frame, and answers where that began.
#[inline(never)]
fn paint() -> usize {
    let mark = 0u64;
    let here = black_box(&raw const mark) as usize;
    for k in OWN..PAINTED {
        unsafe { ((here - 8 * k) as *mut u64).write_volatile(PAINT) };
    }
    here
}

/// The bytes from there down to the deepest word that has another colour.
#[inline(never)]
fn unpainted(here: usize) -> usize {
    let colour = |k: &usize| unsafe { ((here - 8 * k) as *const u64).read_volatile() };
    8 * (OWN..PAINTED).rev().find(|k| colour(k) != PAINT).unwrap_or(0)
}
