//! Reads, `put` and zigzag.
use super::{report, same};
use crate::ours::numbers as ours;
use beside::inputs::{boundaries, every_byte, strings, Random};
use beside::original;
use beside::refusals::NO_ROOM;

pub fn all() {
    short_strings();
    long_strings();
    random_strings();
    places();
    puts();
    zigzags();
}

/// The four reads at one place.
fn reads(s: &[u8], at: usize) {
    same("number", (s, at), original::number(s, at), ours::unsigned(ours::grain_number, s, at));
    same("index", (s, at), original::index(s, at), ours::unsigned(ours::beside_index, s, at));
    same("small", (s, at), original::small(s, at), ours::unsigned(ours::beside_small, s, at));
    same("signed", (s, at), original::signed(s, at), ours::signed(s, at));
}

fn short_strings() {
    let alphabet = every_byte();
    let mut count = 0;
    for n in 0..=3 {
        strings(n, &alphabet, |s| {
            reads(s, 0);
            count += 1;
        });
    }
    report("reads of every string of up to 3 bytes", count, 4 * count);
}

/// Up to twelve bytes: continuing bytes in front, and every pattern of these in the last four places.
fn long_strings() {
    let last = [0x80, 0xff, 0x7f, 0x00, 0x01, 0x02, 0x03, 0x81];
    let mut count = 0;
    for n in 0..=12usize {
        let tail = n.min(4);
        for front in [0x80, 0xff, 0x81] {
            let mut s = vec![front; n];
            strings(tail, &last, |t| {
                s[n - tail..].copy_from_slice(t);
                reads(&s, 0);
                count += 1;
            });
        }
    }
    report("reads of strings of up to 12 bytes at the edges", count, 4 * count);
}

/// A million, three in four bytes continuing, at any place within the string and just past its end.
fn random_strings() {
    let mut random = Random::new(1);
    let mut s = [0u8; 24];
    let count = 1_000_000;
    for _ in 0..count {
        let n = random.below(25) as usize;
        for b in &mut s[..n] {
            let r = random.next();
            *b = if r & 0x300 == 0 { r as u8 & 0x7f } else { r as u8 | 0x80 };
        }
        reads(&s[..n], random.below(n as u64 + 4) as usize);
    }
    report("reads of random strings at random places", count, 4 * count);
}

/// Places far past the end, where the original's `get` gives nothing.
fn places() {
    let mut count = 0;
    for s in [&b""[..], b"\0", b"\x80\x01", b"\xff\xff\xff\xff\xff\xff\xff\xff\xff\x01"] {
        for k in 0..64 {
            for at in [1usize << k, (1 << k) - 1, usize::MAX - (1 << k), usize::MAX] {
                reads(s, at);
                count += 1;
            }
        }
    }
    report("reads at places up to the last one", count, 4 * count);
}

/// A million values of all widths, and those about each power of two: with exact room, one byte short, none, and ample room.
fn puts() {
    let mut random = Random::new(2);
    let mut values = boundaries();
    values.resize_with(values.len() + 1_000_000, || random.any_width());
    let mut answers = 0;
    for &value in &values {
        let form = original::put(value);
        let n = form.len();
        same("size", value, n, ours::size(value));
        for room in [n, n - 1, 0, n + 1 + random.below(8) as usize] {
            let before: Vec<u8> = (0..room).map(|_| random.next() as u8).collect();
            let mut after = before.clone();
            let mut expected = before;
            let number = if n <= room {
                expected[..n].copy_from_slice(&form);
                0
            } else {
                NO_ROOM
            };
            same("put", (value, room), (number, n), ours::put(&mut after, value));
            same("put's bytes", (value, room), &expected, &after);
            answers += 1;
        }
    }
    report("put, with exact room, one short, none and ample", values.len() as u64, answers);
    report("size", values.len() as u64, values.len() as u64);
}

fn zigzags() {
    let mut random = Random::new(3);
    let mut values = boundaries();
    values.resize_with(values.len() + 1_000_000, || random.any_width());
    for &u in &values {
        same("unzigzag", u, original::unzigzag(u), ours::unzigzag(u));
        for z in [u as i64, (u as i64).wrapping_neg(), !u as i64] {
            same("zigzag", z, original::zigzag(z), ours::zigzag(z));
            same("unzigzag of zigzag", z, z, ours::unzigzag(ours::zigzag(z)));
        }
    }
    let count = values.len() as u64;
    report("zigzag both ways", count, 7 * count);
}
