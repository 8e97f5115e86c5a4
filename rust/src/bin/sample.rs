//! Writes the cases and what the original answers to them: `stdin` and `stdout` of the folder that is named.
//!
//! This program is not linked with the proved functions.
use beside::inputs::{boundaries, Random};
use beside::original::{self, Read};
use std::fmt::Display;
use std::fs;
use std::path::Path;

/// The cases, and an answer for each.
#[derive(Default)]
struct Sample {
    cases: String,
    answers: String,
}

impl Sample {
    fn add(&mut self, word: &str, given: &str, answer: &str) {
        let space = if given.is_empty() { "" } else { " " };
        self.cases.push_str(&format!("{word}{space}{given}\n"));
        self.answers.push_str(&format!("{answer}\n"));
    }

    /// The four reads of some bytes.
    fn reads(&mut self, bytes: &[u8]) {
        let given = hex(bytes);
        self.add("number", &given, &said(original::number(bytes, 0)));
        self.add("index", &given, &said(original::index(bytes, 0)));
        self.add("small", &given, &said(original::small(bytes, 0)));
        self.add("signed", &given, &said(original::signed(bytes, 0)));
    }

    fn put(&mut self, value: u64) {
        self.add("put", &value.to_string(), &hex(&original::put(value)));
    }

    fn text(&mut self, bytes: &[u8]) {
        let answer = if core::str::from_utf8(bytes).is_ok() { "yes" } else { "no" };
        self.add("utf8", &hex(bytes), answer);
    }
}

fn hex(bytes: &[u8]) -> String {
    bytes.iter().map(|b| format!("{b:02x}")).collect()
}

fn said<T: Display>(read: Read<T>) -> String {
    match read {
        Ok((value, next)) => format!("{value} {next}"),
        Err(number) => format!("refused {number}"),
    }
}

/// `n` bytes that continue, and then some more.
fn behind(n: usize, byte: u8, last: &[u8]) -> Vec<u8> {
    let mut s = vec![byte; n];
    s.extend_from_slice(last);
    s
}

/// Document 01's own, and what stands about the ninth, tenth and eleventh byte.
fn forms(sample: &mut Sample) {
    sample.reads(&[]);
    sample.reads(&[0x80, 0x00]);
    sample.reads(&[0x01]);
    sample.reads(&[0x00, 0x07]);
    for byte in [0x80, 0xff] {
        for n in 8..=11 {
            sample.reads(&behind(n, byte, &[]));
        }
        for last in [0x00, 0x01, 0x02, 0x7f] {
            sample.reads(&behind(8, byte, &[last]));
            sample.reads(&behind(9, byte, &[last]));
            sample.reads(&behind(10, byte, &[last]));
        }
    }
}

/// The widest that fit 16 and 32 bits, one more, and the same in a longer form.
fn values(sample: &mut Sample) {
    for value in [0x7f, 0x80, 0x3fff, 0x4000, 0xffff, 0x1_0000, 0xffff_ffff, 0x1_0000_0000, 1 << 63, u64::MAX] {
        let form = original::put(value);
        sample.reads(&form);
        sample.reads(&form[..form.len() - 1]);
        sample.put(value);
        sample.put(value - 1);
    }
    let mut random = Random::new(10);
    for _ in 0..16 {
        sample.reads(&original::put(random.any_width()));
    }
    for value in boundaries().into_iter().step_by(5) {
        sample.put(value);
    }
}

/// Each length, the edges of each range, overlong forms, halves of pairs, past the last scalar, and cut ones.
fn texts(sample: &mut Sample) {
    for s in ["", "a", "\u{7f}", "\u{80}", "\u{7ff}", "\u{800}", "\u{ffff}", "\u{d7ff}", "\u{e000}", "\u{10000}", "\u{10ffff}", "a\u{e9}\u{20ac}\u{1f600}z"] {
        let s = s.as_bytes();
        sample.text(s);
        if !s.is_empty() {
            sample.text(&s[..s.len() - 1]);
            sample.text(&[s, &[0x80]].concat());
        }
    }
    for s in [
        &[0xc0, 0x80][..], &[0xc1, 0xbf], &[0xe0, 0x80, 0x80], &[0xe0, 0x9f, 0xbf], &[0xed, 0xa0, 0x80], &[0xed, 0xbf, 0xbf],
        &[0xf0, 0x80, 0x80, 0x80], &[0xf0, 0x8f, 0xbf, 0xbf], &[0xf4, 0x90, 0x80, 0x80], &[0xf5, 0x80, 0x80, 0x80],
        &[0xff], &[0xfe], &[0xe2, 0x28, 0xa1], &[0xf0, 0x28, 0x8c, 0xbc], &[0xf0, 0x90, 0x28, 0xbc],
    ] {
        sample.text(s);
    }
    // Longer than the blocks by which text is passed.
    sample.text(&[b'x'; 64]);
    sample.text(&behind(62, b'x', &[0xc3, 0xa9]));
    sample.text(&behind(63, b'x', &[0xc3]));
}

/// No case at all: the only answers here that are not the original's.
fn no_cases(sample: &mut Sample) {
    for (word, given) in [("number", "8"), ("number", "0x"), ("put", "18446744073709551616"), ("put", ""), ("length", "00")] {
        sample.add(word, given, "bad line");
    }
}

fn main() {
    let Some(folder) = std::env::args().nth(1) else {
        eprintln!("usage: sample FOLDER");
        std::process::exit(2);
    };
    let mut sample = Sample::default();
    forms(&mut sample);
    values(&mut sample);
    texts(&mut sample);
    no_cases(&mut sample);

    let folder = Path::new(&folder);
    fs::write(folder.join("stdin"), &sample.cases).unwrap();
    fs::write(folder.join("stdout"), &sample.answers).unwrap();
    println!("{} cases in {}", sample.cases.lines().count(), folder.display());
}
