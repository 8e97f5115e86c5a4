//! `grain sample`: an artifact with something in every section. It is the one that `vectors/artifacts.py` calls RICH.
use crate::status::{Failure, Status};
use crate::writer::{each, number, signed, text};
use crate::{args, output};
use std::ffi::OsString;
use std::fs;
use std::io::Write;

pub fn run(words: &[OsString], out: &mut dyn Write) -> Result<Status, Failure> {
    let args = args::parse(words, &[], &["-o", "--output"])?;
    if !args.plain.is_empty() {
        return Err(Failure::usage("the sample goes to standard output, or to the file behind `-o`"));
    }
    match args.output() {
        Some(name) => fs::write(name, artifact()).map_err(|why| Failure::file(name, why))?,
        None => output::bytes(&artifact(), out)?,
    }
    Ok(Status::Accepted)
}

/// The sections in file order.
pub fn artifact() -> Vec<u8> {
    let sections = [
        header(),
        text("radar.rhai"),
        names(&["rain", "", "snow", "größe"]),
        constants(),
        each(&[text("+"), text("<<=")]),
        each(&[[text("+="), number(1), text("+"), number(2)].concat()]),
        chains(),
        switches(),
        customs(),
        vec![0, 32, 4],
        functions(),
        text([0x10, 0x20, 0x30]),
        text([2, 0, 1, 1, 5, 2, 0xAC, 2]),
    ];
    sections.concat()
}

/// Magic, version 11, both widths 8, caps, and the debug id.
fn header() -> Vec<u8> {
    let debug_id: Vec<u8> = (1..=16).collect();
    [b"RGRN\x0b\x00\x08\x08".as_slice(), &[3, 0, 0, 0x80], &debug_id].concat()
}

/// Where each name ends, and the text of all.
fn names(words: &[&str]) -> Vec<u8> {
    let mut blob = String::new();
    let mut ends = Vec::new();
    for word in words {
        blob += word;
        ends.push(number(blob.len() as u64));
    }
    [each(&ends), text(blob)].concat()
}

/// A tag, and what stands behind it.
fn tagged(tag: u8, parts: &[Vec<u8>]) -> Vec<u8> {
    [vec![tag], parts.concat()].concat()
}

fn constants() -> Vec<u8> {
    let inner = tagged(7, &[each(&[tagged(3, &[signed(3)])])]);
    let low = [text("lo"), tagged(3, &[signed(-3)])].concat();
    let blob = [text(""), tagged(9, &[text([0xFF])])].concat();
    each(&[
        tagged(0, &[]),
        tagged(2, &[]),
        tagged(3, &[signed(-300)]),
        tagged(4, &[(0..8).collect()]),
        tagged(5, &[number('🌧'.into())]),
        tagged(6, &[text("dBZ")]),
        tagged(7, &[each(&[tagged(1, &[]), inner])]),
        tagged(8, &[each(&[low, blob])]),
        tagged(0x0A, &[signed(-1), signed(1)]),
        tagged(0x0B, &[signed(0), signed(9)]),
        tagged(0x0D, &[text("max"), each(&[tagged(0, &[])]), vec![0x82], number(70_000)]),
    ])
}

/// A local with an index and a property, a named one, and `this` with a method.
fn chains() -> Vec<u8> {
    let index = vec![1, 1, 7, 9, 4, 9, 6];
    let property = vec![2, 0, 1, 2, 3, 0, 5];
    let method = [vec![3, 1, 1, 2, 7], number(300), number(300)].concat();
    each(&[
        [vec![1, 5, 2], vec![3], each(&[index, property]), vec![3, 2]].concat(),
        [vec![3, 1, 2, 3], vec![0], each(&[]), vec![1]].concat(),
        [vec![4, 0, 9], vec![1], each(&[method]), vec![2]].concat(),
    ])
}

fn switches() -> Vec<u8> {
    let cases = each(&[vec![5, 10], vec![6, 0]]);
    let ranges = each(&[[signed(-2), signed(7), vec![0xFF, 4]].concat()]);
    each(&[[cases, ranges, vec![9]].concat(), vec![0, 0, 1]])
}

/// One site with a literal and without one.
fn customs() -> Vec<u8> {
    let none = [vec![4, 5, 6], number(u32::MAX.into())].concat();
    each(&[[vec![1, 2], each(&[vec![1, 2, 3, 7], none])].concat()])
}

fn functions() -> Vec<u8> {
    let private = [vec![1, 1, 5], each(&[vec![3], vec![2]]), vec![32, 48, 2]].concat();
    let public = [vec![2, 0, 0], each(&[]), vec![0, 0, 0]].concat();
    each(&[private, public])
}
