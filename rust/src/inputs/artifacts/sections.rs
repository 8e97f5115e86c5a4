//! The sections in file order, but for the constants.
use super::constants::constants;
use super::writer::Writer;

pub fn artifact(w: &mut Writer) {
    header(w);
    let source = w.word();
    w.text(&source);
    names(w);
    let tops = constants(w);
    tokens(w);
    assigns(w);
    chains(w);
    switches(w, tops);
    sites(w);
    w.chunk();
    functions(w);
    let code = w.random.next().to_le_bytes();
    let size = w.few();
    w.counted(&code[..size]);
    positions(w);
}

pub fn tokens(w: &mut Writer) {
    section(w, token);
}

pub fn assigns(w: &mut Writer) {
    section(w, assign);
}

pub fn chains(w: &mut Writer) {
    section(w, chain);
}

/// The cases are of so many top constants.
pub fn switches(w: &mut Writer, tops: usize) {
    section(w, |w| switch(w, tops));
}

pub fn sites(w: &mut Writer) {
    section(w, site);
}

pub fn functions(w: &mut Writer) {
    section(w, function);
}

fn section(w: &mut Writer, record: impl FnMut(&mut Writer)) {
    let count = w.records();
    counted(w, count, record);
}

fn list(w: &mut Writer, record: impl FnMut(&mut Writer)) {
    let count = w.few();
    counted(w, count, record);
}

fn counted(w: &mut Writer, count: usize, mut record: impl FnMut(&mut Writer)) {
    w.count(count);
    (0..count).for_each(|_| record(w));
}

/// Caps that the original knows; a wrong byte may make them others.
fn header(w: &mut Writer) {
    for b in *b"RGRN\x0b\x00\x08\x08" {
        w.byte(b);
    }
    let caps = w.random.next() as u32 & 0x0100_ffef;
    caps.to_le_bytes().into_iter().for_each(|b| w.byte(b));
    for _ in 0..2 {
        let half = w.random.next();
        w.raw(&half.to_le_bytes());
    }
}

/// Ends that may stand still, and may stand within a letter.
pub fn names(w: &mut Writer) {
    let blob: String = (0..w.records()).map(|_| w.word()).collect();
    let mut ends: Vec<u64> = (0..w.records()).map(|_| w.random.below(blob.len() as u64 + 1)).collect();
    ends.sort_unstable();
    if !blob.is_empty() {
        ends.push(blob.len() as u64);
    }
    if blob.is_empty() {
        ends.fill(0);
    }
    w.count(ends.len());
    ends.iter().for_each(|&end| w.number(end, 32));
    w.text(&blob);
}

fn token(w: &mut Writer) {
    let syntax = w.word();
    w.text(&syntax);
}

fn assign(w: &mut Writer) {
    token(w);
    w.index();
    token(w);
    w.index();
}

fn chain(w: &mut Writer) {
    let root = 1 + w.random.below(4) as u8;
    w.byte(root);
    match root {
        1 => {
            w.small();
            w.index();
        }
        3 => {
            w.index();
            w.position();
        }
        4 => w.position(),
        _ => (),
    }
    w.small();
    list(w, step);
    let tail = 1 + w.random.below(3) as u8;
    w.byte(tail);
    if tail == 3 {
        w.index();
    }
}

fn step(w: &mut Writer) {
    let tag = 1 + w.random.below(3) as u8;
    w.byte(tag);
    let flags = w.random.below(2) as u8;
    w.byte(flags);
    match tag {
        1 => {
            w.small();
            w.position();
        }
        2 => (0..3).for_each(|_| w.index()),
        _ => {
            w.index();
            let argc = w.random.next() as u8;
            w.byte(argc);
            w.small();
        }
    }
    w.position();
}

/// Where there are no constants there are no cases.
fn switch(w: &mut Writer, tops: usize) {
    let cases = if tops == 0 { 0 } else { w.few() };
    w.count(cases);
    for _ in 0..cases {
        w.index();
        let constant = w.random.below(tops as u64);
        w.number(constant, 32);
    }
    list(w, |w| {
        w.signed();
        w.signed();
        let inclusive = [0, 0, 1, 0xff][w.few()];
        w.byte(inclusive);
        w.index();
    });
    w.index();
}

/// One literal in three is none.
fn site(w: &mut Writer) {
    w.index();
    w.index();
    list(w, |w| {
        w.chunk();
        let literal = if w.random.below(3) == 0 { 0xffff_ffff } else { w.random.width(32) };
        w.number(literal, 32);
    });
}

/// Access is a number of 64 bits, as a type is, which is one higher than an index of 32.
fn function(w: &mut Writer) {
    w.index();
    let access = w.random.below(2);
    w.number(access, 64);
    let this_type = [0, 1, 1 << 32, w.random.width(32)][w.few()];
    w.number(this_type, 64);
    list(w, Writer::index);
    w.chunk();
}

/// One table in four is stripped, and that of a large file.
fn positions(w: &mut Writer) {
    let entries = w.few();
    if entries == 0 || w.stripped() {
        return w.count(0);
    }
    w.behind_length(|w| {
        w.count(entries);
        for k in 0..entries {
            let step = w.random.width(30).max(u64::from(k > 0));
            w.number(step, 32);
            for _ in 0..2 {
                let value = w.random.width(32);
                w.number(value, 32);
            }
        }
    });
}
