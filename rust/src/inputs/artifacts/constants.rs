//! Section 4: constants of every tag, in lists of lists.
use super::writer::Writer;

const TAGS: [u8; 13] = [0x00, 0x01, 0x02, 0x03, 0x04, 0x05, 0x06, 0x07, 0x08, 0x09, 0x0a, 0x0b, 0x0d];

/// Answers how many stand at the top.
pub fn constants(w: &mut Writer) -> usize {
    let tops = w.records();
    w.count(tops);
    (0..tops).for_each(|_| constant(w, 3));
    tops
}

/// At the last level a list is empty.
fn constant(w: &mut Writer, levels: usize) {
    let tag = TAGS[w.random.below(13) as usize];
    w.byte(tag);
    match tag {
        0x00..=0x02 => (),
        0x03 => w.signed(),
        0x04 => {
            let bits = w.random.next();
            w.raw(&bits.to_le_bytes());
        }
        0x05 => scalar(w),
        0x06 => string(w),
        0x07 => items(w, levels, |_| ()),
        0x08 => items(w, levels, string),
        0x09 => {
            let bytes = w.random.next().to_le_bytes();
            let size = w.random.below(9) as usize;
            w.counted(&bytes[..size]);
        }
        0x0a | 0x0b => {
            w.signed();
            w.signed();
        }
        _ => pointer(w, levels),
    }
}

/// The edges of the scalars among them.
fn scalar(w: &mut Writer) {
    let code = [0, 0x7f, 0xd7ff, 0xe000, 0xffff, 0x10_ffff, 0x61][w.random.below(7) as usize];
    w.number(code, 32);
}

fn string(w: &mut Writer) {
    let word = w.word();
    w.text(&word);
}

fn items(w: &mut Writer, levels: usize, mut key: impl FnMut(&mut Writer)) {
    let count = if levels == 0 { 0 } else { w.few() };
    w.count(count);
    for _ in 0..count {
        key(w);
        constant(w, levels - 1);
    }
}

fn pointer(w: &mut Writer, levels: usize) {
    string(w);
    items(w, levels, |_| ());
    if w.random.below(2) == 0 {
        w.byte(0x81);
    } else {
        w.byte(0x82);
        let parameters = w.random.any_width();
        w.number(parameters, 64);
    }
}
