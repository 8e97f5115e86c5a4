//! Damage done to what is lent to be written: what no file gives.
use super::Random;
use crate::artifact::WIDTHS;
use crate::lent::{Model, TOPS};

/// Tables whose rows have a share of another one's, and the word that says how much.
const SHARES: [(usize, usize); 5] = [(5, 6), (7, 0), (7, 1), (10, 2), (12, 3)];

const EDGES: [u64; 16] =
    [0, 1, 2, 0x7f, 0x80, 0xff, 0x100, 0xd800, 0xffff, 0x1_0000, 0x11_0000, 0xffff_ffff, 1 << 32, (1 << 32) + 1, 1 << 63, !0];

/// One wound: a word of a row or of the heading, a count, the text or a table's length changed, a share moved, or lists put around
/// a constant.
pub fn wound(m: &mut Model, random: &mut Random) {
    match random.below(12) {
        0..=4 => row_word(m, random),
        5 => {
            let at = random.below(32) as usize;
            m.heading[at] = strange(m.heading[at], m.text.len(), random);
        }
        6 => {
            let at = TOPS + random.below(14) as usize;
            m.heading[at] = strange(m.heading[at], m.text.len(), random);
        }
        7 => cut_text(m, random),
        8 => length(m, random),
        9 | 10 => share(m, random),
        _ => lists_around(m, random),
    }
}

/// A table that has words, if there is one among a few.
fn some_table(m: &Model, random: &mut Random) -> Option<usize> {
    (0..8).map(|_| random.below(13) as usize).find(|&k| !m.tables[k].is_empty())
}

fn row_word(m: &mut Model, random: &mut Random) {
    if let Some(k) = some_table(m, random) {
        let at = random.below(m.tables[k].len() as u64) as usize;
        m.tables[k][at] = strange(m.tables[k][at], m.text.len(), random);
    }
}

fn strange(word: u64, text: usize, random: &mut Random) -> u64 {
    match random.below(8) {
        0 => word ^ 1 << random.below(64),
        1 => word.wrapping_add(1),
        2 => word.wrapping_sub(1),
        3 => random.any_width(),
        4 => text as u64 + random.below(3) - 1,
        5 => random.below(16),
        _ => EDGES[random.below(16) as usize],
    }
}

fn cut_text(m: &mut Model, random: &mut Random) {
    let at = random.below(m.text.len() as u64 + 1) as usize;
    match m.text.get_mut(at) {
        Some(byte) if random.below(3) > 0 => *byte = random.next() as u8,
        _ => m.text.truncate(at),
    }
}

/// Words that are cut off a table, or put behind what it uses.
fn length(m: &mut Model, random: &mut Random) {
    let k = random.below(13) as usize;
    let (table, few) = (&mut m.tables[k], 1 + random.below(2 * WIDTHS[k] as u64) as usize);
    match random.below(3) {
        0 => table.truncate(table.len().saturating_sub(few)),
        _ => table.resize(table.len() + few, random.any_width()),
    }
}

/// From one row to another, so that all shares still come to the same, where the sum does not wrap round.
fn share(m: &mut Model, random: &mut Random) {
    let (table, word) = SHARES[random.below(5) as usize];
    let width = WIDTHS[table - 1];
    let rows = (m.tables[table - 1].len() / width) as u64;
    if rows > 1 {
        let [from, to] = [0, 1].map(|_| random.below(rows) as usize * width + word);
        m.tables[table - 1][from] = m.tables[table - 1][from].wrapping_sub(1);
        m.tables[table - 1][to] = m.tables[table - 1][to].wrapping_add(1);
    }
}

/// Around the first top constant, and about as many as may stand there.
fn lists_around(m: &mut Model, random: &mut Random) {
    if m.heading[TOPS] > 0 && m.heading[TOPS + 2] < 1_000 {
        let levels = 58 + random.below(9) as usize;
        let list = [[7, 0, 0], [8, 0, 0], [13, 0x81, 0]][random.below(3) as usize];
        let row = [list[0], list[1], list[2], 0, 0, 1, 0, 0];
        m.tables[1].splice(0..0, row.repeat(levels));
        m.heading[TOPS + 2] += levels as u64;
    }
}
