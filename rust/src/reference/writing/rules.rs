//! Rules 1 to 10. A rule is asked where those before it hold, and looks only at the words that a tag uses.
use crate::artifact::WIDTHS;
use crate::lent::{Lent, BLOB, CODE, POSITIONS, SOURCE, TOPS};
use crate::original;

/// 0 where all hold.
pub fn lowest_broken(m: Lent, mask: u8) -> u64 {
    let mut constants = Vec::new();
    let mut holds = |rule| match rule {
        1 => counts_fit(m) && shares_fit(m),
        2 => {
            constants = placed(m);
            outside(m).into_iter().chain(texts(m, &constants, &[0x06, 0x09, 0x0d])).all(|span| lies(m, span))
        }
        3 => [m.span(SOURCE)].into_iter().chain(texts(m, &constants, &[0x06, 0x0d])).all(|span| is_text(m, span)),
        4 => names(m),
        5 => known(m, mask),
        6 => constants.iter().all(|placed| placed.depth <= 64),
        7 => m.rows(2).all(|row| row[0] != 0x05 || u32::try_from(row[1]).is_ok_and(|code| char::from_u32(code).is_some())),
        8 => m.rows(8).all(|row| row[1] < m.heading[TOPS]),
        9 => outside_fits(m) && rows_fit(m),
        _ => m.span(POSITIONS)[1] == 0 || original::check(m.part(m.span(POSITIONS)))[0] == 0,
    };
    (1..=10).find(|&rule| !holds(rule)).unwrap_or(0)
}

/// An array, a map and a pointer own items, and no other tag does.
pub fn items(row: &[u64]) -> u64 {
    if matches!(row[0], 0x07 | 0x08 | 0x0d) { row[5] } else { 0 }
}

fn counts_fit(m: Lent) -> bool {
    (1..=13).all(|table| m.used(table) <= (m.tables[table - 1].len() / WIDTHS[table - 1]) as u64)
}

/// In 128 bits, so that no sum wraps round.
fn shares_fit(m: Lent) -> bool {
    let mut awaited = u128::from(m.heading[TOPS]);
    for row in m.rows(2) {
        if awaited == 0 {
            return false;
        }
        awaited += u128::from(items(row)) - 1;
    }
    let shares = [(5, 6, 6), (7, 0, 8), (7, 1, 9), (10, 2, 11), (12, 3, 13)];
    awaited == 0
        && shares.iter().all(|&(table, word, of)| m.rows(table).map(|row| u128::from(row[word])).sum::<u128>() == u128::from(m.used(of)))
}

/// A constant, how deep it stands, and whether it is an entry of a map.
struct Placed<'a> {
    row: &'a [u64],
    depth: usize,
    entry: bool,
}

/// On the stack stands what each list that is open still awaits.
fn placed(m: Lent<'_>) -> Vec<Placed<'_>> {
    let mut open = vec![(m.heading[TOPS], false)];
    let place = |row| {
        while open.last().is_some_and(|list| list.0 == 0) {
            open.pop();
        }
        let depth = open.len() - 1;
        let (awaited, entry) = &mut open[depth];
        *awaited -= 1;
        let placed = Placed { row, depth, entry: *entry };
        open.push((items(row), row[0] == 0x08));
        placed
    };
    m.rows(2).map(place).collect()
}

fn outside(m: Lent) -> [[u64; 2]; 4] {
    [SOURCE, BLOB, CODE, POSITIONS].map(|at| m.span(at))
}

/// The texts of constants of some tags, of keys, and of operators.
fn texts<'a>(m: Lent<'a>, constants: &'a [Placed<'a>], tags: &'a [u64]) -> impl Iterator<Item = [u64; 2]> + 'a {
    let own = constants.iter().filter(|c| tags.contains(&c.row[0])).map(|c| [c.row[3], c.row[4]]);
    let keys = constants.iter().filter(|c| c.entry).map(|c| [c.row[6], c.row[7]]);
    let operators = m.rows(4).flat_map(|row| [[row[0], row[1]], [row[3], row[4]]]);
    own.chain(keys).chain(m.rows(3).map(|row| [row[0], row[1]])).chain(operators)
}

fn lies(m: Lent, [start, size]: [u64; 2]) -> bool {
    start.checked_add(size).is_some_and(|end| end <= m.text.len() as u64)
}

fn is_text(m: Lent, span: [u64; 2]) -> bool {
    std::str::from_utf8(m.part(span)).is_ok()
}

fn names(m: Lent) -> bool {
    let ends: Vec<u64> = m.rows(1).map(|row| row[0]).collect();
    ends.is_sorted() && ends.last().copied().unwrap_or(0) == m.span(BLOB)[1] && is_text(m, m.span(BLOB))
}

fn known(m: Lent, mask: u8) -> bool {
    m.rows(2).all(|row| row[0] <= 0x0b || row[0] == 0x0d && matches!(row[1], 0x81 | 0x82))
        && m.rows(5).all(|row| matches!(row[0], 1..=4) && matches!(row[7], 1..=3))
        && m.rows(6).all(|row| matches!(row[0], 1..=3) && row[1] & !u64::from(mask) == 0)
        && m.rows(12).all(|row| row[1] <= 1)
}

fn fits(bits: u32, word: u64) -> bool {
    word >> bits == 0
}

fn position(line: u64, column: u64) -> bool {
    fits(16, line) && fits(16, column) && (line > 0 || column == 0)
}

fn chunk(words: &[u64]) -> bool {
    fits(32, words[0]) && fits(32, words[1]) && fits(16, words[2])
}

fn outside_fits(m: Lent) -> bool {
    fits(32, m.heading[3]) && chunk(&m.heading[14..17])
}

fn rows_fit(m: Lent) -> bool {
    let indices = |table, words: &[usize]| m.rows(table).all(|row| words.iter().all(|&k| fits(32, row[k])));
    indices(1, &[0])
        && indices(4, &[2, 5])
        && m.rows(5).all(chain)
        && m.rows(6).all(step)
        && indices(7, &[2])
        && indices(8, &[0, 1])
        && indices(9, &[3])
        && m.rows(9).all(|row| row[2] <= 1)
        && indices(10, &[0, 1])
        && m.rows(11).all(|row| chunk(row) && (row[3] == 0 || row[3] == 1 && row[4] < 0xffff_ffff))
        && indices(12, &[0])
        && m.rows(12).all(|row| row[2] <= 1 << 32 && chunk(&row[4..]))
        && indices(13, &[0])
}

fn chain(row: &[u64]) -> bool {
    let root = match row[0] {
        1 => fits(16, row[1]) && fits(32, row[2]),
        3 => fits(32, row[2]) && position(row[3], row[4]),
        4 => position(row[3], row[4]),
        _ => true,
    };
    root && fits(16, row[5]) && (row[7] != 3 || fits(32, row[8]))
}

fn step(row: &[u64]) -> bool {
    let own = match row[0] {
        1 => fits(16, row[2]) && position(row[9], row[10]),
        2 => row[3..6].iter().all(|&name| fits(32, name)),
        _ => fits(32, row[3]) && fits(8, row[6]) && fits(16, row[2]),
    };
    own && position(row[7], row[8])
}
