//! Section 4.
use super::cursor::{Got, Reader};
use crate::refusals::{CONSTANT_TOO_DEEP, MALFORMED, UNKNOWN_TAG};

const TABLE: usize = 2;

/// Answers the number of top constants.
pub fn constants(r: &mut Reader) -> Got<u64> {
    let count = r.number()?;
    for _ in 0..count {
        constant(r, 0, [0, 0])?;
    }
    Ok(count)
}

/// Depth, then a free place, then the tag. The row is stored before the items, and filled in behind them.
fn constant(r: &mut Reader, depth: usize, key: [u64; 2]) -> Got<()> {
    if depth == 65 {
        return Err([CONSTANT_TOO_DEEP, 0, 0]);
    }
    r.room(TABLE)?;
    let tag = r.byte()?;
    let row = r.tables[TABLE - 1].len();
    r.push(TABLE, &[u64::from(tag), 0, 0, 0, 0, 0, key[0], key[1]]);
    let [a, b, start, size, items] = match tag {
        0x07 => {
            let n = r.number()?;
            items(r, n, depth)?;
            [0, 0, 0, 0, n]
        }
        0x08 => {
            let n = r.number()?;
            for _ in 0..n {
                let key = r.string()?;
                constant(r, depth + 1, key)?;
            }
            [0, 0, 0, 0, n]
        }
        0x0d => pointer(r, depth)?,
        _ => scalar(r, tag)?,
    };
    r.tables[TABLE - 1][row + 1..row + 6].copy_from_slice(&[a, b, start, size, items]);
    Ok(())
}

fn items(r: &mut Reader, count: u64, depth: usize) -> Got<()> {
    for _ in 0..count {
        constant(r, depth + 1, [0, 0])?;
    }
    Ok(())
}

fn pointer(r: &mut Reader, depth: usize) -> Got<[u64; 5]> {
    let [start, size] = r.string()?;
    let n = r.number()?;
    items(r, n, depth)?;
    match r.byte()? {
        0x81 => Ok([0x81, 0, start, size, n]),
        0x82 => Ok([0x82, r.number()?, start, size, n]),
        other => Err([UNKNOWN_TAG, 1, u64::from(other)]),
    }
}

fn scalar(r: &mut Reader, tag: u8) -> Got<[u64; 5]> {
    Ok(match tag {
        0x00..=0x02 => [0; 5],
        0x03 => [r.signed()?, 0, 0, 0, 0],
        0x04 => [r.fixed(8)?, 0, 0, 0, 0],
        0x05 => {
            let code = r.index()?;
            if code > 0x10_ffff || (0xd800..0xe000).contains(&code) {
                return Err([MALFORMED, 0, 0]);
            }
            [code, 0, 0, 0, 0]
        }
        0x06 => {
            let [start, size] = r.string()?;
            [0, 0, start, size, 0]
        }
        0x09 => {
            let [start, size] = r.span()?;
            [0, 0, start, size, 0]
        }
        0x0a | 0x0b => [r.signed()?, r.signed()?, 0, 0, 0],
        _ => return Err([UNKNOWN_TAG, 1, u64::from(tag)]),
    })
}
