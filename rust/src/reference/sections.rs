//! The sections in file order, but for the constants.
use super::constants::constants;
use super::cursor::{Got, Reader};
use crate::original;
use crate::refusals::*;

/// The words outside the tables, from caps to the count of top constants.
pub fn artifact(r: &mut Reader) -> Got<[u64; 15]> {
    let [caps, low, high] = header(r)?;
    let source = r.string()?;
    let blob = names(r)?;
    let tops = constants(r)?;
    r.list(3, |r| r.string().map(|span| r.push(3, &span)))?;
    r.list(4, assign)?;
    r.list(5, chain)?;
    r.list(7, |r| switch(r, tops))?;
    r.list(10, site)?;
    let [entry, end, slots] = r.chunk()?;
    r.list(12, function)?;
    let code = r.span()?;
    let table = positions(r)?;
    if r.left() > 0 {
        return Err([TRAILING_BYTES, r.left(), 0]);
    }
    Ok([
        caps, low, high, source[0], source[1], blob[0], blob[1], code[0], code[1], table[0], table[1], entry, end, slots, tops,
    ])
}

fn header(r: &mut Reader) -> Got<[u64; 3]> {
    if r.take(4)? != b"RGRN" {
        return Err([BAD_MAGIC, 0, 0]);
    }
    let version = r.fixed(2)?;
    if version != 11 {
        return Err([UNSUPPORTED_VERSION, version, 11]);
    }
    let widths = [r.fixed(1)?, r.fixed(1)?];
    let caps = r.fixed(4)?;
    if widths != [8, 8] {
        return Err([ABI, widths[0], widths[1]]);
    }
    Ok([caps, r.fixed(8)?, r.fixed(8)?])
}

fn names(r: &mut Reader) -> Got<[u64; 2]> {
    let count = r.number()?;
    if count > r.left() {
        return Err([TRUNCATED, 0, 0]);
    }
    for _ in 0..count {
        r.room(1)?;
        let end = r.index()?;
        r.push(1, &[end]);
    }
    let blob = r.span()?;
    let ends = &r.tables[0];
    if ends.windows(2).any(|pair| pair[1] < pair[0]) {
        return Err([NAMES, 1, 0]);
    }
    if ends.last().copied().unwrap_or(0) != blob[1] {
        return Err([NAMES, 2, 0]);
    }
    std::str::from_utf8(r.spanned(blob)).map_err(|_| [NAMES, 3, 0])?;
    Ok(blob)
}

fn assign(r: &mut Reader) -> Got<()> {
    let ([a, b], name) = (r.string()?, r.index()?);
    let ([c, d], other) = (r.string()?, r.index()?);
    r.push(4, &[a, b, name, c, d, other]);
    Ok(())
}

/// The chain's row is stored behind its steps, which stand in another table.
fn chain(r: &mut Reader) -> Got<()> {
    let tag = r.byte()?;
    let [slot, name, line, column] = match tag {
        1 => [r.small()?, r.index()?, 0, 0],
        2 => [0; 4],
        3 => {
            let (name, [line, column]) = (r.index()?, r.position()?);
            [0, name, line, column]
        }
        4 => {
            let [line, column] = r.position()?;
            [0, 0, line, column]
        }
        _ => return Err([UNKNOWN_TAG, 2, u64::from(tag)]),
    };
    let operands = r.small()?;
    let steps = r.list(6, step)?;
    let tail = r.byte()?;
    let op = match tail {
        1 | 2 => 0,
        3 => r.index()?,
        _ => return Err([UNKNOWN_TAG, 5, u64::from(tail)]),
    };
    r.push(5, &[u64::from(tag), slot, name, line, column, operands, steps, u64::from(tail), op]);
    Ok(())
}

/// Flags before the tag.
fn step(r: &mut Reader) -> Got<()> {
    let (tag, flags) = (r.byte()?, r.byte()?);
    if flags & !r.mask != 0 {
        return Err([UNKNOWN_TAG, 3, u64::from(flags)]);
    }
    let [operand, name, getter, setter, argc] = match tag {
        1 => [r.small()?, 0, 0, 0, 0],
        2 => [0, r.index()?, r.index()?, r.index()?, 0],
        3 => {
            let (name, argc, operand) = (r.index()?, r.fixed(1)?, r.small()?);
            [operand, name, 0, 0, argc]
        }
        _ => return Err([UNKNOWN_TAG, 4, u64::from(tag)]),
    };
    let [line, column] = r.position()?;
    let [l, c] = if tag == 1 { r.position()? } else { [0, 0] };
    r.push(6, &[u64::from(tag), u64::from(flags), operand, name, getter, setter, argc, line, column, l, c]);
    Ok(())
}

fn switch(r: &mut Reader, tops: u64) -> Got<()> {
    let cases = r.list(8, |r| {
        let blocks = r.index()?;
        let place = r.at as u64;
        let constant = r.index()?;
        if constant >= tops {
            return Err([BAD_INDEX, place, constant]);
        }
        r.push(8, &[blocks, constant]);
        Ok(())
    })?;
    let ranges = r.list(9, |r| {
        let row = [r.signed()?, r.signed()?, u64::from(r.byte()? != 0), r.index()?];
        r.push(9, &row);
        Ok(())
    })?;
    let default = r.index()?;
    r.push(7, &[cases, ranges, default]);
    Ok(())
}

fn site(r: &mut Reader) -> Got<()> {
    let (key, state) = (r.index()?, r.index()?);
    let inputs = r.list(11, |r| {
        let [entry, end, slots] = r.chunk()?;
        let literal = r.index()?;
        let kept = if literal == 0xffff_ffff { [0, 0] } else { [1, literal] };
        r.push(11, &[entry, end, slots, kept[0], kept[1]]);
        Ok(())
    })?;
    r.push(10, &[key, state, inputs]);
    Ok(())
}

fn function(r: &mut Reader) -> Got<()> {
    let (name, access) = (r.index()?, r.number()?);
    if access > 1 {
        return Err([TRUNCATED, 0, 0]);
    }
    let this_type = r.number()?;
    if this_type > 1 << 32 {
        return Err([TRUNCATED, 0, 0]);
    }
    let parameters = r.list(13, |r| r.index().map(|name| r.push(13, &[name])))?;
    let [entry, end, slots] = r.chunk()?;
    r.push(12, &[name, access, this_type, parameters, entry, end, slots]);
    Ok(())
}

/// Length 0 means stripped. The check of a table is compared by itself, on far more tables.
fn positions(r: &mut Reader) -> Got<[u64; 2]> {
    let span = r.span()?;
    let row = original::check(r.spanned(span));
    if span[1] > 0 && row[0] != 0 {
        return Err(row);
    }
    Ok(span)
}
