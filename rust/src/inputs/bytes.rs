//! Numbers in any form that a file may have them in, and damage done to bytes.
use super::Random;

/// The shortest form of a number, and then `pad` groups of zero bits.
pub fn put_padded(out: &mut Vec<u8>, mut value: u64, pad: usize) {
    while value > 0x7f {
        out.push(value as u8 | 0x80);
        value >>= 7;
    }
    let last = out.len();
    out.push(value as u8);
    out.resize(last + 1 + pad, 0x80);
    if pad > 0 {
        out[last] |= 0x80;
        out[last + pad] = 0;
    }
}

/// One wound: a cut, a byte changed, bytes put in or taken out, or more behind the end.
pub fn damage(s: &mut Vec<u8>, random: &mut Random) {
    let at = random.below(s.len() as u64 + 1) as usize;
    match random.below(6) {
        0 => s.truncate(at),
        1 => s.insert(at, random.next() as u8),
        2 => s.extend((0..=random.below(3)).map(|_| random.below(4) as u8)),
        _ if at == s.len() => s.push(random.next() as u8),
        3 => drop(s.remove(at)),
        4 => s[at] ^= 1 << random.below(8),
        _ => s[at] = random.next() as u8,
    }
}
