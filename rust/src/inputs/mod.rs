//! What the two are tried on. The random part has a fixed seed, so that every run tries the same.
pub mod artifacts;
pub mod bytes;
pub mod case;
pub mod models;
pub mod sites;
pub mod tables;

/// A xorshift generator: numbers that look random, the same in each run.
pub struct Random(u64);

impl Random {
    pub fn new(seed: u64) -> Random {
        Random(seed | 1)
    }

    pub fn next(&mut self) -> u64 {
        self.0 ^= self.0 << 13;
        self.0 ^= self.0 >> 7;
        self.0 ^= self.0 << 17;
        self.0.wrapping_mul(0x2545_f491_4f6c_dd1d)
    }

    pub fn below(&mut self, n: u64) -> u64 {
        (self.next() >> 11) % n
    }

    /// A number of a random width, from 0 to 64 bits.
    pub fn any_width(&mut self) -> u64 {
        self.width(64)
    }

    /// A number of a random width, from 0 to `most` bits.
    pub fn width(&mut self, most: u64) -> u64 {
        let bits = self.below(most + 1) as u32;
        self.next().checked_shr(64 - bits).unwrap_or(0)
    }
}

/// Every byte string of exactly `n` bytes over `alphabet`.
pub fn strings(n: usize, alphabet: &[u8], mut each: impl FnMut(&[u8])) {
    let mut digits = vec![0; n];
    let mut s = vec![alphabet[0]; n];
    loop {
        each(&s);
        let Some(k) = (0..n).rev().find(|&k| digits[k] + 1 < alphabet.len()) else {
            return;
        };
        digits[k] += 1;
        s[k] = alphabet[digits[k]];
        for j in k + 1..n {
            digits[j] = 0;
            s[j] = alphabet[0];
        }
    }
}

/// Every byte, in order.
pub fn every_byte() -> Vec<u8> {
    (0..=255).collect()
}

/// The numbers about each power of two.
pub fn boundaries() -> Vec<u64> {
    let mut all = vec![0, u64::MAX, u64::MAX - 1];
    for k in 0..64 {
        let power = 1u64 << k;
        all.extend([power - 1, power, power + 1]);
    }
    all
}

/// The bytes at the edges of the ranges in RFC 3629's table.
pub const TEXT_EDGES: [u8; 24] = [
    0x00, 0x7f, 0x80, 0x8f, 0x90, 0x9f, 0xa0, 0xbf, 0xc0, 0xc1, 0xc2, 0xdf, 0xe0, 0xe1, 0xec, 0xed, 0xee, 0xef, 0xf0, 0xf1,
    0xf3, 0xf4, 0xf5, 0xff,
];

/// Words of one script each, with spaces between them, some `size` bytes long. Six in ten are ASCII.
pub fn mixed_text(size: usize, random: &mut Random) -> String {
    let mut text = String::new();
    while text.len() < size {
        let (low, high) = match random.below(20) {
            0..=11 => (0x61, 0x7a),
            12..=14 => (0xe0, 0xff),
            15..=16 => (0x430, 0x44f),
            17..=18 => (0x4e00, 0x9fff),
            _ => (0x1f600, 0x1f64f),
        };
        for _ in 0..1 + random.below(8) {
            text.push(char::from_u32(low + random.below(u64::from(high - low) + 1) as u32).unwrap());
        }
        text.push(' ');
    }
    text
}
