//! The functions of libgrain.a, as `include/grain.h` declares them, behind safe ones. All `unsafe` of this crate is here.
//!
//! Every call is sound for the same reason: a pointer comes from a slice or an array and goes with its length, so it is valid
//! for that length and never null; and what is written to is borrowed mutably, so it overlaps nothing else.
#![allow(unsafe_code)]

use crate::Tables;

/// The words of an answer.
pub const ANSWER_WORDS: usize = 32;

extern "C" {
    fn grain_read(
        bytes: *const u8,
        len: usize,
        mask: u8,
        names: *mut u64,
        n1: usize,
        constants: *mut u64,
        n2: usize,
        tokens: *mut u64,
        n3: usize,
        assigns: *mut u64,
        n4: usize,
        chains: *mut u64,
        n5: usize,
        steps: *mut u64,
        n6: usize,
        switches: *mut u64,
        n7: usize,
        cases: *mut u64,
        n8: usize,
        ranges: *mut u64,
        n9: usize,
        customs: *mut u64,
        n10: usize,
        inputs: *mut u64,
        n11: usize,
        functions: *mut u64,
        n12: usize,
        parameters: *mut u64,
        n13: usize,
        answer: *mut [u64; ANSWER_WORDS],
    ) -> u64;
    fn grain_write(
        heading: *const [u64; ANSWER_WORDS],
        names: *const u64,
        n1: usize,
        constants: *const u64,
        n2: usize,
        tokens: *const u64,
        n3: usize,
        assigns: *const u64,
        n4: usize,
        chains: *const u64,
        n5: usize,
        steps: *const u64,
        n6: usize,
        switches: *const u64,
        n7: usize,
        cases: *const u64,
        n8: usize,
        ranges: *const u64,
        n9: usize,
        customs: *const u64,
        n10: usize,
        inputs: *const u64,
        n11: usize,
        functions: *const u64,
        n12: usize,
        parameters: *const u64,
        n13: usize,
        text: *const u8,
        text_len: usize,
        mask: u8,
        strip: u8,
        out: *mut u8,
        room: usize,
        values: *mut [u64; 2],
    ) -> u64;
    fn grain_pos_check(table: *const u8, len: usize, values: *mut [u64; 2]) -> u64;
    fn grain_pos_count(table: *const u8, len: usize, count: *mut u64) -> u64;
    fn grain_pos_resolve(table: *const u8, len: usize, address: u32, site: *mut [u64; 2]) -> u64;
    fn grain_pos_encode(
        addresses: *const u32,
        n_addresses: usize,
        lines: *const u32,
        n_lines: usize,
        columns: *const u32,
        n_columns: usize,
        out: *mut u8,
        room: usize,
        values: *mut [u64; 2],
    ) -> u64;
    fn grain_debug_id(table: *const u8, len: usize, chains: *const u8, chains_len: usize, id: *mut [u64; 2]) -> u64;
    fn grain_utf8(bytes: *const u8, len: usize) -> u64;
    fn grain_number(bytes: *const u8, len: usize, at: usize, out: *mut [u64; 2]) -> u64;
}

/// Reads an artifact into the tables; the first word of the answer is the refusal's number, or 0.
pub fn read(bytes: &[u8], mask: u8, t: &mut Tables<'_>) -> [u64; ANSWER_WORDS] {
    let mut answer = [0; ANSWER_WORDS];
    // SAFETY: as the head of this file says.
    #[rustfmt::skip]
    unsafe {
        grain_read(
            bytes.as_ptr(), bytes.len(), mask,
            t.names.as_mut_ptr(), t.names.len(),
            t.constants.as_mut_ptr(), t.constants.len(),
            t.tokens.as_mut_ptr(), t.tokens.len(),
            t.assigns.as_mut_ptr(), t.assigns.len(),
            t.chains.as_mut_ptr(), t.chains.len(),
            t.steps.as_mut_ptr(), t.steps.len(),
            t.switches.as_mut_ptr(), t.switches.len(),
            t.cases.as_mut_ptr(), t.cases.len(),
            t.ranges.as_mut_ptr(), t.ranges.len(),
            t.customs.as_mut_ptr(), t.customs.len(),
            t.inputs.as_mut_ptr(), t.inputs.len(),
            t.functions.as_mut_ptr(), t.functions.len(),
            t.parameters.as_mut_ptr(), t.parameters.len(),
            &mut answer,
        )
    };
    answer
}

/// What is lent to be written, as the archive takes it.
pub struct Lent<'a> {
    /// Laid out as an answer; the first three words and the last one are not looked at.
    pub heading: [u64; ANSWER_WORDS],
    pub tables: [&'a [u64]; 13],
    /// What the spans cut.
    pub text: &'a [u8],
    pub mask: u8,
}

/// Writes tables: the refusal's number or 0, and its two values or the bytes written.
pub fn write(lent: &Lent<'_>, strip: bool, out: &mut [u8]) -> [u64; 3] {
    let mut values = [0; 2];
    let [t1, t2, t3, t4, t5, t6, t7, t8, t9, t10, t11, t12, t13] = lent.tables;
    // SAFETY: as the head of this file says.
    #[rustfmt::skip]
    let number = unsafe {
        grain_write(
            &lent.heading,
            t1.as_ptr(), t1.len(),
            t2.as_ptr(), t2.len(),
            t3.as_ptr(), t3.len(),
            t4.as_ptr(), t4.len(),
            t5.as_ptr(), t5.len(),
            t6.as_ptr(), t6.len(),
            t7.as_ptr(), t7.len(),
            t8.as_ptr(), t8.len(),
            t9.as_ptr(), t9.len(),
            t10.as_ptr(), t10.len(),
            t11.as_ptr(), t11.len(),
            t12.as_ptr(), t12.len(),
            t13.as_ptr(), t13.len(),
            lent.text.as_ptr(), lent.text.len(), lent.mask, strip.into(),
            out.as_mut_ptr(), out.len(),
            &mut values,
        )
    };
    [number, values[0], values[1]]
}

/// Checks a position table: the refusal's number or 0, and its two values.
pub fn pos_check(table: &[u8]) -> [u64; 3] {
    let mut values = [0; 2];
    // SAFETY: as the head of this file says.
    let number = unsafe { grain_pos_check(table.as_ptr(), table.len(), &mut values) };
    [number, values[0], values[1]]
}

/// The refusal's number or 0, and how many entries a position table says that it has.
pub fn pos_count(table: &[u8]) -> [u64; 2] {
    let mut count = 0;
    // SAFETY: as the head of this file says.
    let number = unsafe { grain_pos_count(table.as_ptr(), table.len(), &mut count) };
    [number, count]
}

/// Line and column of an address, where the table has a site for it.
pub fn pos_resolve(table: &[u8], address: u32) -> Option<[u64; 2]> {
    let mut site = [0; 2];
    // SAFETY: as the head of this file says.
    let found = unsafe { grain_pos_resolve(table.as_ptr(), table.len(), address, &mut site) };
    (found == 1).then_some(site)
}

/// Encodes sites: the refusal's number or 0, and its two values or the bytes written.
pub fn pos_encode(addresses: &[u32], lines: &[u32], columns: &[u32], out: &mut [u8]) -> [u64; 3] {
    let mut values = [0; 2];
    // SAFETY: as the head of this file says.
    #[rustfmt::skip]
    let number = unsafe {
        grain_pos_encode(
            addresses.as_ptr(), addresses.len(),
            lines.as_ptr(), lines.len(),
            columns.as_ptr(), columns.len(),
            out.as_mut_ptr(), out.len(),
            &mut values,
        )
    };
    [number, values[0], values[1]]
}

/// The debug id: its low half, then its high half.
pub fn debug_id(table: &[u8], chains: &[u8]) -> [u64; 2] {
    let mut id = [0; 2];
    // SAFETY: as the head of this file says.
    unsafe { grain_debug_id(table.as_ptr(), table.len(), chains.as_ptr(), chains.len(), &mut id) };
    id
}

/// Whether the bytes are UTF-8.
pub fn utf8(bytes: &[u8]) -> bool {
    // SAFETY: as the head of this file says.
    unsafe { grain_utf8(bytes.as_ptr(), bytes.len()) == 1 }
}

/// An unsigned number at a place, and the place behind it.
pub fn number(bytes: &[u8], at: usize) -> Option<(u64, usize)> {
    let mut out = [0; 2];
    // SAFETY: as the head of this file says.
    let refused = unsafe { grain_number(bytes.as_ptr(), bytes.len(), at, &mut out) };
    (refused == 0).then_some((out[0], out[1] as usize))
}
