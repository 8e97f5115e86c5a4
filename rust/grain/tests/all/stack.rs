//! The mask and the way to write are bytes that a call hands over on the stack, each in a place of eight. Compilers fill four of
//! these at most, so what stands in the other four must not be looked at.
use grain::Positions;

/// Something else in the upper half.
const BESIDE: u64 = 0xDEAD_BEEF_0000_0000;

extern "C" {
    /// As `include/grain.h` declares it, but for the two bytes, which are told with what stands beside them.
    fn grain_write(
        heading: *const [u64; 32],
        t1: *const u64,
        n1: usize,
        t2: *const u64,
        n2: usize,
        t3: *const u64,
        n3: usize,
        t4: *const u64,
        n4: usize,
        t5: *const u64,
        n5: usize,
        t6: *const u64,
        n6: usize,
        t7: *const u64,
        n7: usize,
        t8: *const u64,
        n8: usize,
        t9: *const u64,
        n9: usize,
        t10: *const u64,
        n10: usize,
        t11: *const u64,
        n11: usize,
        t12: *const u64,
        n12: usize,
        t13: *const u64,
        n13: usize,
        text: *const u8,
        text_len: usize,
        mask: u64,
        strip: u64,
        out: *mut u8,
        room: usize,
        values: *mut [u64; 2],
    ) -> u64;
}

/// Address 7 at 2:5.
const TEXT: [u8; 4] = [1, 7, 2, 5];

/// An artifact with a chain of one step, whose flag is 01, and a position table.
fn written(mask: u64, strip: u64) -> (u64, [u64; 2]) {
    let mut heading = [0; 32];
    heading[13] = TEXT.len() as u64;
    heading[22] = 1;
    heading[23] = 1;
    let chain: [u64; 9] = [2, 0, 0, 0, 0, 0, 1, 1, 0];
    let step: [u64; 11] = [1, 1, 0, 0, 0, 0, 0, 0, 0, 0, 0];
    let (none, mut out, mut values) = ([0u64].as_ptr(), [0; 100], [0; 2]);
    // SAFETY: each pointer is valid for the length that goes with it, and what is written overlaps nothing else.
    #[rustfmt::skip]
    let number = unsafe {
        grain_write(
            &heading, none, 0, none, 0, none, 0, none, 0, chain.as_ptr(), 9, step.as_ptr(), 11, none, 0, none, 0,
            none, 0, none, 0, none, 0, none, 0, none, 0, TEXT.as_ptr(), TEXT.len(), mask, strip,
            out.as_mut_ptr(), out.len(), &mut values,
        )
    };
    (number, values)
}

#[test]
fn a_byte_on_the_stack_is_a_byte() {
    let size = |positions| {
        let strip = u64::from(positions == Positions::Stripped);
        let (number, values) = written(1, strip);
        assert_eq!((number, written(BESIDE | 1, BESIDE | strip)), (0, (number, values)));
        values[0]
    };
    assert_eq!(size(Positions::Kept), size(Positions::Stripped) + TEXT.len() as u64);
    // The flag is outside of this mask.
    assert_eq!(written(BESIDE, BESIDE), (15, [5, 0]));
    // Whatever is not 0 strips.
    assert_eq!(written(1, 0x80), written(1, 1));
}
