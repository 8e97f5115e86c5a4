//! The writer.
use beside::artifact::Words;
use beside::lent::{Lent, Way};
use beside::refusals::Row;

extern "C" {
    fn grain_write(
        heading: *const Words,
        names: *const u64, n1: usize, constants: *const u64, n2: usize, tokens: *const u64, n3: usize,
        assigns: *const u64, n4: usize, chains: *const u64, n5: usize, steps: *const u64, n6: usize,
        switches: *const u64, n7: usize, cases: *const u64, n8: usize, ranges: *const u64, n9: usize,
        customs: *const u64, n10: usize, inputs: *const u64, n11: usize, functions: *const u64, n12: usize,
        parameters: *const u64, n13: usize, text: *const u8, text_len: usize, mask: u8, strip: u8,
        out: *mut u8, room: usize, values: *mut [u64; 2],
    ) -> u64;
}

/// The number, or 0, and both values, which hold something else before.
pub fn write(lent: Lent, way: Way, out: &mut [u8]) -> Row {
    let mut values = [!0; 2];
    let [t1, t2, t3, t4, t5, t6, t7, t8, t9, t10, t11, t12, t13] = lent.tables;
    let number = unsafe {
        grain_write(
            lent.heading,
            t1.as_ptr(), t1.len(), t2.as_ptr(), t2.len(), t3.as_ptr(), t3.len(),
            t4.as_ptr(), t4.len(), t5.as_ptr(), t5.len(), t6.as_ptr(), t6.len(),
            t7.as_ptr(), t7.len(), t8.as_ptr(), t8.len(), t9.as_ptr(), t9.len(),
            t10.as_ptr(), t10.len(), t11.as_ptr(), t11.len(), t12.as_ptr(), t12.len(),
            t13.as_ptr(), t13.len(), lent.text.as_ptr(), lent.text.len(), way.mask, way.strip,
            out.as_mut_ptr(), out.len(), &mut values,
        )
    };
    [number, values[0], values[1]]
}
