//! The reader.
use beside::artifact::Words;

extern "C" {
    fn grain_read(
        bytes: *const u8, len: usize, mask: u8,
        names: *mut u64, n1: usize, constants: *mut u64, n2: usize, tokens: *mut u64, n3: usize,
        assigns: *mut u64, n4: usize, chains: *mut u64, n5: usize, steps: *mut u64, n6: usize,
        switches: *mut u64, n7: usize, cases: *mut u64, n8: usize, ranges: *mut u64, n9: usize,
        customs: *mut u64, n10: usize, inputs: *mut u64, n11: usize, functions: *mut u64, n12: usize,
        parameters: *mut u64, n13: usize, answer: *mut Words,
    );
}

/// Reads into lent tables, of which every word is written: rows in front, and zeros behind.
pub fn read(bytes: &[u8], mask: u8, tables: [&mut [u64]; 13]) -> Words {
    let mut words = [!0; 32];
    let [t1, t2, t3, t4, t5, t6, t7, t8, t9, t10, t11, t12, t13] = tables;
    unsafe {
        grain_read(
            bytes.as_ptr(), bytes.len(), mask,
            t1.as_mut_ptr(), t1.len(), t2.as_mut_ptr(), t2.len(), t3.as_mut_ptr(), t3.len(),
            t4.as_mut_ptr(), t4.len(), t5.as_mut_ptr(), t5.len(), t6.as_mut_ptr(), t6.len(),
            t7.as_mut_ptr(), t7.len(), t8.as_mut_ptr(), t8.len(), t9.as_mut_ptr(), t9.len(),
            t10.as_mut_ptr(), t10.len(), t11.as_mut_ptr(), t11.len(), t12.as_mut_ptr(), t12.len(),
            t13.as_mut_ptr(), t13.len(), &mut words,
        )
    };
    words
}
