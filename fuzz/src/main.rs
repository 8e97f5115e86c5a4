//! What libFuzzer calls: one input is a case of ../vectors, read, and written again, in memory that ends where it was lent.
#![no_main]
mod checks;
mod lent;
#[path = "../../rust/src/ours/artifact.rs"]
mod ours;
#[path = "../../rust/src/ours/written.rs"]
mod ours_written;
mod written;

use beside::inputs::case::Case;
use std::cell::RefCell;

extern "C" {
    fn watch_blocks();
}

thread_local! {
    static LENT: RefCell<lent::Lent> = RefCell::new(lent::Lent::new());
}

/// # Safety
/// libFuzzer calls it, once and first.
#[no_mangle]
pub unsafe extern "C" fn LLVMFuzzerInitialize(_argc: *mut i32, _argv: *mut *mut *mut u8) -> i32 {
    watch_blocks();
    0
}

/// # Safety
/// libFuzzer calls it, with `size` bytes at `data`.
#[no_mangle]
pub unsafe extern "C" fn LLVMFuzzerTestOneInput(data: *const u8, size: usize) -> i32 {
    let input = if size == 0 { &[] } else { std::slice::from_raw_parts(data, size) };
    match Case::of(input) {
        None => -1,
        Some(case) => {
            LENT.with_borrow_mut(|lent| checks::all(&case, lent));
            0
        }
    }
}
