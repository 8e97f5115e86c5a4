//! What two stand-ins are told: which step flags are known, and whether a position table is held against the code.
use std::cell::Cell;

thread_local! {
    static FLAGS: Cell<Option<u8>> = const { Cell::new(None) };
    static WALK: Cell<bool> = const { Cell::new(true) };
}

/// The known step flags from here on, instead of the original's own.
pub fn know_flags(mask: Option<u8>) {
    FLAGS.set(mask);
}

/// Whether each entry of a position table must name an instruction, as in the original, from here on.
pub fn walk_code(walk: bool) {
    WALK.set(walk);
}

pub(crate) fn known_flags() -> Option<u8> {
    FLAGS.get()
}

pub(crate) fn walks_code() -> bool {
    WALK.get()
}
