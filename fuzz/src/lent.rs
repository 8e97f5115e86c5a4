//! Memory that ends at a page which cannot be touched: whoever reads or writes behind what is lent is stopped by the machine.
use std::ffi::c_void;
use std::ptr::null_mut;

extern "C" {
    fn mmap(at: *mut c_void, size: usize, protection: i32, flags: i32, file: i32, offset: i64) -> *mut c_void;
    fn mprotect(at: *mut c_void, size: usize, protection: i32) -> i32;
}

const PAGE: usize = 4096;
const NONE: i32 = 0;
const READ_WRITE: i32 = 3;
const PRIVATE_ANONYMOUS: i32 = 0x22;

/// The words that a table has at most, and the bytes that a file has.
pub const MOST_WORDS: usize = 1024;
const MOST_BYTES: usize = 1 << 20;

/// What stands before that which is lent, and must stand there afterwards.
const BEFORE: u8 = 0x5c;

pub struct Room {
    end: *mut u8,
    size: usize,
}

impl Room {
    fn new(most: usize) -> Room {
        let size = most.next_multiple_of(PAGE) + PAGE;
        unsafe {
            let start = mmap(null_mut(), size + PAGE, READ_WRITE, PRIVATE_ANONYMOUS, -1, 0).cast::<u8>();
            let end = start.add(size);
            assert_eq!(mprotect(end.cast(), PAGE, NONE), 0, "the page behind is closed");
            Room { end, size }
        }
    }

    /// So many bytes up to the closed page. Some before them are marked.
    pub fn bytes(&mut self, size: usize) -> &mut [u8] {
        unsafe {
            let start = self.end.sub(size);
            std::slice::from_raw_parts_mut(start.sub(64), 64).fill(BEFORE);
            std::slice::from_raw_parts_mut(start, size)
        }
    }

    pub fn words(&mut self, count: usize) -> &mut [u64] {
        let start = self.bytes(8 * count).as_mut_ptr();
        unsafe { std::slice::from_raw_parts_mut(start.cast(), count) }
    }

    /// Whether the bytes before what was lent are as they were.
    pub fn untouched_before(&self, size: usize) -> bool {
        assert!(size + 64 <= self.size, "what is lent fits the room");
        unsafe { std::slice::from_raw_parts(self.end.sub(size + 64), 64) }.iter().all(|&b| b == BEFORE)
    }
}

pub struct Lent {
    pub file: Room,
    pub tables: [Room; 13],
    pub out: Room,
}

impl Lent {
    pub fn new() -> Lent {
        let tables = std::array::from_fn(|_| Room::new(8 * MOST_WORDS));
        Lent { file: Room::new(MOST_BYTES), tables, out: Room::new(MOST_BYTES) }
    }
}
