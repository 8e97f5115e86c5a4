//! What the original allocates: how much is held, and how often it asks.
use std::alloc::{GlobalAlloc, Layout, System};
use std::sync::atomic::{AtomicUsize, Ordering::Relaxed};

/// The system's allocator, and counts. They are kept by plain loads and stores, since one thread asks, so that what is measured
/// beside is not slowed by them.
struct Counting;

static HELD: AtomicUsize = AtomicUsize::new(0);
static ASKED: AtomicUsize = AtomicUsize::new(0);

fn took(size: usize) {
    HELD.store(HELD.load(Relaxed).wrapping_add(size), Relaxed);
    ASKED.store(ASKED.load(Relaxed).wrapping_add(1), Relaxed);
}

unsafe impl GlobalAlloc for Counting {
    unsafe fn alloc(&self, layout: Layout) -> *mut u8 {
        took(layout.size());
        System.alloc(layout)
    }

    unsafe fn dealloc(&self, at: *mut u8, layout: Layout) {
        HELD.store(HELD.load(Relaxed).wrapping_sub(layout.size()), Relaxed);
        System.dealloc(at, layout);
    }

    unsafe fn realloc(&self, at: *mut u8, layout: Layout, size: usize) -> *mut u8 {
        took(size.wrapping_sub(layout.size()));
        System.realloc(at, layout, size)
    }
}

#[global_allocator]
static ALLOCATOR: Counting = Counting;

pub struct Used {
    /// The bytes that are held once it is made.
    pub held: usize,
    pub asked: usize,
}

/// What it takes to make a thing.
pub fn used<T>(make: impl FnOnce() -> T) -> Used {
    let (held, asked) = (HELD.load(Relaxed), ASKED.load(Relaxed));
    let made = make();
    let used = Used { held: HELD.load(Relaxed) - held, asked: ASKED.load(Relaxed) - asked };
    drop(made);
    used
}
