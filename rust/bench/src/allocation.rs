//! What is taken from the heap.

use std::alloc::{GlobalAlloc, Layout, System};
use std::cell::Cell;

thread_local! {
    /// What this thread has allocated since counting began. None where nothing is counted.
    static COUNT: Cell<Option<Allocated>> = const { Cell::new(None) };
}

/// The system's allocator, which counts on demand, each thread's allocations apart.
pub struct Counting;

// SAFETY: all calls are handed to the system's allocator as they come.
unsafe impl GlobalAlloc for Counting {
    unsafe fn alloc(&self, layout: Layout) -> *mut u8 {
        count(layout.size());
        unsafe { System.alloc(layout) }
    }

    unsafe fn alloc_zeroed(&self, layout: Layout) -> *mut u8 {
        count(layout.size());
        unsafe { System.alloc_zeroed(layout) }
    }

    unsafe fn realloc(&self, at: *mut u8, layout: Layout, size: usize) -> *mut u8 {
        count(size);
        unsafe { System.realloc(at, layout, size) }
    }

    unsafe fn dealloc(&self, at: *mut u8, layout: Layout) {
        unsafe { System.dealloc(at, layout) }
    }
}

fn count(size: usize) {
    if let Some(Allocated { times, bytes }) = COUNT.get() {
        COUNT.set(Some(Allocated {
            times: times + 1,
            bytes: bytes + size,
        }));
    }
}

/// Allocations.
#[derive(Clone, Copy, Debug, Default, PartialEq, Eq)]
pub struct Allocated {
    pub times: usize,
    pub bytes: usize,
}

/// What `call` answers, and what it allocates.
pub fn allocated<T>(call: impl FnOnce() -> T) -> (T, Allocated) {
    COUNT.set(Some(Allocated::default()));
    let answer = call();
    let heap = COUNT.take().unwrap_or_default();
    (answer, heap)
}
