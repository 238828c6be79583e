//! Memory that is not there: the tool ends with a sentence and exit status 2, and not by a signal.

use std::alloc::{GlobalAlloc, Layout, System};
use std::io::Write;

struct Enough;

#[global_allocator]
static MEMORY: Enough = Enough;

/// What a file needs is in memory whole, so that a file is written in one piece or not begun: nothing is left half done.
fn enough(at: *mut u8) -> *mut u8 {
    if at.is_null() {
        // no memory for more than these words
        let _ = std::io::stderr().write_all(b"vantorel: there is not enough memory for this\n");
        std::process::exit(2);
    }
    at
}

// SAFETY: the system's own, but for null, after which nothing is done.
unsafe impl GlobalAlloc for Enough {
    unsafe fn alloc(&self, layout: Layout) -> *mut u8 {
        // SAFETY: what the caller promises is what the system asks for; so below.
        enough(unsafe { System.alloc(layout) })
    }

    unsafe fn alloc_zeroed(&self, layout: Layout) -> *mut u8 {
        // SAFETY: as for alloc.
        enough(unsafe { System.alloc_zeroed(layout) })
    }

    unsafe fn realloc(&self, at: *mut u8, layout: Layout, len: usize) -> *mut u8 {
        // SAFETY: as for alloc; `at` came from there.
        enough(unsafe { System.realloc(at, layout, len) })
    }

    unsafe fn dealloc(&self, at: *mut u8, layout: Layout) {
        // SAFETY: `at` came from alloc, with this layout.
        unsafe { System.dealloc(at, layout) }
    }
}
