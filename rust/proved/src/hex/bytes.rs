//! The calls as they are, for readers that are bytes already, of any length and content. What the library returns is handed on as it is.
//!
//! Every call is safe: a Rust slice is a pointer to as many bytes as it says, never null, and one that is written overlaps no other.

use crate::ffi::{self, len};

/// A fresh reader of a board, where there are [`READER_BYTES`](super::READER_BYTES); else nothing changes.
pub fn new(own: u16, reader: &mut [u8]) {
    // SAFETY: each pointer and length is of one slice, and a slice that is written overlaps no other.
    unsafe { ffi::uhex_new(own, reader.as_mut_ptr(), len(reader)) }
}

/// One line: the answer's number, and 256 times the position of a bad digit.
pub fn line(reader: &mut [u8], line: &[u8], image: &mut [u8]) -> u32 {
    // SAFETY: each pointer and length is of one slice, and a slice that is written overlaps no other.
    unsafe {
        ffi::uhex_line(
            reader.as_mut_ptr(),
            len(reader),
            line.as_ptr(),
            len(line),
            image.as_mut_ptr(),
            len(image),
        )
    }
}
