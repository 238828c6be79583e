//! A slice that ends where a page begins that may not be touched: a call that reads or writes past it ends the process. What lies before it is held
//! to be as it was. Linux on x86-64.

use std::ffi::c_void;

const PAGE: usize = 4096;
const PAINT: u8 = 0xA5;
/// As many bytes before the slice are looked at.
const BEFORE: usize = 64;

extern "C" {
    fn mmap(
        at: *mut c_void,
        len: usize,
        prot: i32,
        flags: i32,
        file: i32,
        from: i64,
    ) -> *mut c_void;
    fn mprotect(at: *mut c_void, len: usize, prot: i32) -> i32;
}

/// Room for a slice, up to a number of bytes.
pub struct Fence {
    end: *mut u8,
    room: usize,
    len: usize,
    /// Whether what is before the slice is painted, and looked at.
    painted: bool,
}

impl Fence {
    pub fn new(room: usize) -> Fence {
        let room = (room + BEFORE).next_multiple_of(PAGE);
        // SAFETY: new pages, private, to be read and written; the last one is then closed.
        let at = unsafe { mmap(std::ptr::null_mut(), room + PAGE, 3, 0x22, -1, 0) };
        assert!(at as isize != -1, "mmap");
        let end = unsafe { at.cast::<u8>().add(room) };
        assert_eq!(unsafe { mprotect(end.cast(), PAGE, 0) }, 0, "mprotect");
        Fence {
            end,
            room,
            len: 0,
            painted: true,
        }
    }

    /// The same for bytes that stay from one slice to the next: nothing is painted.
    pub fn kept(room: usize) -> Fence {
        let mut fence = Fence::new(room);
        fence.painted = false;
        fence
    }

    /// The slice, of that length; its bytes are those of the last one that ended here.
    pub fn of_len(&mut self, len: usize) -> &mut [u8] {
        assert!(len + BEFORE <= self.room, "no room");
        self.len = len;
        if self.painted {
            // SAFETY: the bytes before the end are this fence's, and are lent by it alone.
            unsafe {
                std::slice::from_raw_parts_mut(self.end.sub(len + BEFORE), BEFORE).fill(PAINT);
            }
        }
        self.bytes()
    }

    pub fn bytes(&mut self) -> &mut [u8] {
        // SAFETY: as above.
        unsafe { std::slice::from_raw_parts_mut(self.end.sub(self.len), self.len) }
    }

    /// A copy of bytes.
    pub fn copy(&mut self, bytes: &[u8]) -> &mut [u8] {
        let slice = self.of_len(bytes.len());
        slice.copy_from_slice(bytes);
        slice
    }

    /// Every byte the same.
    pub fn fill(&mut self, len: usize, byte: u8) -> &mut [u8] {
        let slice = self.of_len(len);
        slice.fill(byte);
        slice
    }

    /// Holds the slice to bytes, and what is before it to what it was.
    pub fn holds(&mut self, bytes: &[u8], name: &str) {
        assert!(self.bytes() == bytes, "{name} differs");
        // SAFETY: as above.
        let before = unsafe { std::slice::from_raw_parts(self.end.sub(self.len + BEFORE), BEFORE) };
        let kept = !self.painted || before == [PAINT; BEFORE];
        assert!(kept, "what is before {name} differs");
    }
}
