//! Bytes that lie against a page that may not be touched, so that a read or write out of bounds ends the process. Linux on x86-64.

use std::cell::RefCell;
use std::collections::HashMap;
use std::ffi::c_void;

const PAGE: usize = 4096;
const PAINT: u8 = 0xA5;

const PROT_NONE: i32 = 0;
const PROT_READ: i32 = 1;
const PROT_WRITE: i32 = 2;
const MAP_PRIVATE: i32 = 0x02;
const MAP_ANONYMOUS: i32 = 0x20;

extern "C" {
    fn mmap(
        at: *mut c_void,
        len: usize,
        prot: i32,
        flags: i32,
        file: i32,
        from: i64,
    ) -> *mut c_void;
    fn mprotect(at: *mut c_void, len: usize, prot: i32) -> i32;
    fn munmap(at: *mut c_void, len: usize) -> i32;
}

/// Which end of the bytes lies against the page. The other end is in a page of its own, up to the next one that may not be touched.
#[derive(Clone, Copy, PartialEq, Eq, Debug)]
pub enum Side {
    Start,
    End,
}

/// Pages between two that may not be touched, and what may be done with them.
struct Map {
    at: *mut u8,
    pages: usize,
    prot: i32,
}

thread_local! {
    /// Maps that are free, by their pages: a test of many calls has each of them made once, which takes longer than the call.
    static FREE: RefCell<HashMap<usize, Vec<Map>>> = RefCell::default();
}

impl Map {
    fn of(pages: usize) -> Map {
        let free = FREE.with_borrow_mut(|free| free.get_mut(&pages).and_then(Vec::pop));
        free.unwrap_or_else(|| Map::new(pages))
    }

    fn new(pages: usize) -> Map {
        // SAFETY: a mapping of its own, at an address that the system chooses, touches nothing that is there.
        let at = unsafe {
            mmap(
                std::ptr::null_mut(),
                (pages + 2) * PAGE,
                PROT_NONE,
                MAP_PRIVATE | MAP_ANONYMOUS,
                -1,
                0,
            )
        };
        assert!(at as isize != -1, "mmap");
        Map {
            at: at.cast(),
            pages,
            prot: PROT_NONE,
        }
    }

    fn protect(&mut self, prot: i32) {
        if self.pages > 0 && self.prot != prot {
            // SAFETY: these pages are all of this mapping, and nobody holds a slice of them here: `self` is borrowed alone.
            let done = unsafe { mprotect(self.at.add(PAGE).cast(), self.pages * PAGE, prot) };
            assert_eq!(done, 0, "mprotect");
            self.prot = prot;
        }
    }
}

impl Drop for Map {
    fn drop(&mut self) {
        // SAFETY: the mapping is this whole one, and no slice of it outlives it.
        unsafe { munmap(self.at.cast(), (self.pages + 2) * PAGE) };
    }
}

/// Bytes between two pages that may not be touched.
pub struct Fenced {
    /// there until it is dropped
    map: Option<Map>,
    from: usize,
    len: usize,
}

impl Fenced {
    /// A copy of the bytes, against the page before its first byte or after its last. None of it can be written where it is
    /// `read_only`.
    pub fn new(bytes: &[u8], side: Side, read_only: bool) -> Fenced {
        let pages = bytes.len().div_ceil(PAGE);
        let mut fenced = Fenced {
            map: Some(Map::of(pages)),
            from: match side {
                Side::Start => PAGE,
                Side::End => PAGE + pages * PAGE - bytes.len(),
            },
            len: bytes.len(),
        };
        fenced.protect(PROT_READ | PROT_WRITE);
        fenced.inner_mut().fill(PAINT);
        fenced.bytes_mut().copy_from_slice(bytes);
        if read_only {
            fenced.protect(PROT_READ);
        }
        fenced
    }

    fn protect(&mut self, prot: i32) {
        self.map.as_mut().expect("there").protect(prot);
    }

    fn map(&self) -> &Map {
        self.map.as_ref().expect("there")
    }

    /// The pages that may be touched.
    fn inner(&self) -> &[u8] {
        // SAFETY: the pages between the two fences are mapped and readable, and borrowed as `self` is.
        unsafe { std::slice::from_raw_parts(self.map().at.add(PAGE), self.map().pages * PAGE) }
    }

    fn inner_mut(&mut self) -> &mut [u8] {
        // SAFETY: the same, and `self` is borrowed alone.
        unsafe { std::slice::from_raw_parts_mut(self.map().at.add(PAGE), self.map().pages * PAGE) }
    }

    /// The bytes.
    pub fn bytes(&self) -> &[u8] {
        // SAFETY: `from` and `len` lie within the pages between the fences, and they are borrowed as `self` is.
        unsafe { std::slice::from_raw_parts(self.map().at.add(self.from), self.len) }
    }

    /// The bytes, for whoever writes them; those that are read-only are lent and not written.
    pub fn bytes_mut(&mut self) -> &mut [u8] {
        // SAFETY: the same, and `self` is borrowed alone.
        unsafe { std::slice::from_raw_parts_mut(self.map().at.add(self.from), self.len) }
    }

    /// Whether what lies in the same pages beside the bytes is as it was.
    pub fn rest_is_kept(&self) -> bool {
        let at = self.from - PAGE;
        let (before, rest) = self.inner().split_at(at);
        let after = &rest[self.len..];
        before.iter().chain(after).all(|&b| b == PAINT)
    }
}

impl Drop for Fenced {
    fn drop(&mut self) {
        if let Some(map) = self.map.take() {
            // where the thread ends, its maps are unmapped
            let _ = FREE.try_with(|free| free.borrow_mut().entry(map.pages).or_default().push(map));
        }
    }
}
