//! The extension tags of a UF2 block (include/uf2_tags.h): a reader that holds the block and its place, and gives tag after tag.
//!
//! ```
//! use vantorel::tags::{self, kind, Refusal, Tags};
//!
//! # let mut block = [0; vantorel::ARRIVAL_BYTES];
//! # for (at, x) in [(0, 0x0A32_4655u32), (4, 0x9E5D_5157), (8, 0xA000), (16, 256), (288, 0x9fc7_bc09), (508, 0x0AB1_6F30)] {
//! #     block[at..at + 4].copy_from_slice(&x.to_le_bytes());
//! # }
//! # block[292..297].copy_from_slice(b"0.1.2");
//! for tag in Tags::new(&block) {
//!     let tag = tag?;
//!     assert_eq!((tag.kind, tag.contents), (kind::VERSION, &b"0.1.2"[..]));
//! }
//! let version = tags::find(&block, kind::VERSION)?;
//! assert_eq!(version.map(|tag| tag.contents), Some(&b"0.1.2"[..]));
//! # Ok::<(), Refusal>(())
//! ```

use core::fmt;

mod ffi {
    //! The functions of libtagsapi.a. A slice is a pointer and then a length.

    pub use crate::ffi::{len, Len};

    extern "C" {
        pub fn uf2_tag_first(block: *const u8, block_len: Len) -> Len;

        pub fn uf2_tag(
            block: *const u8,
            block_len: Len,
            place: Len,
            tag: *mut u8,
            tag_len: Len,
        ) -> u32;

        pub fn uf2_tag_find(
            block: *const u8,
            block_len: Len,
            kind: u32,
            tag: *mut u8,
            tag_len: Len,
        ) -> u32;
    }
}

/// The calls as they are, for a tag that is bytes already, of any length. What the library returns is handed on as it is.
pub mod bytes {
    use super::ffi::{self, len, Len};

    /// The bytes of a tag: type, start, length and next place, 32 bits each, the lowest byte first.
    pub const TAG_BYTES: usize = 16;

    /// The place of a block's first tag.
    pub fn first_place(block: &[u8]) -> usize {
        // SAFETY: each pointer and length is of one slice, and a slice that is written overlaps no other.
        let place = unsafe { ffi::uf2_tag_first(block.as_ptr(), len(block)) };
        place as usize
    }

    /// 0 and the tag at a place in the [`TAG_BYTES`] of `tag`; or the number of the end or of a refusal, and `tag` stays.
    pub fn tag_at(block: &[u8], place: usize, tag: &mut [u8]) -> u32 {
        let (at, size, place) = (tag.as_mut_ptr(), len(tag), place as Len);
        // SAFETY: each pointer and length is of one slice, and a slice that is written overlaps no other.
        unsafe { ffi::uf2_tag(block.as_ptr(), len(block), place, at, size) }
    }

    /// 0 and the first tag of a type in the [`TAG_BYTES`] of `tag`; or the number of the end or of a refusal, and `tag` stays.
    pub fn find(block: &[u8], kind: u32, tag: &mut [u8]) -> u32 {
        let (at, size) = (tag.as_mut_ptr(), len(tag));
        // SAFETY: each pointer and length is of one slice, and a slice that is written overlaps no other.
        unsafe { ffi::uf2_tag_find(block.as_ptr(), len(block), kind, at, size) }
    }
}

/// Types of tags that the UF2 text lists.
pub mod kind {
    /// The firmware's version: text, semver.
    pub const VERSION: u32 = 0x9f_c7bc;
    /// What device it is for: text.
    pub const DEVICE: u32 = 0x65_0d9d;
    /// The page size of the device: a number of 32 bits.
    pub const PAGE_SIZE: u32 = 0x0b_e9f7;
    /// A SHA-2 checksum of the firmware.
    pub const SHA2: u32 = 0xb4_6db0;
    /// The device's type: a number of 32 or 64 bits.
    pub const DEVICE_TYPE: u32 = 0xc8_a729;
}

/// A tag of a block.
#[derive(Clone, Copy, PartialEq, Eq, Debug)]
pub struct Tag<'a> {
    /// Its type, of 24 bits.
    pub kind: u32,
    /// Its contents, a part of the block.
    pub contents: &'a [u8],
    /// Where its contents start in the block.
    pub start: usize,
    /// The place after it, where the next tag starts.
    pub next: usize,
}

/// Why no tag is read, by its number. Asked in this order: `BadLength`, `NotBlock`, `BadPayload`, `BadPlace`, `NoRoom`, then the others.
#[derive(Clone, Copy, PartialEq, Eq, Debug)]
#[repr(u8)]
pub enum Refusal {
    /// The block is not 512 bytes.
    BadLength = 1,
    /// The place lies before the payload's end, or is no multiple of 4.
    BadPlace = 3,
    /// A magic number differs.
    NotBlock = 4,
    /// The payload's size is over 476 or no multiple of 4.
    BadPayload = 61,
    /// A size of 1 to 3.
    ShortTag = 62,
    /// A size of 0, with a type.
    TypedEnd = 63,
    /// A tag that runs past the data, or into the checksum of flag 0x4000.
    PastRoom = 64,
    /// Under 4 bytes are left where a tag should start.
    NoRoom = 65,
}

impl Refusal {
    /// Its number.
    pub const fn number(self) -> u8 {
        self as u8
    }

    const ALL: [Refusal; 8] = [
        Refusal::BadLength,
        Refusal::BadPlace,
        Refusal::NotBlock,
        Refusal::BadPayload,
        Refusal::ShortTag,
        Refusal::TypedEnd,
        Refusal::PastRoom,
        Refusal::NoRoom,
    ];
}

impl fmt::Display for Refusal {
    fn fmt(&self, f: &mut fmt::Formatter<'_>) -> fmt::Result {
        f.write_str(match self {
            Refusal::BadLength => "the block is not 512 bytes",
            Refusal::BadPlace => "the place lies before the payload's end, or is no multiple of 4",
            Refusal::NotBlock => "no UF2 block: a magic number differs",
            Refusal::BadPayload => "the payload's size is over 476 or no multiple of 4",
            Refusal::ShortTag => "a tag with a size of 1 to 3",
            Refusal::TypedEnd => "a tag with a size of 0 and a type",
            Refusal::PastRoom => {
                "a tag that runs past the data, or into the checksum of flag 0x4000"
            }
            Refusal::NoRoom => "under 4 bytes are left where a tag should start",
        })
    }
}

impl core::error::Error for Refusal {}

/// The answer of the end, where the flag 0x8000 is clear or the last tag was read.
const END: u32 = 60;

/// What a call returned, over the block that it was handed.
fn told<'a>(
    block: &'a [u8],
    result: u32,
    tag: &[u8; bytes::TAG_BYTES],
) -> Result<Option<Tag<'a>>, Refusal> {
    if result == END {
        return Ok(None);
    }
    if result != 0 {
        let refusal = Refusal::ALL
            .into_iter()
            .find(|r| u32::from(r.number()) == result);
        return Err(refusal.expect("the proved library returns only its answers"));
    }
    let field =
        |at: usize| u32::from_le_bytes([tag[at], tag[at + 1], tag[at + 2], tag[at + 3]]) as usize;
    let start = field(4);
    Ok(Some(Tag {
        kind: field(0) as u32,
        contents: &block[start..][..field(8)],
        start,
        next: field(12),
    }))
}

/// What stands at a place of a block: a tag, or none at the end.
///
/// # Errors
///
/// A refusal, as the library answers it.
///
/// # Panics
///
/// Where the library returns a number that is no answer (see the crate's page).
pub fn tag_at(block: &[u8], place: usize) -> Result<Option<Tag<'_>>, Refusal> {
    let mut tag = [0; bytes::TAG_BYTES];
    let result = bytes::tag_at(block, place, &mut tag);
    told(block, result, &tag)
}

/// The first tag of a type, or none where the end comes before any.
///
/// # Errors
///
/// The refusal that comes before any tag of the type.
///
/// # Panics
///
/// Where the library returns a number that is no answer (see the crate's page).
pub fn find(block: &[u8], kind: u32) -> Result<Option<Tag<'_>>, Refusal> {
    let mut tag = [0; bytes::TAG_BYTES];
    let result = bytes::find(block, kind, &mut tag);
    told(block, result, &tag)
}

/// A reader of a block's tags: the block, and its place. As an iterator it yields each tag, and a refusal once; then nothing more.
/// [`Tags::next_tag`] repeats the end and every refusal.
#[derive(Clone, Debug)]
pub struct Tags<'a> {
    block: &'a [u8],
    place: usize,
    over: bool,
}

impl<'a> Tags<'a> {
    /// A reader at the block's first tag. Whatever the block is, making a reader refuses nothing.
    pub fn new(block: &'a [u8]) -> Tags<'a> {
        Tags::at(block, bytes::first_place(block))
    }

    /// A reader at a place of the block, an offset in it.
    pub const fn at(block: &'a [u8], place: usize) -> Tags<'a> {
        Tags {
            block,
            place,
            over: false,
        }
    }

    /// Where it stands.
    pub const fn place(&self) -> usize {
        self.place
    }

    /// The tag at its place, or none at the end. Only a tag moves it on, so that the end and every refusal are repeated.
    ///
    /// # Errors
    ///
    /// A refusal, as the library answers it.
    ///
    /// # Panics
    ///
    /// Where the library returns a number that is no answer (see the crate's page).
    pub fn next_tag(&mut self) -> Result<Option<Tag<'a>>, Refusal> {
        let found = tag_at(self.block, self.place)?;
        if let Some(tag) = found {
            self.place = tag.next;
        }
        Ok(found)
    }
}

impl<'a> Iterator for Tags<'a> {
    type Item = Result<Tag<'a>, Refusal>;

    fn next(&mut self) -> Option<Result<Tag<'a>, Refusal>> {
        if self.over {
            return None;
        }
        let found = self.next_tag().transpose();
        self.over = !matches!(found, Some(Ok(_)));
        found
    }
}

impl core::iter::FusedIterator for Tags<'_> {}
