//! The proved tools for Rust: safe calls of their C interface (include/uf2_tools.h).
//!
//! [`make`] writes the UF2 file of an image; a tool that streams asks [`fn@check`] and writes with [`write_block`]. [`md5`] is the digest of
//! RFC 1321. [`join`] writes one Universal Hex file from two plain Intel Hex files. [`trace::replay`] replays what a site's host sent, and
//! [`report::add`] adds such a trace to exact figures over many; [`part::Part`] is such figures made in pieces (include/uf2_parts.h).
//! [`why::explain`] says why an arrival is answered as it is, and [`why::explain_place`] why a family has a place or none (include/uf2_why.h);
//! [`check::check`] whether a file is valid for a board (include/uf2_check.h). Nothing is allocated or kept between calls. The package `vantorel` links the
//! library, `libvantorel.a`, for both.
//!
//! ```
//! let image = [7; 512];
//! let mut file = [0; 1024];
//! assert_eq!(vantorel_tools::make(&image, 0xe48b_ff59, 0x1000_0000, &mut file), Ok(2));
//! assert_eq!(vantorel_tools::make(&[], 0xe48b_ff59, 0x1000_0000, &mut file), Err(vantorel_tools::MakeRefusal::BadImage));
//!
//! let plain = b":010000005AA5\n:00000001FF\n";
//! let mut both = [0; 1036];
//! assert_eq!(vantorel_tools::join(plain, plain, &mut both), Ok(1036));
//! assert_eq!(vantorel_tools::join(plain, plain, &mut both[..1035]), Err(vantorel_tools::JoinRefusal::OutputTooLong));
//! ```

#![no_std]
#![deny(missing_docs)]

// under its short name, as the other crates here have it; readers of the examples have it as `vantorel`
extern crate vantorel as proved;

pub mod check;
mod ffi;
mod join;
pub mod part;
pub mod report;
mod sentence;
pub mod trace;
pub mod why;
#[rustfmt::skip]
mod words;

pub use join::{join, Board, JoinRefusal, PlainRefusal, HEX_FILE_BYTES};

use ffi::{len, Len};

/// The bytes of a page of an image.
pub const PAGE_BYTES: usize = 256;
/// The bytes of a block of a file.
pub const BLOCK_BYTES: usize = 512;
/// The bytes of a digest.
pub const MD5_BYTES: usize = 16;

/// Why no file is made of an image. They are asked in this order.
#[derive(Clone, Copy, PartialEq, Eq, Debug)]
pub enum MakeRefusal {
    /// 50: the image is empty, or no whole pages.
    BadImage,
    /// 51: the start is not from 0x10000000 up to, not including, 0x12000000, or no multiple of 256.
    BadStart,
    /// 52: the image runs past 0x12000000.
    PastWindow,
    /// 53: the output has under 512 bytes a page.
    ShortOutput,
}

impl MakeRefusal {
    /// The refusal's number.
    pub fn number(self) -> u32 {
        match self {
            MakeRefusal::BadImage => 50,
            MakeRefusal::BadStart => 51,
            MakeRefusal::PastWindow => 52,
            MakeRefusal::ShortOutput => 53,
        }
    }
}

impl core::fmt::Display for MakeRefusal {
    fn fmt(&self, f: &mut core::fmt::Formatter<'_>) -> core::fmt::Result {
        f.write_str(words::make(self.number()).unwrap_or_default())
    }
}

impl core::error::Error for MakeRefusal {}

/// The result of a number: how many blocks, or the refusal. That the library returns no other number is proved.
fn result(number: u32, image_len: usize) -> Result<usize, MakeRefusal> {
    match number {
        0 => Ok(image_len / PAGE_BYTES),
        50 => Err(MakeRefusal::BadImage),
        51 => Err(MakeRefusal::BadStart),
        52 => Err(MakeRefusal::PastWindow),
        53 => Err(MakeRefusal::ShortOutput),
        _ => panic!("the library is not the proved one of this version"),
    }
}

/// How many blocks [`make`] would write for an image of so many bytes, or its refusal.
pub fn check(image_len: usize, start: u32, output_len: usize) -> Result<usize, MakeRefusal> {
    // SAFETY: the call takes numbers alone.
    let number = unsafe { ffi::uf2_make_check(image_len as Len, start, output_len as Len) };
    result(number, image_len)
}

/// Writes the UF2 blocks of an image in number order at the start of the output, and returns how many. A refusal writes nothing; what follows the
/// last block stays.
pub fn make(
    image: &[u8],
    family: u32,
    start: u32,
    output: &mut [u8],
) -> Result<usize, MakeRefusal> {
    // SAFETY: each pointer is of a slice with its length, and the output overlaps nothing, since it is borrowed alone.
    let number = unsafe {
        ffi::uf2_make(
            image.as_ptr(),
            len(image),
            family,
            start,
            output.as_mut_ptr(),
            len(output),
        )
    };
    result(number, image.len())
}

/// The same with a region for each sector (flag 0x4000): sent again after a cut, a block whose sector is whole is answered 17 and not written.
pub fn make_regions(
    image: &[u8],
    family: u32,
    start: u32,
    output: &mut [u8],
) -> Result<usize, MakeRefusal> {
    // SAFETY: each pointer is of a slice with its length, and the output overlaps nothing, since it is borrowed alone.
    let number = unsafe {
        ffi::uf2_make_regions(
            image.as_ptr(),
            len(image),
            family,
            start,
            output.as_mut_ptr(),
            len(output),
        )
    };
    result(number, image.len())
}

/// What a block says beside its page.
#[derive(Clone, Copy, PartialEq, Eq, Debug)]
pub struct Fields {
    /// Where the page goes.
    pub address: u32,
    /// The block's number, from 0.
    pub number: u32,
    /// How many blocks the file has.
    pub total: u32,
    /// The family.
    pub family: u32,
}

/// Writes one block, with the family's flag alone and zeros after the page.
pub fn write_block(fields: Fields, page: &[u8; PAGE_BYTES], block: &mut [u8; BLOCK_BYTES]) {
    write_block_bytes(fields, page, block);
}

/// The same over bytes of any length: nothing is written unless they are [`PAGE_BYTES`] and [`BLOCK_BYTES`].
pub fn write_block_bytes(fields: Fields, page: &[u8], block: &mut [u8]) {
    // SAFETY: each pointer is of a slice with its length, and the block overlaps nothing, since it is borrowed alone.
    unsafe {
        ffi::uf2_make_block(
            fields.address,
            fields.number,
            fields.total,
            fields.family,
            page.as_ptr(),
            len(page),
            block.as_mut_ptr(),
            len(block),
        );
    }
}

/// The MD5 digest of bytes (RFC 1321), in the RFC's byte order.
pub fn md5(bytes: &[u8]) -> [u8; MD5_BYTES] {
    let mut digest = [0; MD5_BYTES];
    md5_bytes(bytes, &mut digest);
    digest
}

/// The same with the digest's bytes, which are written where there are [`MD5_BYTES`].
pub fn md5_bytes(bytes: &[u8], digest: &mut [u8]) {
    // SAFETY: each pointer is of a slice with its length, and the digest overlaps nothing, since it is borrowed alone.
    unsafe {
        ffi::uf2_md5(bytes.as_ptr(), len(bytes), digest.as_mut_ptr(), len(digest));
    }
}
