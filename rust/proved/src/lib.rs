//! The proved receiver for Rust: safe calls of its C interface (include/uf2_receiver.h).
//!
//! UF2 blocks go through [`look`] and [`take`], lines of Universal Hex through [`hex::Reader::line`]. Nothing has to be checked before a call: every
//! settings, transfer, reader and length gets an answer, and nothing is allocated or kept between calls. It links the library
//! `libvantorel.a` from the folder that VANTOREL_LIB_DIR names, or from that of the target: x86-64 Linux and Windows, Cortex-M33, RV32IMAC, AArch64 and WebAssembly.
//!
//! A block goes to flash or, where its address lies in the window of a RAM that is lent, to that RAM ([`Kind`]). [`take`] and [`take_all`] are
//! for flash that is memory, which can be stored to. Where flash is read as memory and written by a driver, [`take_through`] takes an arrival
//! through a [`FlashDriver`], or [`accept`] hands back the [`Plan`] of what is left to do. All of them answer alike.
//!
//! ```
//! use vantorel::{Answer, Buffers, Settings, Transfer};
//!
//! # let block = [0; vantorel::ARRIVAL_BYTES];
//! let mut transfer = Transfer::new();
//! let mut buffers = Buffers {
//!     flash: &mut vec![0; 32_768],
//!     seen: &mut [0; vantorel::SEEN_MAP_BYTES],
//!     sectors: &mut [0; vantorel::SECTOR_MAP_BYTES],
//!     main: &mut vec![0; vantorel::MAIN_RAM_BYTES],
//!     xip: &mut [], // a board without it
//! };
//! let outcome = vantorel::look(&Settings::ARM, transfer, &block, &buffers); // says what would happen, and changes nothing
//! if outcome.answer.is_accepted() {
//!     vantorel::take(&Settings::ARM, &mut transfer, &block, &mut buffers);
//! }
//! assert_eq!(outcome.answer, Answer::NotBlock); // this block is all zeros
//! ```
//!
//! # A flash with a driver
//!
//! ```
//! use vantorel::{Answer, Beside, FlashDriver, Settings, Transfer, PAGE_BYTES, SECTOR_BYTES};
//!
//! /// NOR flash: an erase sets bits to 1, and programming clears them.
//! struct Nor(Vec<u8>);
//!
//! /// A bit that had to go from 0 to 1.
//! #[derive(Debug)]
//! struct NotErased;
//!
//! impl AsRef<[u8]> for Nor {
//!     fn as_ref(&self) -> &[u8] {
//!         &self.0
//!     }
//! }
//!
//! impl FlashDriver for Nor {
//!     type Error = NotErased;
//!
//!     fn erase(&mut self, sector: u32) -> Result<(), NotErased> {
//!         self.0[sector as usize..][..SECTOR_BYTES].fill(0xFF);
//!         Ok(())
//!     }
//!
//!     fn program(&mut self, page: u32, bytes: &[u8; PAGE_BYTES]) -> Result<(), NotErased> {
//!         for (old, &new) in self.0[page as usize..].iter_mut().zip(bytes) {
//!             *old &= new;
//!             if *old != new {
//!                 return Err(NotErased);
//!             }
//!         }
//!         Ok(())
//!     }
//! }
//!
//! # fn main() -> Result<(), NotErased> {
//! # let mut block = [7; vantorel::ARRIVAL_BYTES];
//! # for (at, x) in [(0, 0x0A32_4655_u32), (4, 0x9E5D_5157), (8, 0x2000), (12, 0x1000_0100), (16, 256), (20, 0), (24, 1), (28, vantorel::family::ARM_S), (508, 0x0AB1_6F30)] {
//! #     block[at..at + 4].copy_from_slice(&x.to_le_bytes());
//! # }
//! let mut transfer = Transfer::new();
//! let mut nor = Nor(vec![0; 32_768]);
//! let mut beside = Beside {
//!     seen: &mut [0; vantorel::SEEN_MAP_BYTES],
//!     sectors: &mut [0; vantorel::SECTOR_MAP_BYTES],
//!     main: &mut [], // a board without RAM for images
//!     xip: &mut [],
//! };
//! // an error is the driver's: the transfer is then a fresh one, and the file has to be sent again
//! let outcome = vantorel::take_through(&Settings::ARM, &mut transfer, &block, &mut nor, &mut beside)?;
//! assert_eq!(outcome.answer, Answer::Completed); // the only block of its file, at page 1
//! assert_eq!(nor.0[255..257], [0xFF, 7]);
//! # Ok(())
//! # }
//! ```
//!
//! # Is the file there?
//!
//! `Completed` says that a block of every number was accepted, and not what the flash holds: another build of as many blocks, sent after the
//! first was stopped, ends so over a mixture of the two. [`stands`] asks the memory. Where every block of a valid file is told
//! [`Stand::Stands`], every payload is in its memory, whatever happened before.
//!
//! ```
//! use vantorel::{Memory, Settings, Stand};
//!
//! # let mut block = [7; vantorel::ARRIVAL_BYTES];
//! # for (at, x) in [(0, 0x0A32_4655_u32), (4, 0x9E5D_5157), (8, 0x2000), (12, 0x1000_0100), (16, 256), (20, 0), (24, 1), (28, vantorel::family::ARM_S), (508, 0x0AB1_6F30)] {
//! #     block[at..at + 4].copy_from_slice(&x.to_le_bytes());
//! # }
//! let mut flash = vec![0xFF; 32_768];
//! let told = |flash: &[u8]| vantorel::stands(&Settings::ARM, &block, &Memory { flash, main: &[], xip: &[] });
//! assert_eq!(told(&flash), Ok(Stand::Differs));
//! flash[256..512].fill(7); // the only block of its file, at page 1
//! assert_eq!(told(&flash), Ok(Stand::Stands));
//! ```
//!
//! # What a region costs
//!
//! A block with flag 0x4000 names a region of flash and its MD5. Each take of such a block, where it would store, hashes the region once, and a
//! look at it once more: the time is that of the region's length, at every block of it. Name regions of a sector or of 64 KiB, and look
//! only where it is needed.
//!
//! # A number that is none of the answers
//!
//! That the library returns only the numbers of its answers is proved. A call that gets another one, or bytes that are no transfer or no
//! reader, is linked with a library that is not the proved one of this version, and panics: it does not invent an answer. The calls
//! of the modules [`bytes`] and [`hex::bytes`] hand on what the library returns, and never panic.

#![no_std]
#![deny(missing_docs)]

pub mod bytes;
mod driver;
mod ffi;
pub mod hex;
mod settings;
mod stands;
pub mod store;
pub mod tags;
mod transfer;
#[rustfmt::skip]
mod words;

pub use driver::{
    accept, take_through, Beside, FlashDriver, Plan, PAGE_BYTES, PAYLOAD_AT, PLAN_BYTES,
};
pub use settings::{Arch, Entry, Link, Settings, ENTRIES, SETTINGS_BYTES};
pub use stands::{stands, Memory, Stand};
pub use transfer::{Answer, Kind, Outcome, Transfer, TRANSFER_BYTES};

/// The version of this crate, which is that of the library and of the headers for C.
pub const VERSION: &str = env!("CARGO_PKG_VERSION");

/// The bytes of an arrival: a UF2 block.
pub const ARRIVAL_BYTES: usize = 512;
/// The bytes of a seen map: a bit for each block number.
pub const SEEN_MAP_BYTES: usize = 16_384;
/// The bytes of a sector map: a bit for each sector.
pub const SECTOR_MAP_BYTES: usize = 1024;
/// The bytes of a sector. A flash is whole sectors, at least one.
pub const SECTOR_BYTES: usize = 4096;
/// The most bytes of a flash.
pub const FLASH_MAX_BYTES: usize = 33_554_432;
/// The bytes of the main RAM, where it is lent.
pub const MAIN_RAM_BYTES: usize = 532_480;
/// The address of its first byte.
pub const MAIN_RAM_START: u32 = 0x2000_0000;
/// The bytes of the XIP RAM, where it is lent.
pub const XIP_RAM_BYTES: usize = 16_384;
/// The address of its first byte.
pub const XIP_RAM_START: u32 = 0x13ff_c000;

/// The numbers of the families that have a meaning of their own; any other is a user family.
pub mod family {
    /// RP2040: it has no place.
    pub const RP2040: u32 = 0xe48b_ff56;
    /// Addresses of the whole flash, where the settings allow it.
    pub const ABSOLUTE: u32 = 0xe48b_ff57;
    /// Data.
    pub const DATA: u32 = 0xe48b_ff58;
    /// A secure image for Arm.
    pub const ARM_S: u32 = 0xe48b_ff59;
    /// An image for RISC-V.
    pub const RISCV: u32 = 0xe48b_ff5a;
    /// A non-secure image for Arm.
    pub const ARM_NS: u32 = 0xe48b_ff5b;

    /// The name of such a family.
    pub const fn name(family: u32) -> Option<&'static str> {
        Some(match family {
            RP2040 => "rp2040",
            ABSOLUTE => "absolute",
            DATA => "data",
            ARM_S => "arm-s",
            RISCV => "riscv",
            ARM_NS => "arm-ns",
            _ => return None,
        })
    }
}

/// The buffers that are lent with each arrival; nobody else writes them between the arrivals of a transfer. A RAM that the board lacks
/// is empty, and its addresses then lie in no window.
pub struct Buffers<'a> {
    /// The flash: whole sectors, at most [`FLASH_MAX_BYTES`].
    pub flash: &'a mut [u8],
    /// The seen map, [`SEEN_MAP_BYTES`] long.
    pub seen: &'a mut [u8],
    /// The sector map, [`SECTOR_MAP_BYTES`] long.
    pub sectors: &'a mut [u8],
    /// The main RAM, [`MAIN_RAM_BYTES`] long or empty.
    pub main: &'a mut [u8],
    /// The XIP RAM, [`XIP_RAM_BYTES`] long or empty.
    pub xip: &'a mut [u8],
}

/// A place in the flash, in bytes.
#[derive(Clone, Copy, PartialEq, Eq, Debug)]
pub struct Place {
    /// The offset of its first byte in the flash.
    pub start: u32,
    /// How many bytes it has.
    pub len: u32,
}

/// The place of a family, or `BadBuffers` (the flash's length is wrong), `BadSettings` or `NoPlace`.
///
/// # Panics
///
/// Where the library returns a number that is none of these (see the crate's page).
pub fn ask(settings: &Settings, flash_len: usize, family: u32) -> Result<Place, Answer> {
    let mut place = [0; bytes::PLACE_BYTES];
    let number = bytes::ask(&settings.bytes(), flash_len, family, &mut place);
    let [a, b, c, d, e, f, g, h] = place;
    match number {
        0 => Ok(Place {
            start: u32::from_le_bytes([a, b, c, d]),
            len: u32::from_le_bytes([e, f, g, h]),
        }),
        _ => Err(Answer::from_number(number).unwrap_or_else(|| unknown(number))),
    }
}

/// A look at an arrival: what [`take`] would say of it now. It changes nothing.
///
/// # Panics
///
/// Where the library returns a number that is none of the answers (see the crate's page).
pub fn look(settings: &Settings, transfer: Transfer, arrival: &[u8], buffers: &Buffers) -> Outcome {
    let result = bytes::look(&settings.bytes(), &transfer.bytes(), arrival, buffers);
    Outcome::from_result(result).unwrap_or_else(|| unknown(result))
}

/// An arrival taken. The transfer goes in and comes back. A take makes every check itself, whether or not the arrival was looked at.
///
/// # Panics
///
/// Where the library returns a number that is none of the answers (see the crate's page).
pub fn take(
    settings: &Settings,
    transfer: &mut Transfer,
    arrival: &[u8],
    buffers: &mut Buffers,
) -> Outcome {
    let mut state = transfer.bytes();
    let result = bytes::take(&settings.bytes(), &mut state, arrival, buffers);
    *transfer = Transfer::handed_back(&state);
    Outcome::from_result(result).unwrap_or_else(|| unknown(result))
}

/// Whole arrivals taken one after the other, as many as there are results for; their number. [`Outcome::from_result`] says what a
/// result is. What follows the last whole arrival is not read: a short last piece is for [`take`], which answers it `BadBuffers`.
///
/// # Panics
///
/// Where the library hands back bytes that are no transfer (see the crate's page).
pub fn take_all(
    settings: &Settings,
    transfer: &mut Transfer,
    arrivals: &[u8],
    results: &mut [u8],
    buffers: &mut Buffers,
) -> usize {
    let mut state = transfer.bytes();
    let number = bytes::take_all(&settings.bytes(), &mut state, arrivals, results, buffers);
    *transfer = Transfer::handed_back(&state);
    number
}

/// The library returned what is proved not to be returned.
#[cold]
fn unknown(number: u32) -> ! {
    panic!("the library returned {number}, none of its answers: it is not the proved one of this version");
}
