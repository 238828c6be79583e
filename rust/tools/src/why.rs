//! Why an arrival is answered as it is, and why a family has a place or none (include/uf2_why.h).
//!
//! ```
//! let flash = vec![0; 32_768];
//! let lent = vantorel_tools::why::Lent { flash: &flash, seen: &[0; 16_384], sectors: &[0; 1024], main: &[], xip: &[] };
//! let settings = vantorel::Settings::ARM.bytes();
//! let transfer = [0; vantorel::TRANSFER_BYTES]; // Idle
//! let why = vantorel_tools::why::explain(&settings, &transfer, &[0; 511], lent);
//! assert_eq!((why.result, why.reason.cause, why.reason.got, why.reason.against), (1, 101, 511, 512));
//!
//! let place = vantorel_tools::why::explain_place(&settings, 32_768, 0xe48b_ff5a);
//! assert_eq!((place.result, place.reason.cause), (8, 804)); // riscv, and RISC-V is off
//! ```

use crate::ffi::{len, Len};

extern "C" {
    fn uf2_why(
        settings: *const u8,
        settings_len: Len,
        transfer: *const u8,
        transfer_len: Len,
        arrival: *const u8,
        arrival_len: Len,
        flash: *const u8,
        flash_len: Len,
        seen: *const u8,
        seen_len: Len,
        sectors: *const u8,
        sectors_len: Len,
        main: *const u8,
        main_len: Len,
        xip: *const u8,
        xip_len: Len,
        reason: *mut u8,
        reason_len: Len,
    ) -> u32;

    fn uf2_why_place(
        settings: *const u8,
        settings_len: Len,
        flash_len: Len,
        family: u32,
        reason: *mut u8,
        reason_len: Len,
    ) -> u32;
}

/// The bytes of a reason.
pub const REASON_BYTES: usize = 38;

/// What is lent for a look, and only read.
#[derive(Clone, Copy)]
pub struct Lent<'a> {
    /// The flash.
    pub flash: &'a [u8],
    /// The seen map.
    pub seen: &'a [u8],
    /// The sector map.
    pub sectors: &'a [u8],
    /// Main RAM, or empty.
    pub main: &'a [u8],
    /// XIP RAM, or empty.
    pub xip: &'a [u8],
}

/// The condition that decided. What has none is 0.
#[derive(Clone, Copy, PartialEq, Eq, Debug)]
pub struct Reason {
    /// The condition's number: the row times 100, and its place in the row. Bytes that are no settings are 210 (their length), bytes
    /// that are no transfer 306 and 307: these are told before the other conditions of their row. 211, a link of no kind, stands where 206 would.
    pub cause: u32,
    /// The number tested; from 14 on the raised count; of a place by an entry the pass.
    pub got: u64,
    /// What it is tested against; from 14 on the total.
    pub against: u64,
    /// The entry of the settings at fault, or that gives the place.
    pub entry: u8,
    /// The other entry that it shares a sector with.
    pub other: u8,
    /// Where no entry takes the family, for each used entry 1 "B of" or else 2 "doesn't accept".
    pub marks: [u8; 16],
}

/// An answer and its reason.
#[derive(Clone, Copy, PartialEq, Eq, Debug)]
pub struct Why {
    /// What `uf2_look` returns, the answer's number and 128 more where a running transfer is discarded; of a place 0, 1, 2 or 8.
    pub result: u32,
    /// Why.
    pub reason: Reason,
}

fn word(bytes: &[u8; REASON_BYTES], at: usize) -> u64 {
    let byte = |i: usize| u64::from(bytes[at + i]) << (8 * i);
    (0..8).map(byte).sum()
}

fn told(result: u32, bytes: &[u8; REASON_BYTES]) -> Why {
    let mut marks = [0; 16];
    marks.copy_from_slice(&bytes[22..]);
    let reason = Reason {
        cause: word(bytes, 0) as u32,
        got: word(bytes, 4),
        against: word(bytes, 12),
        entry: bytes[20],
        other: bytes[21],
        marks,
    };
    Why { result, reason }
}

/// Why an arrival is answered as it is, for settings and a transfer as bytes. Nothing is written.
pub fn explain(settings: &[u8], transfer: &[u8], arrival: &[u8], lent: Lent) -> Why {
    let mut reason = [0; REASON_BYTES];
    let result = explain_bytes(settings, transfer, arrival, lent, &mut reason);
    told(result, &reason)
}

/// The same with the reason's bytes, which are written where there are [`REASON_BYTES`].
pub fn explain_bytes(
    settings: &[u8],
    transfer: &[u8],
    arrival: &[u8],
    lent: Lent,
    reason: &mut [u8],
) -> u32 {
    // SAFETY: each pointer is of a slice with its length, and what is written overlaps nothing, since it is borrowed alone.
    unsafe {
        uf2_why(
            settings.as_ptr(),
            len(settings),
            transfer.as_ptr(),
            len(transfer),
            arrival.as_ptr(),
            len(arrival),
            lent.flash.as_ptr(),
            len(lent.flash),
            lent.seen.as_ptr(),
            len(lent.seen),
            lent.sectors.as_ptr(),
            len(lent.sectors),
            lent.main.as_ptr(),
            len(lent.main),
            lent.xip.as_ptr(),
            len(lent.xip),
            reason.as_mut_ptr(),
            len(reason),
        )
    }
}

/// Why a family has a place in a flash of so many bytes, or none.
pub fn explain_place(settings: &[u8], flash_len: usize, family: u32) -> Why {
    let mut reason = [0; REASON_BYTES];
    let result = explain_place_bytes(settings, flash_len, family, &mut reason);
    told(result, &reason)
}

/// The same with the reason's bytes, which are written where there are [`REASON_BYTES`].
pub fn explain_place_bytes(
    settings: &[u8],
    flash_len: usize,
    family: u32,
    reason: &mut [u8],
) -> u32 {
    // SAFETY: each pointer is of a slice with its length, and what is written overlaps nothing, since it is borrowed alone.
    unsafe {
        uf2_why_place(
            settings.as_ptr(),
            len(settings),
            flash_len as Len,
            family,
            reason.as_mut_ptr(),
            len(reason),
        )
    }
}
