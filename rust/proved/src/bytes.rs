//! The calls as they are, for settings and transfers that are bytes already, of any length and content. What the library returns is handed
//! on as it is.
//!
//! Each is inlined: a slice handed on by the stack, stored as its pointer and then its length, would be read back in one wide load, and that
//! waits until every store before it is in the cache, the page of the arrival before among them.
//!
//! Every call is safe: a Rust slice is a pointer to as many bytes as it says, never null, and one that is written overlaps no other.

use crate::ffi::{self, len};
use crate::{Beside, Buffers, Memory};

/// The bytes of a place: its start and its length, 32 bits each, the lowest byte first.
pub const PLACE_BYTES: usize = 8;

/// A fresh transfer, where there are [`TRANSFER_BYTES`](crate::TRANSFER_BYTES); else nothing changes.
#[inline]
pub fn new(transfer: &mut [u8]) {
    // SAFETY: each pointer and length is of one slice, and a slice that is written overlaps no other.
    unsafe { ffi::uf2_new(transfer.as_mut_ptr(), len(transfer)) }
}

/// 0 and a place in the [`PLACE_BYTES`] of `place`; or the number of a refusal, and `place` stays.
#[inline]
pub fn ask(settings: &[u8], flash_len: usize, family: u32, place: &mut [u8]) -> u32 {
    // SAFETY: each pointer and length is of one slice, and a slice that is written overlaps no other.
    unsafe {
        ffi::uf2_ask(
            settings.as_ptr(),
            len(settings),
            flash_len as ffi::Len,
            family,
            place.as_mut_ptr(),
            len(place),
        )
    }
}

/// A look at an arrival: what [`take`] would return on the same bytes. It changes nothing.
#[inline]
pub fn look(settings: &[u8], transfer: &[u8], arrival: &[u8], buffers: &Buffers) -> u32 {
    // SAFETY: each pointer and length is of one slice, and a slice that is written overlaps no other.
    unsafe {
        ffi::uf2_look(
            settings.as_ptr(),
            len(settings),
            transfer.as_ptr(),
            len(transfer),
            arrival.as_ptr(),
            len(arrival),
            buffers.flash.as_ptr(),
            len(buffers.flash),
            buffers.seen.as_ptr(),
            len(buffers.seen),
            buffers.sectors.as_ptr(),
            len(buffers.sectors),
            buffers.main.as_ptr(),
            len(buffers.main),
            buffers.xip.as_ptr(),
            len(buffers.xip),
        )
    }
}

/// Whether what an arrival holds stands in the memory: 95, 96, or the number of a refusal. It changes nothing.
#[inline]
pub fn stands(settings: &[u8], arrival: &[u8], memory: &Memory) -> u32 {
    // SAFETY: each pointer and length is of one slice, and a slice that is written overlaps no other.
    unsafe {
        ffi::uf2_stands(
            settings.as_ptr(),
            len(settings),
            arrival.as_ptr(),
            len(arrival),
            memory.flash.as_ptr(),
            len(memory.flash),
            memory.main.as_ptr(),
            len(memory.main),
            memory.xip.as_ptr(),
            len(memory.xip),
        )
    }
}

/// An arrival taken: the answer's number, and 128 more where a running transfer was discarded.
#[inline]
pub fn take(settings: &[u8], transfer: &mut [u8], arrival: &[u8], buffers: &mut Buffers) -> u32 {
    // SAFETY: each pointer and length is of one slice, and a slice that is written overlaps no other.
    unsafe {
        ffi::uf2_take(
            settings.as_ptr(),
            len(settings),
            transfer.as_mut_ptr(),
            len(transfer),
            arrival.as_ptr(),
            len(arrival),
            buffers.flash.as_mut_ptr(),
            len(buffers.flash),
            buffers.seen.as_mut_ptr(),
            len(buffers.seen),
            buffers.sectors.as_mut_ptr(),
            len(buffers.sectors),
            buffers.main.as_mut_ptr(),
            len(buffers.main),
            buffers.xip.as_mut_ptr(),
            len(buffers.xip),
        )
    }
}

/// An arrival accepted, with the flash left to a driver: what [`take`] would return, and in the [`PLAN_BYTES`](crate::PLAN_BYTES) of `plan` what
/// is left to do to the flash. Another length of `plan` is answered 1, and nothing changes.
#[inline]
pub fn accept(
    settings: &[u8],
    transfer: &mut [u8],
    arrival: &[u8],
    flash: &[u8],
    beside: &mut Beside,
    plan: &mut [u8],
) -> u32 {
    // SAFETY: each pointer and length is of one slice, and a slice that is written overlaps no other.
    unsafe {
        ffi::uf2_accept(
            settings.as_ptr(),
            len(settings),
            transfer.as_mut_ptr(),
            len(transfer),
            arrival.as_ptr(),
            len(arrival),
            flash.as_ptr(),
            len(flash),
            beside.seen.as_mut_ptr(),
            len(beside.seen),
            beside.sectors.as_mut_ptr(),
            len(beside.sectors),
            beside.main.as_mut_ptr(),
            len(beside.main),
            beside.xip.as_mut_ptr(),
            len(beside.xip),
            plan.as_mut_ptr(),
            len(plan),
        )
    }
}

/// Whole arrivals taken one after the other, as many as there are bytes in `results`, which get what [`take`] would return; their
/// number.
#[inline]
pub fn take_all(
    settings: &[u8],
    transfer: &mut [u8],
    arrivals: &[u8],
    results: &mut [u8],
    buffers: &mut Buffers,
) -> usize {
    // SAFETY: each pointer and length is of one slice, and a slice that is written overlaps no other.
    let number = unsafe {
        ffi::uf2_take_all(
            settings.as_ptr(),
            len(settings),
            transfer.as_mut_ptr(),
            len(transfer),
            arrivals.as_ptr(),
            len(arrivals),
            results.as_mut_ptr(),
            len(results),
            buffers.flash.as_mut_ptr(),
            len(buffers.flash),
            buffers.seen.as_mut_ptr(),
            len(buffers.seen),
            buffers.sectors.as_mut_ptr(),
            len(buffers.sectors),
            buffers.main.as_mut_ptr(),
            len(buffers.main),
            buffers.xip.as_mut_ptr(),
            len(buffers.xip),
        )
    };
    number as usize
}
