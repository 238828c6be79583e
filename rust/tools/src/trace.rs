//! A trace of what a site's host sent, replayed.
//!
//! A trace is records of [`RECORD_BYTES`]: one byte with the answer that the site got (5 bits, from the top bit down), its "discarded" (1) and two
//! zeros, then the arrival. [`record`] is such a byte.
//!
//! ```
//! use vantorel_tools::trace::{record, replay, Stop};
//!
//! let mut buffers = vantorel::Buffers {
//!     flash: &mut vec![0; 32_768],
//!     seen: &mut [0; vantorel::SEEN_MAP_BYTES],
//!     sectors: &mut [0; vantorel::SECTOR_MAP_BYTES],
//!     main: &mut [],
//!     xip: &mut [],
//! };
//! let mut trace = [0; vantorel_tools::trace::RECORD_BYTES]; // an arrival of zeros is no block
//! trace[0] = record(vantorel::Outcome { answer: vantorel::Answer::NotBlock, discarded: false });
//! assert_eq!(replay(&vantorel::Settings::ARM, &trace, &mut buffers).stop, Stop::None);
//! trace[0] += 1;
//! assert_eq!(replay(&vantorel::Settings::ARM, &trace, &mut buffers).stop, Stop::Bad(0));
//! ```

use proved::{Buffers, Outcome, Settings, Transfer, TRANSFER_BYTES};

use crate::ffi::{self, len};

/// The bytes of a record.
pub const RECORD_BYTES: usize = 513;
/// The bytes of an index, the lowest first.
pub const INDEX_BYTES: usize = 8;

/// Where a replay stops, by the index of the record from 0.
#[derive(Clone, Copy, PartialEq, Eq, Debug)]
pub enum Stop {
    /// Nowhere: every record was replayed.
    None,
    /// At a record that is short or has stray bits.
    Bad(usize),
    /// At a record whose answer or "discarded" is not ours.
    Differs(usize),
}

/// What a replay ends with: the transfer and the buffers are those after the records before the stop.
#[derive(Clone, Copy, PartialEq, Eq, Debug)]
pub struct Replayed {
    /// The transfer at the end.
    pub transfer: Transfer,
    /// Where it stopped.
    pub stop: Stop,
}

/// The first byte of a record of an outcome.
pub fn record(outcome: Outcome) -> u8 {
    outcome.answer.number() * 8 + u8::from(outcome.discarded) * 4
}

/// Replays a trace from Idle. Both maps are zeroed first, whatever their length. The record that stops it is not applied.
///
/// Each record is looked at and taken: where it names a region (flag 0x4000), the region is hashed twice.
///
/// # Panics
///
/// Where the library returns a number that is no stop's, or bytes that are no transfer: it is not the proved one of this version.
pub fn replay(settings: &Settings, trace: &[u8], buffers: &mut Buffers) -> Replayed {
    let mut transfer = [0xFF; TRANSFER_BYTES];
    let mut index = [0; INDEX_BYTES];
    let number = replay_bytes(&settings.bytes(), trace, buffers, &mut transfer, &mut index);
    let index = u64::from_le_bytes(index) as usize;
    let stop = match number {
        0 => Stop::None,
        1 => Stop::Bad(index),
        2 => Stop::Differs(index),
        _ => unknown(),
    };
    Replayed {
        transfer: Transfer::from_bytes(&transfer).unwrap_or_else(|| unknown()),
        stop,
    }
}

/// The same over bytes of any length: 0, 1 or 2, for none, bad and differs. The transfer is written where it has
/// [`TRANSFER_BYTES`], and the index of a stop where it has [`INDEX_BYTES`]; else they stay.
pub fn replay_bytes(
    settings: &[u8],
    trace: &[u8],
    buffers: &mut Buffers,
    transfer: &mut [u8],
    index: &mut [u8],
) -> u32 {
    // SAFETY: each pointer is of a slice with its length, and what is written overlaps nothing, since each is borrowed alone.
    unsafe {
        ffi::uf2_replay(
            settings.as_ptr(),
            len(settings),
            trace.as_ptr(),
            len(trace),
            buffers.flash.as_mut_ptr(),
            len(buffers.flash),
            buffers.seen.as_mut_ptr(),
            len(buffers.seen),
            buffers.sectors.as_mut_ptr(),
            len(buffers.sectors),
            buffers.main.as_mut_ptr(),
            len(buffers.main),
            buffers.xip.as_mut_ptr(),
            len(buffers.xip),
            transfer.as_mut_ptr(),
            len(transfer),
            index.as_mut_ptr(),
            len(index),
        )
    }
}

/// The library returned what is proved not to be returned.
#[cold]
fn unknown() -> ! {
    panic!("the library is not the proved one of this version");
}
