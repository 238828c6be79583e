//! A trace of what a site sent, replayed (02, L10).
//!
//! A record of a trace is one byte with the answer (5 bits from the top), the
//! "discarded" (1 bit) and two zeros, then the arrival.

use crate::{look, take, Settings, Transfer, ARRIVAL_LEN};

pub const RECORD_LEN: usize = 1 + ARRIVAL_LEN;

/// Where a replay stopped, by the record's index from 0.
#[derive(Clone, Copy, PartialEq, Eq, Debug)]
pub enum Stop {
    None,
    /// A record that is short or has stray bits.
    Bad(usize),
    /// A record whose answer or "discarded" isn't ours.
    Differs(usize),
}

/// What a replay ends with; the buffers are as the transfer is.
#[derive(Clone, Copy, PartialEq, Eq, Debug)]
pub struct Replayed {
    pub transfer: Transfer,
    pub stop: Stop,
}

/// Replays the trace from Idle. Both maps are zeroed first, whatever their
/// length; the end is that after the records before the stop.
pub fn replay(
    s: &Settings,
    trace: &[u8],
    flash: &mut [u8],
    seen: &mut [u8],
    sectors: &mut [u8],
    main: &mut [u8],
    xip: &mut [u8],
) -> Replayed {
    replay_noting(s, trace, flash, seen, sectors, main, xip, |_, _| {})
}

/// The same; hands the answer and "discarded" of each record replayed to
/// `note`.
#[allow(clippy::too_many_arguments)]
pub(crate) fn replay_noting(
    s: &Settings,
    trace: &[u8],
    flash: &mut [u8],
    seen: &mut [u8],
    sectors: &mut [u8],
    main: &mut [u8],
    xip: &mut [u8],
    mut note: impl FnMut(u8, bool),
) -> Replayed {
    seen.fill(0);
    sectors.fill(0);
    let mut transfer = Transfer::Idle;
    for (index, record) in trace.chunks(RECORD_LEN).enumerate() {
        let Some((recorded, arrival)) = parts(record) else {
            let stop = Stop::Bad(index);
            return Replayed { transfer, stop };
        };
        // A look first: a record that differs is not replayed.
        let ours = look(s, transfer, arrival, flash, seen, sectors, main, xip);
        if recorded != ours {
            let stop = Stop::Differs(index);
            return Replayed { transfer, stop };
        }
        let outcome = take(s, transfer, arrival, flash, seen, sectors, main, xip);
        transfer = outcome.transfer;
        note(outcome.answer, outcome.discarded);
    }
    let stop = Stop::None;
    Replayed { transfer, stop }
}

/// What is recorded of the answer, with the arrival, of a record that isn't bad.
fn parts(record: &[u8]) -> Option<((u8, bool), &[u8])> {
    let (&head, arrival) = record.split_first()?;
    let stray = head & 0b11;
    let recorded = (head >> 3, head & 0b100 != 0);
    (record.len() == RECORD_LEN && stray == 0).then_some((recorded, arrival))
}
