//! Arrivals taken, one after the other.

use crate::block::Block;
use crate::board::Board;
use crate::progress::Progress;
use proved::{Answer, Outcome, Transfer, ARRIVAL_BYTES};
use std::collections::BTreeMap;
use tools::trace;
use tools::why::Reason;

/// What came of the arrivals.
pub struct Played {
    /// Where the transfer stands.
    pub transfer: Transfer,
    /// The outcome of each arrival.
    pub outcomes: Vec<Outcome>,
    /// The sectors that transfers had erased that were discarded, as a map.
    pub discarded: Vec<u8>,
    /// Why the first arrival with each answer by which a block is refused has it, by the answer's number.
    pub refusals: BTreeMap<u8, Refusal>,
}

/// The first arrival that was refused by an answer, and why.
pub struct Refusal {
    /// Its place in the order.
    pub arrival: usize,
    /// The block's number, where it is one.
    pub block: Option<u32>,
    /// What decided.
    pub reason: Reason,
}

/// Takes the arrivals from Idle.
pub fn play(sent: &[&[u8]], board: &mut Board) -> Played {
    let mut transfer = Transfer::new();
    let mut outcomes = Vec::with_capacity(sent.len());
    let mut refusals = BTreeMap::new();
    let mut discarded = vec![0; board.sectors.len()];
    let settings = board.settings.clone();
    let progress = Progress::start("load", sent.len() as u64);
    for (arrival, piece) in sent.iter().enumerate() {
        // the first block of another file clears the map
        let before = board.sectors.clone();
        let outcome = proved::take(&settings, &mut transfer, piece, &mut board.buffers());
        let number = outcome.answer.number();
        if number < Answer::Finished.number() {
            // what is refused changes nothing, so that the reason is still the same
            refusals.entry(number).or_insert_with(|| Refusal {
                arrival,
                block: Block::read(piece).map(|block| block.number),
                reason: board.reason(transfer, piece),
            });
        }
        if outcome.discarded {
            let erased = discarded.iter_mut().zip(&before);
            erased.for_each(|(all, byte)| *all |= byte);
        }
        outcomes.push(outcome);
        progress.done(outcomes.len() as u64);
    }
    Played {
        transfer,
        outcomes,
        discarded,
        refusals,
    }
}

/// Whether a running transfer is completed where all pieces of the file are sent once more.
pub fn helps<'a>(
    pieces: impl Iterator<Item = &'a [u8]>,
    board: &mut Board,
    mut transfer: Transfer,
) -> bool {
    if !matches!(transfer, Transfer::Running { .. }) {
        return false;
    }
    let settings = board.settings.clone();
    for piece in pieces {
        proved::take(&settings, &mut transfer, piece, &mut board.buffers());
    }
    matches!(transfer, Transfer::Done { .. })
}

/// The trace of the arrivals. A record holds a whole arrival: a short piece, which changes nothing, is left out.
pub fn trace(sent: &[&[u8]], outcomes: &[Outcome]) -> Vec<u8> {
    let mut bytes = Vec::with_capacity(sent.len() * trace::RECORD_BYTES);
    for (piece, outcome) in sent.iter().zip(outcomes) {
        if piece.len() == ARRIVAL_BYTES {
            bytes.push(trace::record(*outcome));
            bytes.extend_from_slice(piece);
        }
    }
    bytes
}
