//! An exact report over many traces, each replayed from Idle (02, L14).

use crate::replay::{replay_noting, Replayed, RECORD_LEN};
use crate::{marked, Settings, Transfer};

/// The trace's whole pieces, with the records so far, pass 4,294,967,295.
pub const TOO_MANY: u32 = 70;
/// The handed report's figures don't agree.
pub const BAD_REPORT: u32 = 71;

/// The figures. A fresh report is all zero.
#[derive(Clone, Copy, PartialEq, Eq, Debug)]
pub struct Report {
    /// The records replayed, which are those before a stop.
    pub records: u32,
    /// How many of these had each answer, by its number.
    pub answers: [u32; 18],
    pub discards: u32,
    /// The different numbers marked at the last trace's end.
    pub marked: u32,
    /// The smallest number missing there, if the transfer was Running.
    pub missing: Option<u32>,
}

impl Report {
    pub const FRESH: Report = Report {
        records: 0,
        answers: [0; 18],
        discards: 0,
        marked: 0,
        missing: None,
    };

    /// Whether the answer counts sum to the records, and the discards don't
    /// pass these. 02 asks nothing of `marked` and `missing`, which the next
    /// trace replaces.
    pub(crate) fn agrees(&self) -> bool {
        // No answer has the numbers 0 and 6, so that their places hold no
        // answer count: they are left out here, and stay as they came.
        let counts = (1..).zip(&self.answers[1..]);
        let of_answers = counts.filter(|&(answer, _)| answer != 6);
        let sum: u64 = of_answers.map(|(_, &count)| u64::from(count)).sum();
        sum == u64::from(self.records) && self.discards <= self.records
    }
}

/// Adds one trace to the report: 71, then 70, which leave report and buffers,
/// or else its replay.
#[allow(clippy::too_many_arguments)]
pub fn add(
    report: &mut Report,
    s: &Settings,
    trace: &[u8],
    flash: &mut [u8],
    seen: &mut [u8],
    sectors: &mut [u8],
    main: &mut [u8],
    xip: &mut [u8],
) -> Result<Replayed, u32> {
    if !report.agrees() {
        return Err(BAD_REPORT);
    }
    // Whole pieces count here whether or not they are replayed, so that no
    // figure can pass its 32 bits below.
    let pieces = (trace.len() / RECORD_LEN) as u64;
    if u64::from(report.records) + pieces > u64::from(u32::MAX) {
        return Err(TOO_MANY);
    }
    let note = |answer: u8, discarded| {
        report.records += 1;
        report.answers[usize::from(answer)] += 1;
        report.discards += u32::from(discarded);
    };
    let replayed = replay_noting(s, trace, flash, seen, sectors, main, xip, note);
    report.marked = seen.iter().map(|byte| byte.count_ones()).sum();
    report.missing = match replayed.transfer {
        Transfer::Running { total, .. } => {
            (0..total).find(|&number| !marked(seen, number as usize))
        }
        Transfer::Idle | Transfer::Done { .. } => None,
    };
    Ok(replayed)
}
