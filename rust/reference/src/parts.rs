//! Parts of a report over many traces, merged (02, L14 and L10).

use crate::figures::{add, Report, BAD_REPORT, TOO_MANY};
use crate::replay::Stop;
use crate::Settings;

/// A report, with how many traces it is over and how many of these stopped.
#[derive(Clone, Copy, PartialEq, Eq, Debug)]
pub struct Part {
    pub report: Report,
    pub traces: u32,
    /// The traces that stopped as bad, and those that stopped as differs.
    pub bad: u32,
    pub differs: u32,
}

impl Part {
    /// The part over no trace.
    pub const FRESH: Part = Part {
        report: Report::FRESH,
        traces: 0,
        bad: 0,
        differs: 0,
    };

    /// Whether it isn't bad: the report agrees, no more traces stopped than
    /// there are, and without a trace all is zero.
    fn is_good(&self) -> bool {
        let stopped = u64::from(self.bad) + u64::from(self.differs);
        self.report.agrees()
            && stopped <= u64::from(self.traces)
            && (self.traces != 0 || self.all_zero())
    }

    fn all_zero(&self) -> bool {
        let mut report = self.report;
        // These places hold no answer count, and are let be as in a report.
        (report.answers[0], report.answers[6]) = (0, 0);
        let part = Part { report, ..*self };
        part == Part::FRESH
    }
}

/// The part of one trace: a fresh report, with that trace replayed.
#[allow(clippy::too_many_arguments)]
pub fn part_of(
    s: &Settings,
    trace: &[u8],
    flash: &mut [u8],
    seen: &mut [u8],
    sectors: &mut [u8],
    main: &mut [u8],
    xip: &mut [u8],
) -> Result<Part, u32> {
    let mut report = Report::FRESH;
    let replayed = add(&mut report, s, trace, flash, seen, sectors, main, xip)?;
    Ok(Part {
        report,
        traces: 1,
        bad: u32::from(matches!(replayed.stop, Stop::Bad(_))),
        differs: u32::from(matches!(replayed.stop, Stop::Differs(_))),
    })
}

/// Adds part b, whose traces come after a's: 71, then 70, which leave a, or
/// else the sums, with the end of the later trace.
pub fn merge(a: &mut Part, b: &Part) -> Result<(), u32> {
    if !a.is_good() || !b.is_good() {
        return Err(BAD_REPORT);
    }
    let records = a.report.records.checked_add(b.report.records);
    let traces = a.traces.checked_add(b.traces);
    let (Some(records), Some(traces)) = (records, traces) else {
        return Err(TOO_MANY);
    };
    // No other sum passes these two: the parts are good.
    let report = &mut a.report;
    report.records = records;
    for answer in (1..report.answers.len()).filter(|&answer| answer != 6) {
        report.answers[answer] += b.report.answers[answer];
    }
    report.discards += b.report.discards;
    a.traces = traces;
    a.bad += b.bad;
    a.differs += b.differs;
    if b.traces != 0 {
        (report.marked, report.missing) = (b.report.marked, b.report.missing);
    }
    Ok(())
}
