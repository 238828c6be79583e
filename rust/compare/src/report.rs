//! Reports and parts of one side as the other has them.

use reference::{figures, parts};
use tools::part::Part;
use tools::report::Report;

/// The numbers of our answers, in the order of a report's counts.
pub const NUMBERS: [usize; 16] = [1, 2, 3, 4, 5, 7, 8, 9, 10, 11, 12, 13, 14, 15, 16, 17];

/// A report of the reference, as ours.
pub fn proved_report(report: &figures::Report) -> Report {
    Report {
        records: report.records,
        counts: NUMBERS.map(|n| report.answers[n]),
        discards: report.discards,
        marked: report.marked,
        missing: report.missing,
    }
}

/// And back.
pub fn plain_report(report: &Report) -> figures::Report {
    let mut answers = [0; 18];
    for (&n, &count) in NUMBERS.iter().zip(&report.counts) {
        answers[n] = count;
    }
    figures::Report {
        records: report.records,
        answers,
        discards: report.discards,
        marked: report.marked,
        missing: report.missing,
    }
}

/// A part of the reference, as ours.
pub fn proved_part(part: &parts::Part) -> Part {
    Part {
        report: proved_report(&part.report),
        traces: part.traces,
        bad: part.bad,
        differs: part.differs,
    }
}

/// And back.
pub fn plain_part(part: &Part) -> parts::Part {
    parts::Part {
        report: plain_report(&part.report),
        traces: part.traces,
        bad: part.bad,
        differs: part.differs,
    }
}
