//! Figures of a fleet, made in pieces: the part of one trace, and two parts as one (include/uf2_parts.h).
//!
//! A [`Report`] alone does not say whether it is over no trace or over an empty one, so it cannot be merged. A part can: the part over some traces
//! and then others is the merge of both parts, in whatever grouping, as long as the order of the traces is kept.
//!
//! ```
//! use vantorel_tools::part::Part;
//! use vantorel_tools::report::{add, Report};
//! use vantorel_tools::trace::{record, RECORD_BYTES};
//!
//! let mut buffers = vantorel::Buffers {
//!     flash: &mut vec![0; 32_768],
//!     seen: &mut [0; vantorel::SEEN_MAP_BYTES],
//!     sectors: &mut [0; vantorel::SECTOR_MAP_BYTES],
//!     main: &mut [],
//!     xip: &mut [],
//! };
//! let mut trace = [0; RECORD_BYTES]; // an arrival of zeros is no block
//! trace[0] = record(vantorel::Outcome { answer: vantorel::Answer::NotBlock, discarded: false });
//! let mut report = Report::FRESH;
//! let stop = add(&mut report, &vantorel::Settings::ARM, &trace, &mut buffers).unwrap();
//! let one = Part::one(&report, stop).unwrap();
//! let mut both = one;
//! assert_eq!(both.merge(&one), Ok(()));
//! assert_eq!((both.traces, both.report.records, both.bad, both.differs), (2, 2, 0, 0));
//! ```

use crate::ffi::{self, len};
use crate::report::{FiguresRefusal, Report, REPORT_BYTES};
use crate::trace::Stop;

/// The bytes of a part: those of a report, and three numbers of four bytes, the lowest first.
pub const PART_BYTES: usize = 96;

/// What a list of traces comes to.
#[derive(Clone, Copy, PartialEq, Eq, Debug)]
pub struct Part {
    /// The report over them.
    pub report: Report,
    /// How many there are.
    pub traces: u32,
    /// How many of them stopped at a record that is bad.
    pub bad: u32,
    /// How many of them stopped at a record that differs.
    pub differs: u32,
}

/// The result of a number.
fn result(number: u32) -> Result<(), FiguresRefusal> {
    match number {
        0 => Ok(()),
        70 => Err(FiguresRefusal::TooMany),
        71 => Err(FiguresRefusal::BadReport),
        _ => panic!("the library is not the proved one of this version"),
    }
}

impl Part {
    /// The part of no trace: it changes nothing, on either side.
    pub const FRESH: Part = Part {
        report: Report::FRESH,
        traces: 0,
        bad: 0,
        differs: 0,
    };

    /// The part of one trace: what [`crate::report::add`] left of a fresh report, and where it stopped. A report that is not good is refused.
    ///
    /// # Panics
    ///
    /// Where the library returns a number that is none of its own: it is not the proved one of this version.
    pub fn one(report: &Report, stop: Stop) -> Result<Part, FiguresRefusal> {
        let number = match stop {
            Stop::None => 0,
            Stop::Bad(_) => 1,
            Stop::Differs(_) => 2,
        };
        let mut bytes = [0; PART_BYTES];
        result(one_bytes(&report.bytes(), number, &mut bytes))?;
        Ok(Part::from_bytes(&bytes))
    }

    /// This part, and then a later one. A refusal leaves it as it was: a part that is not good, and then more records or traces than 32 bits hold.
    ///
    /// # Panics
    ///
    /// Where the library returns a number that is none of its own: it is not the proved one of this version.
    pub fn merge(&mut self, later: &Part) -> Result<(), FiguresRefusal> {
        let mut bytes = self.bytes();
        result(merge_bytes(&mut bytes, &later.bytes()))?;
        *self = Part::from_bytes(&bytes);
        Ok(())
    }

    /// The part as bytes.
    pub fn bytes(&self) -> [u8; PART_BYTES] {
        let mut bytes = [0; PART_BYTES];
        bytes[..REPORT_BYTES].copy_from_slice(&self.report.bytes());
        let words = [self.traces, self.bad, self.differs];
        for (four, word) in bytes[REPORT_BYTES..].chunks_exact_mut(4).zip(words) {
            four.copy_from_slice(&word.to_le_bytes());
        }
        bytes
    }

    /// The part that bytes are.
    pub fn from_bytes(bytes: &[u8; PART_BYTES]) -> Part {
        let word = |at: usize| {
            u32::from_le_bytes([bytes[at], bytes[at + 1], bytes[at + 2], bytes[at + 3]])
        };
        let mut report = [0; REPORT_BYTES];
        report.copy_from_slice(&bytes[..REPORT_BYTES]);
        Part {
            report: Report::from_bytes(&report),
            traces: word(84),
            bad: word(88),
            differs: word(92),
        }
    }
}

/// [`Part::one`] over bytes of any length: 0; or 71, and the part stays. `stop` is what [`crate::report::add_bytes`] returned.
pub fn one_bytes(report: &[u8], stop: u32, part: &mut [u8]) -> u32 {
    // SAFETY: each pointer is of a slice with its length, and the part overlaps nothing, since it is borrowed alone.
    unsafe {
        ffi::uf2_part_one(
            report.as_ptr(),
            len(report),
            stop,
            part.as_mut_ptr(),
            len(part),
        )
    }
}

/// [`Part::merge`] over bytes of any length: 0; or 71 or 70, and the part stays.
pub fn merge_bytes(part: &mut [u8], later: &[u8]) -> u32 {
    // SAFETY: each pointer is of a slice with its length, and the part overlaps nothing, since it is borrowed alone.
    unsafe { ffi::uf2_part_merge(part.as_mut_ptr(), len(part), later.as_ptr(), len(later)) }
}

#[cfg(test)]
mod tests {
    use super::*;

    fn part(traces: u32, records: u32, bad: u32, differs: u32) -> Part {
        let mut report = Report {
            records,
            marked: traces,
            missing: (traces > 0).then_some(7),
            ..Report::FRESH
        };
        report.counts[12] = records;
        Part {
            report,
            traces,
            bad,
            differs,
        }
    }

    #[test]
    fn bytes_and_back() {
        for p in [
            Part::FRESH,
            part(3, 5, 1, 2),
            part(u32::MAX, u32::MAX, u32::MAX, 0),
        ] {
            assert_eq!(Part::from_bytes(&p.bytes()), p);
        }
        assert_eq!(Part::FRESH.bytes(), [0; PART_BYTES]);
    }

    #[test]
    fn of_one_trace() {
        let report = part(1, 5, 0, 0).report;
        for (stop, bad, differs) in [
            (Stop::None, 0, 0),
            (Stop::Bad(9), 1, 0),
            (Stop::Differs(9), 0, 1),
        ] {
            assert_eq!(
                Part::one(&report, stop),
                Ok(Part {
                    report,
                    traces: 1,
                    bad,
                    differs
                })
            );
        }
        let wrong = Report {
            discards: 6,
            ..report
        };
        assert_eq!(
            Part::one(&wrong, Stop::None),
            Err(FiguresRefusal::BadReport)
        );
        let mut bytes = [9; PART_BYTES];
        for stop in [3, 70, 71, u32::MAX] {
            assert_eq!(one_bytes(&report.bytes(), stop, &mut bytes), 71);
        }
        assert_eq!(one_bytes(&report.bytes()[1..], 0, &mut bytes), 71);
        assert_eq!(one_bytes(&report.bytes(), 0, &mut bytes[1..]), 71);
        assert_eq!(bytes, [9; PART_BYTES]);
    }

    #[test]
    fn two_as_one() {
        let (a, b) = (part(3, 5, 1, 2), part(4, 6, 0, 3));
        let mut both = a;
        assert_eq!(both.merge(&b), Ok(()));
        assert_eq!((both.traces, both.bad, both.differs), (7, 1, 5));
        assert_eq!((both.report.records, both.report.counts[12]), (11, 11));
        assert_eq!((both.report.marked, both.report.missing), (4, Some(7)));
        for fresh_first in [true, false] {
            let mut p = if fresh_first { Part::FRESH } else { a };
            assert_eq!(p.merge(if fresh_first { &a } else { &Part::FRESH }), Ok(()));
            assert_eq!(p, a);
        }
    }

    #[test]
    fn refusals_leave_it() {
        let a = part(3, 5, 1, 2);
        let mut end = Part::FRESH;
        end.report.marked = 1;
        let most = u32::MAX;
        for (later, why) in [
            (part(3, 5, 2, 2), FiguresRefusal::BadReport),
            (part(0, 5, 0, 0), FiguresRefusal::BadReport),
            (end, FiguresRefusal::BadReport),
            (part(1, most - 4, 0, 0), FiguresRefusal::TooMany),
            (part(most - 2, 0, 0, 0), FiguresRefusal::TooMany),
        ] {
            let mut p = a;
            assert_eq!(p.merge(&later), Err(why));
            assert_eq!(p, a);
            // 71 of the first too, and before 70
            let mut q = later;
            assert_eq!(q.merge(&a), Err(why));
            assert_eq!(q, later);
        }
        let mut p = a;
        assert_eq!(p.merge(&part(most - 3, most - 5, 0, 0)), Ok(()));
        assert_eq!((p.traces, p.report.records), (most, most));
        assert_eq!(merge_bytes(&mut a.bytes(), &a.bytes()[1..]), 71);
        assert_eq!(merge_bytes(&mut a.bytes()[1..], &a.bytes()), 71);
    }
}
