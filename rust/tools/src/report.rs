//! Exact figures over many traces, each replayed from Idle.
//!
//! ```
//! use vantorel_tools::report::{add, Report};
//! use vantorel_tools::trace::{record, Stop, RECORD_BYTES};
//!
//! let mut buffers = vantorel::Buffers {
//!     flash: &mut vec![0; 32_768],
//!     seen: &mut [0; vantorel::SEEN_MAP_BYTES],
//!     sectors: &mut [0; vantorel::SECTOR_MAP_BYTES],
//!     main: &mut [],
//!     xip: &mut [],
//! };
//! let mut trace = [0; RECORD_BYTES]; // an arrival of zeros is no block
//! trace[0] = record(vantorel::Outcome { answer: vantorel::Answer::NotBlock, discarded: false });
//! let mut report = Report::FRESH;
//! assert_eq!(add(&mut report, &vantorel::Settings::ARM, &trace, &mut buffers), Ok(Stop::None));
//! assert_eq!((report.records, report.count(vantorel::Answer::NotBlock)), (1, 1));
//! ```

use proved::{Answer, Buffers, Settings};

use crate::ffi::{self, len};
use crate::trace::{Stop, INDEX_BYTES};

/// The bytes of a report: 21 numbers of four bytes, the lowest first.
pub const REPORT_BYTES: usize = 84;
/// The most records of a report.
pub const MOST_RECORDS: u32 = u32::MAX;

/// The figures. Over all traces: the records replayed (those before a stop), how many of them had each answer of ours, and how many
/// discarded. Of the last trace's end: the different numbers marked, and the smallest that is missing.
#[derive(Clone, Copy, PartialEq, Eq, Debug)]
pub struct Report {
    /// The records replayed.
    pub records: u32,
    /// How many of them had each answer, in the order of the numbers: 1 to 5, then 7 to 17.
    pub counts: [u32; 16],
    /// How many of them discarded a running transfer.
    pub discards: u32,
    /// The different numbers marked at the last trace's end.
    pub marked: u32,
    /// The smallest number missing there, where the transfer was Running.
    pub missing: Option<u32>,
}

/// Why a trace is not replayed. Report and buffers stay. They are asked in this order.
#[derive(Clone, Copy, PartialEq, Eq, Debug)]
pub enum FiguresRefusal {
    /// 71: the counts do not sum to the records, or there are more discards than records.
    BadReport,
    /// 70: the records and the whole pieces of the trace, replayed or not, would pass [`MOST_RECORDS`].
    TooMany,
}

impl FiguresRefusal {
    /// The refusal's number.
    pub fn number(self) -> u8 {
        match self {
            FiguresRefusal::BadReport => 71,
            FiguresRefusal::TooMany => 70,
        }
    }
}

impl core::fmt::Display for FiguresRefusal {
    fn fmt(&self, f: &mut core::fmt::Formatter<'_>) -> core::fmt::Result {
        f.write_str(crate::words::figures(self.number().into()).unwrap_or_default())
    }
}

impl core::error::Error for FiguresRefusal {}

impl Report {
    /// A report of no trace.
    pub const FRESH: Report = Report {
        records: 0,
        counts: [0; 16],
        discards: 0,
        marked: 0,
        missing: None,
    };

    /// How many records had an answer.
    pub fn count(&self, answer: Answer) -> u32 {
        let number = usize::from(answer.number());
        self.counts[if number <= 5 { number - 1 } else { number - 2 }]
    }

    /// The report as bytes.
    pub fn bytes(&self) -> [u8; REPORT_BYTES] {
        let missing = [
            u32::from(self.missing.is_some()),
            self.missing.unwrap_or_default(),
        ];
        let words = [self.records]
            .into_iter()
            .chain(self.counts)
            .chain([self.discards, self.marked])
            .chain(missing);
        let mut bytes = [0; REPORT_BYTES];
        for (four, word) in bytes.chunks_exact_mut(4).zip(words) {
            four.copy_from_slice(&word.to_le_bytes());
        }
        bytes
    }

    /// The report that bytes are.
    pub fn from_bytes(bytes: &[u8; REPORT_BYTES]) -> Report {
        let word = |k: usize| {
            let at = 4 * k;
            u32::from_le_bytes([bytes[at], bytes[at + 1], bytes[at + 2], bytes[at + 3]])
        };
        Report {
            records: word(0),
            counts: core::array::from_fn(|j| word(j + 1)),
            discards: word(17),
            marked: word(18),
            missing: (word(19) != 0).then_some(word(20)),
        }
    }
}

/// Adds one trace, replayed from Idle as [`crate::trace::replay`] does, and says where it stopped.
///
/// # Panics
///
/// Where the library returns a number that is none of its own: it is not the proved one of this version.
pub fn add(
    report: &mut Report,
    settings: &Settings,
    trace: &[u8],
    buffers: &mut Buffers,
) -> Result<Stop, FiguresRefusal> {
    let mut bytes = report.bytes();
    let mut index = [0; INDEX_BYTES];
    let number = add_bytes(&mut bytes, &settings.bytes(), trace, buffers, &mut index);
    let index = u64::from_le_bytes(index) as usize;
    let stop = match number {
        0 => Stop::None,
        1 => Stop::Bad(index),
        2 => Stop::Differs(index),
        70 => return Err(FiguresRefusal::TooMany),
        71 => return Err(FiguresRefusal::BadReport),
        _ => panic!("the library is not the proved one of this version"),
    };
    *report = Report::from_bytes(&bytes);
    Ok(stop)
}

/// The same over bytes of any length: 0, 1 or 2 for where the replay stopped, or 70 or 71. A report of another length than
/// [`REPORT_BYTES`] is 71; the index of a stop is written where it has [`INDEX_BYTES`].
pub fn add_bytes(
    report: &mut [u8],
    settings: &[u8],
    trace: &[u8],
    buffers: &mut Buffers,
    index: &mut [u8],
) -> u32 {
    // SAFETY: each pointer is of a slice with its length, and what is written overlaps nothing, since each is borrowed alone.
    unsafe {
        ffi::uf2_figures(
            report.as_mut_ptr(),
            len(report),
            settings.as_ptr(),
            len(settings),
            trace.as_ptr(),
            len(trace),
            buffers.flash.as_mut_ptr(),
            len(buffers.flash),
            buffers.seen.as_mut_ptr(),
            len(buffers.seen),
            buffers.sectors.as_mut_ptr(),
            len(buffers.sectors),
            buffers.main.as_mut_ptr(),
            len(buffers.main),
            buffers.xip.as_mut_ptr(),
            len(buffers.xip),
            index.as_mut_ptr(),
            len(index),
        )
    }
}
