//! A trace replayed: `uf2_replay` beside a plain replay that looks at each record and takes it. Both read the settings once.
//! The same added to a fresh report: `uf2_figures`.

use std::hint::black_box;

use compare::{page, proved_settings, Buffers, Random};
use reference::{Entry, Settings};

use crate::{asked, pair, settings, timed, Work, FLASH};

const RECORDS: u32 = 131_072;
const ROUNDS: usize = 15;
const RECORD: usize = tools::trace::RECORD_BYTES;

/// The file of all pages, in order or shuffled, as our own answers record it.
fn recorded(s: &Settings, shuffled: bool, lent: &mut Buffers) -> Vec<u8> {
    let mut order: Vec<u32> = (0..RECORDS).collect();
    if shuffled {
        Random(7).shuffle(&mut order);
    }
    let mut t = reference::Transfer::Idle;
    let mut trace = Vec::with_capacity(RECORD * order.len());
    for k in order {
        let a = page(reference::ARM_S, RECORDS, k);
        let o = lent.plain_take(s, t, &a);
        t = o.transfer;
        trace.push(o.answer << 3 | u8::from(o.discarded) << 2);
        trace.extend(a);
    }
    trace
}

/// A trace with the settings that it was recorded under, on both sides, and the buffers as it left them.
struct Site {
    plain: Settings,
    proved: proved::Settings,
    trace: Vec<u8>,
    buffers: Buffers,
}

impl Site {
    fn new(shuffled: bool) -> Self {
        let plain = settings(0, [Entry::EMPTY; 16]);
        let mut buffers = Buffers::filled(FLASH, 0);
        let trace = recorded(&plain, shuffled, &mut buffers);
        Site {
            proved: proved_settings(&plain),
            plain,
            trace,
            buffers,
        }
    }

    fn work(&self) -> Work {
        Work {
            rounds: ROUNDS,
            calls: RECORDS as usize,
            bytes: Some(self.trace.len()),
        }
    }

    /// The proved replay: 2 where its stop is "none" and its transfer is done.
    fn replay(&self, lent: &mut Buffers) -> (f64, u64) {
        lent.flash.fill(0);
        timed(|| {
            let end = tools::trace::replay(black_box(&self.proved), &self.trace, &mut lent.lend());
            let done = matches!(end.transfer, proved::Transfer::Done { .. });
            u64::from(end.stop == tools::trace::Stop::None) + u64::from(done)
        })
    }

    /// The proved report: its marks are the file's blocks, each replayed: twice their number.
    fn report(&self, lent: &mut Buffers) -> (f64, u64) {
        lent.flash.fill(0);
        timed(|| {
            let mut report = tools::report::Report::FRESH;
            let lent = &mut lent.lend();
            tools::report::add(&mut report, black_box(&self.proved), &self.trace, lent)
                .expect("a fresh report");
            u64::from(report.records) + u64::from(report.marked)
        })
    }
}

/// A trace replayed.
fn replayed(name: &str, shuffled: bool) {
    if !asked(name) {
        return;
    }
    let site = Site::new(shuffled);
    let (mut ours, mut theirs) = (site.buffers.clone(), site.buffers.clone());
    pair(
        name,
        site.work(),
        || site.replay(&mut ours),
        || {
            theirs.flash.fill(0);
            let [flash, seen, sectors, main, xip] = theirs.each();
            timed(|| {
                let s = black_box(&site.plain);
                let end =
                    reference::replay::replay(s, &site.trace, flash, seen, sectors, main, xip);
                let done = matches!(end.transfer, reference::Transfer::Done { .. });
                u64::from(end.stop == reference::replay::Stop::None) + u64::from(done)
            })
        },
    );
    assert!(ours == theirs, "{name}: the two leave the same");
}

/// A trace added to a fresh report.
fn reported(name: &str, shuffled: bool) {
    if !asked(name) {
        return;
    }
    let site = Site::new(shuffled);
    let (mut ours, mut theirs) = (site.buffers.clone(), site.buffers.clone());
    pair(
        name,
        site.work(),
        || site.report(&mut ours),
        || {
            theirs.flash.fill(0);
            let [flash, seen, sectors, main, xip] = theirs.each();
            timed(|| {
                let mut report = reference::figures::Report::FRESH;
                let s = black_box(&site.plain);
                let trace = &site.trace;
                reference::figures::add(&mut report, s, trace, flash, seen, sectors, main, xip)
                    .expect("a fresh report");
                u64::from(report.records) + u64::from(report.marked)
            })
        },
    );
    assert!(ours == theirs, "{name}: the two leave the same");
}

pub fn rows() {
    replayed("a record replayed, 131,072 in order", false);
    replayed("a record replayed, 131,072 shuffled", true);
    reported("a record in a report, 131,072 in order", false);
    reported("a record in a report, 131,072 shuffled", true);
}

/// A trace added to a fresh report beside the same trace replayed, both proved: each side tells twice the number of the records.
fn beside(name: &str, shuffled: bool) {
    if !asked(name) {
        return;
    }
    let site = Site::new(shuffled);
    let (mut reported, mut replayed) = (site.buffers.clone(), site.buffers.clone());
    pair(
        name,
        site.work(),
        || site.report(&mut reported),
        || {
            let (time, told) = site.replay(&mut replayed);
            (time, told * u64::from(RECORDS))
        },
    );
    assert!(reported == replayed, "{name}: the two leave the same");
}

pub fn beside_rows() {
    beside("a record in a report beside a replay, in order", false);
    beside("a record in a report beside a replay, shuffled", true);
}
