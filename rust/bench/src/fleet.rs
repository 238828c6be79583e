//! Figures over many traces by one thread and by all processors, as `vantorel figures --jobs` makes them: each thread takes the next trace and
//! replays it into a board of its own, and the parts are merged in the order of the traces.

use std::hint::black_box;
use std::num::NonZero;
use std::sync::atomic::{AtomicUsize, Ordering};
use std::sync::Mutex;

use compare::{page, proved_settings, Buffers};
use proved::{Answer, Outcome};
use reference::Entry;
use tools::part::Part;
use tools::report::{add, Report};
use tools::trace::record;

use crate::{asked, beside, settings, timed, Work};

const RECORDS: u32 = 256;
const FLASH: usize = 65_536;
const ROUNDS: usize = 15;

/// A trace of a whole file in order.
fn trace() -> Vec<u8> {
    let mut trace = Vec::new();
    for k in 0..RECORDS {
        let answer = match k + 1 {
            RECORDS => Answer::Completed,
            _ => Answer::Written,
        };
        let discarded = false;
        trace.push(record(Outcome { answer, discarded }));
        trace.extend(page(reference::ARM_S, RECORDS, k));
    }
    trace
}

/// The part of so many traces, and the time that it takes.
fn figures(traces: usize, threads: usize, trace: &[u8]) -> f64 {
    let s = proved_settings(&settings(0, [Entry::EMPTY; 16]));
    let (time, records) = timed(|| {
        let next = AtomicUsize::new(0);
        let parts = Mutex::new(vec![Part::FRESH; traces]);
        let one = || {
            let mut lent = Buffers::filled(FLASH, 0xFF);
            loop {
                let k = next.fetch_add(1, Ordering::Relaxed);
                if k >= traces {
                    break;
                }
                lent.flash.fill(0xFF);
                let mut report = Report::FRESH;
                let stop = add(&mut report, &s, black_box(trace), &mut lent.lend());
                let part = Part::one(&report, stop.expect("a fresh report")).expect("a report");
                parts.lock().expect("no thread panics")[k] = part;
            }
        };
        std::thread::scope(|scope| {
            for _ in 1..threads {
                scope.spawn(one);
            }
            one();
        });
        let parts = parts.into_inner().expect("no thread panicked");
        let mut all = Part::FRESH;
        for part in &parts {
            all.merge(part).expect("few records");
        }
        assert_eq!((all.bad, all.differs), (0, 0));
        u64::from(all.report.records)
    });
    assert_eq!(records, traces as u64 * u64::from(RECORDS));
    time
}

fn work(traces: usize) -> Work {
    let calls = traces * RECORDS as usize;
    Work {
        rounds: ROUNDS,
        calls,
        bytes: Some(calls * tools::trace::RECORD_BYTES),
    }
}

pub fn beside_rows() {
    let trace = trace();
    let all = std::thread::available_parallelism().map_or(1, NonZero::get);
    let name = format!("a record of 2,000 traces by {all} threads, beside one");
    if asked(&name) {
        beside(
            &name,
            (work(2_000), || figures(2_000, all, &trace)),
            (work(2_000), || figures(2_000, 1, &trace)),
        );
    }
    let name = "a record of 4,000 traces by one thread, beside 500";
    if asked(name) {
        beside(
            name,
            (work(4_000), || figures(4_000, 1, &trace)),
            (work(500), || figures(500, 1, &trace)),
        );
    }
}
