//! Reports over traces, beside the reference: lists of traces, the edges of 70 and 71, every answer in one trace, and bytes of every length.

use compare::region::any_region;
use compare::report::{plain_report, proved_report, NUMBERS};
use compare::{
    any_arrival, any_settings, arm_only, join, page, proved_settings, Buffers, Pair, Ram, Random,
};
use reference::figures as plain;
use reference::{Settings, Transfer, ARM_S};
use tools::report::{add, add_bytes, FiguresRefusal, Report, REPORT_BYTES};
use tools::trace::{Stop, INDEX_BYTES, RECORD_BYTES};

/// How many lists of traces are added up.
const LISTS: usize = 5_000;

fn refusal(number: u32) -> FiguresRefusal {
    match number {
        plain::TOO_MANY => FiguresRefusal::TooMany,
        plain::BAD_REPORT => FiguresRefusal::BadReport,
        _ => panic!("{number}"),
    }
}

/// Both add a trace: the same result, the same report and the same buffers. A refusal leaves all of them.
fn both(
    report: &mut Report,
    settings: &Settings,
    trace: &[u8],
    lent: &mut Buffers,
) -> Result<Stop, FiguresRefusal> {
    let (was, held) = (*report, lent.clone());
    let mut theirs = lent.clone();
    let mut wanted = plain_report(report);
    let got = add(report, &proved_settings(settings), trace, &mut lent.lend());
    let [flash, seen, sectors, main, xip] = theirs.each();
    let told = plain::add(
        &mut wanted,
        settings,
        trace,
        flash,
        seen,
        sectors,
        main,
        xip,
    );
    let told = told.map_err(refusal).map(|end| match end.stop {
        reference::replay::Stop::None => Stop::None,
        reference::replay::Stop::Bad(i) => Stop::Bad(i),
        reference::replay::Stop::Differs(i) => Stop::Differs(i),
    });
    assert_eq!(got, told);
    assert_eq!(*report, proved_report(&wanted));
    assert!(*lent == theirs, "buffers");
    if got.is_err() {
        assert!(*report == was && *lent == held, "a refusal leaves all");
    }
    got
}

fn record(answer: u8, discarded: bool, a: &[u8]) -> Vec<u8> {
    [&[answer << 3 | u8::from(discarded) << 2], a].concat()
}

/// Some arrivals recorded from Idle, now and then damaged or cut.
fn any_trace(r: &mut Random, settings: Settings, lent: &Buffers, ram: Ram) -> Vec<u8> {
    let mut begun = lent.clone();
    begun.seen.fill(0);
    begun.sectors.fill(0);
    let mut pair = Pair::new(settings, Transfer::Idle, begun);
    let pages = (lent.flash.len() / 256) as u64;
    let mut sent: Vec<Vec<u8>> = Vec::new();
    let mut trace = Vec::new();
    for _ in 0..r.below(7) {
        let mut a = if !sent.is_empty() && r.one_in(3) {
            sent[r.below(sent.len() as u64) as usize].clone()
        } else {
            any_arrival(r, pages, ram)
        };
        a.resize(512, 0);
        if r.one_in(3) {
            join(r, &mut a, pair.transfer);
        }
        if r.one_in(4) {
            let family = u32::from_le_bytes([a[28], a[29], a[30], a[31]]);
            let place = reference::ask_place(&settings, lent.flash.len(), family);
            let start = place.map_or(0, |(start, _)| start);
            any_region(r, &mut a, &pair.ours.flash, start);
        }
        let (answer, discarded) = pair.told(&a);
        trace.extend(record(answer, discarded, &a));
        sent.push(a);
    }
    if !trace.is_empty() && r.one_in(3) {
        let index = r.below((trace.len() / RECORD_BYTES) as u64) as usize;
        trace[index * RECORD_BYTES] = r.draw() as u8;
    }
    if r.one_in(8) {
        trace.truncate(trace.len() - r.below(trace.len() as u64 + 1) as usize);
    }
    trace
}

#[test]
fn lists_of_traces_agree() {
    let mut r = Random(72);
    let mut met = [0u64; 18];
    let (mut stops, mut discards, mut missing) = ([0; 3], 0, 0);
    for _ in 0..LISTS {
        let mut report = Report::FRESH;
        for _ in 0..1 + r.below(4) {
            // settings and buffers are each trace's own
            let sectors = r.of(&[1, 1, 2]);
            let settings = any_settings(&mut r, sectors);
            let ram = Ram {
                main: r.one_in(100),
                xip: r.one_in(8),
            };
            let mut lent = Buffers::any(&mut r, sectors, ram);
            match r.below(40) {
                0 => lent.seen.push(0),
                1 => lent.sectors.truncate(r.below(1_024) as usize),
                _ => {}
            }
            let trace = any_trace(&mut r, settings, &lent, ram);
            match both(&mut report, &settings, &trace, &mut lent) {
                Ok(Stop::None) => stops[0] += 1,
                Ok(Stop::Bad(_)) => stops[1] += 1,
                Ok(Stop::Differs(_)) => stops[2] += 1,
                Err(refusal) => panic!("{refusal:?}"),
            }
            missing += usize::from(report.missing.is_some());
        }
        let sum: u64 = report.counts.iter().map(|&n| u64::from(n)).sum();
        assert_eq!(sum, u64::from(report.records));
        assert_eq!(Report::from_bytes(&report.bytes()), report);
        for (&n, &count) in NUMBERS.iter().zip(&report.counts) {
            met[n] += u64::from(count);
        }
        discards += u64::from(report.discards);
    }
    // 3 is asked of a state, which a replay never has
    assert!(NUMBERS.iter().all(|&n| n == 3 || met[n] > 50), "{met:?}");
    assert!(stops.iter().all(|&n| n > 500), "{stops:?}");
    assert!(discards > 100 && missing > 1_000, "{discards} {missing}");
}

#[test]
fn the_edges_of_70() {
    let settings = arm_only();
    let mut lent = Buffers::filled(4_096, 0x5A);
    // not one of these is replayed, but they are whole pieces
    let trace = record(31, true, &[0; 512]).repeat(3);
    for (room, len, wanted) in [
        (3, 3 * 513, Ok(Stop::Differs(0))),
        (2, 3 * 513, Err(FiguresRefusal::TooMany)),
        (2, 3 * 513 - 1, Ok(Stop::Differs(0))),
        (0, 512, Ok(Stop::Bad(0))),
        (0, 513, Err(FiguresRefusal::TooMany)),
        (0, 0, Ok(Stop::None)),
    ] {
        let mut report = Report::FRESH;
        report.records = u32::MAX - room;
        report.counts[3] = u32::MAX - room;
        assert_eq!(
            both(&mut report, &settings, &trace[..len], &mut lent),
            wanted
        );
    }
    // 71 goes before
    let mut report = Report::FRESH;
    report.records = u32::MAX;
    assert_eq!(
        both(&mut report, &settings, &trace, &mut lent),
        Err(FiguresRefusal::BadReport)
    );
    // up to the last record
    let mut report = Report::FRESH;
    report.records = u32::MAX - 2;
    report.counts[3] = u32::MAX - 2;
    let trace = record(4, false, &[0; 512]).repeat(2);
    assert_eq!(
        both(&mut report, &settings, &trace, &mut lent),
        Ok(Stop::None)
    );
    assert_eq!((report.records, report.counts[3]), (u32::MAX, u32::MAX));
}

#[test]
fn the_edges_of_71() {
    let settings = arm_only();
    let mut lent = Buffers::filled(4_096, 0x5A);
    let mut good = Report::FRESH;
    good.records = 10;
    (
        good.counts[0],
        good.counts[4],
        good.counts[5],
        good.counts[15],
    ) = (1, 2, 3, 4);
    good.discards = 10;
    (good.marked, good.missing) = (77, Some(88));
    let mut tell = |mut report: Report| both(&mut report, &settings, &[], &mut lent);
    assert_eq!(tell(good), Ok(Stop::None));
    let bad = Err(FiguresRefusal::BadReport);
    for slot in 0..16 {
        let mut report = good;
        report.counts[slot] += 1;
        assert_eq!(tell(report), bad, "slot {slot}");
        report.records += 1;
        assert_eq!(tell(report), Ok(Stop::None), "slot {slot}");
    }
    let mut report = good;
    report.discards = 11;
    assert_eq!(tell(report), bad);
    // counts whose sum 32 bits would wrap to the records
    let mut report = good;
    report.counts = [0; 16];
    (report.counts[0], report.counts[1]) = (u32::MAX, 11);
    assert_eq!(tell(report), bad);
    report.counts = [u32::MAX; 16];
    assert_eq!(tell(report), bad);
}

/// A file of two blocks with a region that stands, and arrivals for every other answer: each in one trace, counted once.
#[test]
fn every_answer_in_one_trace() {
    let mut r = Random(73);
    let settings = arm_only();
    let mut met = [false; 18];
    let mut report = Report::FRESH;
    // 1, 2 and 3 are of buffers, settings and states, which are a whole trace's
    for _ in 0..2_000 {
        let mut lent = Buffers::any(&mut r, 2, Ram::NONE);
        let trace = any_trace(&mut r, settings, &lent, Ram::NONE);
        both(&mut report, &settings, &trace, &mut lent).expect("a good report");
        for head in trace.iter().step_by(RECORD_BYTES) {
            met[usize::from(head >> 3) % 18] = true;
        }
    }
    assert!(met[4..6].iter().chain(&met[7..]).all(|&m| m), "{met:?}");
    for which in 0..5 {
        let mut lent = Buffers::any(&mut r, 2, Ram::BOTH);
        lent.each()[which].resize(100, 0xA7);
        let trace = record(1, false, &page(ARM_S, 2, 0)).repeat(3);
        let before = report.counts[0];
        assert_eq!(
            both(&mut report, &settings, &trace, &mut lent),
            Ok(Stop::None)
        );
        assert_eq!(report.counts[0], before + 3);
    }
}

/// Idle, Running with the first, a middle and the last number missing, and Done.
#[test]
fn the_smallest_missing_number() {
    let settings = arm_only();
    for (numbers, missing) in [
        (&[][..], None),
        (&[1], Some(0)),
        (&[0], Some(1)),
        (&[0, 1, 2, 3, 4, 5, 6, 7], Some(8)),
        (&[7, 6, 5, 4, 3, 2, 0], Some(1)),
        (&[0, 1, 2, 3, 4, 5, 6, 7, 8], Some(9)),
        (&[0, 1, 2, 3, 4, 5, 6, 7, 8, 9], None),
    ] {
        let mut lent = Buffers::filled(65_536, 0x5A);
        let trace: Vec<u8> = numbers
            .iter()
            .enumerate()
            .flat_map(|(i, &k)| record(if i == 9 { 15 } else { 14 }, false, &page(ARM_S, 10, k)))
            .collect();
        let mut report = Report::FRESH;
        assert_eq!(
            both(&mut report, &settings, &trace, &mut lent),
            Ok(Stop::None)
        );
        assert_eq!(
            (report.marked as usize, report.missing),
            (numbers.len(), missing)
        );
    }
}

/// Reports and indexes of every length near theirs, and any bytes: another length is 71, and a refusal leaves them.
#[test]
fn bytes_of_any_length() {
    let mut r = Random(74);
    let settings = proved_settings(&arm_only()).bytes();
    let trace = record(14, false, &page(ARM_S, 2, 0));
    let lent = Buffers::filled(4_096, 0x5A);
    for report_len in [0, 1, 83, 84, 85, 168] {
        for index_len in [0, 7, 8, 9] {
            for zero in [true, false] {
                let any: Vec<u8> = (0..report_len)
                    .map(|_| if zero { 0 } else { r.draw() as u8 })
                    .collect();
                let (mut report, mut index) = (any.clone(), vec![0xA5; index_len]);
                let mut ours = lent.clone();
                let number =
                    add_bytes(&mut report, &settings, &trace, &mut ours.lend(), &mut index);
                let added = report_len == REPORT_BYTES && zero;
                assert_eq!(number, if added { 0 } else { 71 }, "{report_len}");
                assert!(index == vec![0xA5; index_len]);
                assert!(added || (report == any && ours == lent));
            }
        }
    }
    // a flag other than 0 and 1 is a number that is missing, and the next trace replaces it
    let mut report = [0; REPORT_BYTES];
    report[79] = 9;
    let bad = [&trace[..513], &[7]].concat();
    let mut index = [0; INDEX_BYTES];
    let mut ours = lent.clone();
    let number = add_bytes(&mut report, &settings, &bad, &mut ours.lend(), &mut index);
    assert_eq!((number, index), (1, 1u64.to_le_bytes()));
    let end = Report::from_bytes(&report);
    assert_eq!((end.records, end.marked, end.missing), (1, 1, Some(1)));
}
