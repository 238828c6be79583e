//! The report over traces (02, L14).

use super::replay::{begun, record, traced};
use super::*;
use crate::figures::{add, Report};
use crate::replay::{Replayed, Stop};

const LEN: usize = 65_536;

/// Adds the trace on the bench; a refusal must leave bench and report.
fn added(bench: &mut Bench, report: &mut Report, trace: &[u8]) -> Result<Stop, u32> {
    let before = (bench.clone(), *report);
    let result = add(
        report,
        &bench.settings,
        trace,
        &mut bench.flash,
        &mut bench.seen,
        &mut bench.sectors,
        &mut bench.main,
        &mut bench.xip,
    );
    match result {
        Ok(Replayed { transfer, stop }) => {
            bench.transfer = transfer;
            Ok(stop)
        }
        Err(refusal) => {
            assert!(*bench == before.0 && *report == before.1);
            Err(refusal)
        }
    }
}

fn counts(list: &[(usize, u32)]) -> [u32; 18] {
    let mut answers = [0; 18];
    for &(answer, count) in list {
        answers[answer] = count;
    }
    answers
}

#[test]
fn two_traces() {
    let mut bench = Bench::new(NO_TABLE, LEN);
    let mut report = Report::FRESH;
    let arrivals = [
        arrival(page(1, 9)),
        arrival(page(0, 4)),
        arrival(page(1, 4)),
        arrival(page(0, 4)),
        [0; 512],
        arrival(page(3, 4)),
    ];
    let trace = traced(&mut begun(&bench), &arrivals).concat();
    assert_eq!(added(&mut bench, &mut report, &trace), Ok(Stop::None));
    let first = Report {
        records: 6,
        answers: counts(&[(4, 1), (13, 1), (14, 4)]),
        discards: 1,
        marked: 3,
        missing: Some(2),
    };
    assert_eq!(report, first);

    // The next one begins from Idle again, and its end takes the last's place.
    let comment = Fields {
        flags: 0x2001,
        ..page(0, 2)
    };
    let arrivals = [arrival(comment), arrival(page(1, 2)), arrival(page(0, 2))];
    let trace = traced(&mut begun(&bench), &arrivals).concat();
    assert_eq!(added(&mut bench, &mut report, &trace), Ok(Stop::None));
    let second = Report {
        records: 9,
        answers: counts(&[(4, 1), (12, 1), (13, 1), (14, 4), (15, 1), (16, 1)]),
        discards: 1,
        marked: 2,
        missing: None,
    };
    assert_eq!(report, second);

    // An empty one still says how it ends.
    assert_eq!(added(&mut bench, &mut report, &[]), Ok(Stop::None));
    let third = Report {
        marked: 0,
        ..second
    };
    assert_eq!(report, third);
}

#[test]
fn only_the_records_before_a_stop_count() {
    let arrivals = [
        arrival(page(0, 3)),
        arrival(page(2, 3)),
        arrival(page(1, 3)),
    ];
    let bench = Bench::new(NO_TABLE, LEN);
    let trace = traced(&mut begun(&bench), &arrivals).concat();
    let mut differs = trace.clone();
    differs[2 * 513] = 14 << 3;
    let mut stray = trace.clone();
    stray[2 * 513] |= 1;
    let expected = Report {
        records: 2,
        answers: counts(&[(14, 2)]),
        discards: 0,
        marked: 2,
        missing: Some(1),
    };
    for (trace, stop) in [
        (&differs[..], Stop::Differs(2)),
        (&stray, Stop::Bad(2)),
        (&trace[..3 * 513 - 1], Stop::Bad(2)),
    ] {
        let mut report = Report::FRESH;
        assert_eq!(added(&mut bench.clone(), &mut report, trace), Ok(stop));
        assert_eq!(report, expected);
    }
}

#[test]
fn refusal_71() {
    let good = Report {
        records: 10,
        answers: counts(&[(1, 1), (5, 2), (7, 3), (17, 4)]),
        discards: 10,
        marked: 77,
        missing: Some(88),
    };
    let mut bench = Bench::new(NO_TABLE, 4096);
    assert_eq!(added(&mut bench, &mut good.clone(), &[]), Ok(Stop::None));
    for answer in (1..18).filter(|&answer| answer != 6) {
        let mut report = good;
        report.answers[answer] += 1;
        assert_eq!(added(&mut bench, &mut report, &[]), Err(71));
        report.records += 1;
        assert_eq!(added(&mut bench, &mut report, &[]), Ok(Stop::None));
    }
    let mut report = good;
    report.discards = 11;
    assert_eq!(added(&mut bench, &mut report, &[]), Err(71));
    // Counts whose sum 32 bits would wrap to the records.
    let mut report = good;
    report.answers = counts(&[(1, u32::MAX), (2, 11)]);
    assert_eq!(added(&mut bench, &mut report, &[]), Err(71));
    report.answers = [u32::MAX; 18];
    assert_eq!(added(&mut bench, &mut report, &[]), Err(71));
    // The places of no answer hold none, and are let be.
    let mut report = good;
    (report.answers[0], report.answers[6]) = (5, u32::MAX);
    assert_eq!(added(&mut bench, &mut report, &[]), Ok(Stop::None));
    assert_eq!((report.answers[0], report.answers[6]), (5, u32::MAX));
    assert_eq!((report.marked, report.missing), (0, None));
}

#[test]
fn refusal_70() {
    let mut bench = Bench::new(NO_TABLE, 4096);
    // Not one of these is replayed, but they are whole pieces.
    let trace = record(31, true, &[0; 512]).repeat(3);
    for (room, len, expected) in [
        (3, 3 * 513, Ok(Stop::Differs(0))),
        (2, 3 * 513, Err(70)),
        (2, 3 * 513 - 1, Ok(Stop::Differs(0))),
        (0, 512, Ok(Stop::Bad(0))),
        (0, 513, Err(70)),
        (0, 0, Ok(Stop::None)),
    ] {
        let mut report = Report::FRESH;
        report.records = u32::MAX - room;
        report.answers[14] = u32::MAX - room;
        assert_eq!(added(&mut bench, &mut report, &trace[..len]), expected);
    }
    // 71 goes before.
    let mut report = Report::FRESH;
    report.records = u32::MAX;
    assert_eq!(added(&mut bench, &mut report, &trace), Err(71));
}

#[test]
fn up_to_the_last_record() {
    let mut bench = Bench::new(NO_TABLE, 4096);
    let mut report = Report::FRESH;
    report.records = u32::MAX - 2;
    report.answers[4] = u32::MAX - 2;
    let trace = record(4, false, &[0; 512]).repeat(2);
    assert_eq!(added(&mut bench, &mut report, &trace), Ok(Stop::None));
    assert_eq!((report.records, report.answers[4]), (u32::MAX, u32::MAX));
}

#[test]
fn the_smallest_missing_number() {
    for (numbers, missing) in [
        (&[1][..], Some(0)),
        (&[0], Some(1)),
        (&[0, 1, 2, 3, 4, 5, 6, 7], Some(8)),
        (&[7, 6, 5, 4, 3, 2, 0], Some(1)),
        (&[0, 1, 2, 3, 4, 5, 6, 7, 9], Some(8)),
        (&[0, 1, 2, 3, 4, 5, 6, 7, 8], Some(9)),
        (&[0, 1, 2, 3, 4, 5, 6, 7, 8, 9], None),
    ] {
        let mut bench = Bench::new(NO_TABLE, LEN);
        let arrivals: Vec<[u8; 512]> = numbers.iter().map(|&k| arrival(page(k, 10))).collect();
        let trace = traced(&mut begun(&bench), &arrivals).concat();
        let mut report = Report::FRESH;
        assert_eq!(added(&mut bench, &mut report, &trace), Ok(Stop::None));
        assert_eq!(report.marked as usize, numbers.len());
        assert_eq!(report.missing, missing);
    }
}

#[test]
fn maps_of_a_wrong_length() {
    for len in [0, 1, 16_383] {
        let mut bench = Bench::new(NO_TABLE, LEN);
        bench.seen.truncate(len);
        let mut report = Report::FRESH;
        let trace = record(1, false, &arrival(ONLY)).repeat(4);
        assert_eq!(added(&mut bench, &mut report, &trace), Ok(Stop::None));
        let expected = Report {
            records: 4,
            answers: counts(&[(1, 4)]),
            ..Report::FRESH
        };
        assert_eq!(report, expected);
    }
}

/// The figures of random traces, told from the records themselves.
#[test]
fn figures_of_many_traces() {
    let mut random = Random(123);
    let mut bench = Bench::new(NO_TABLE, LEN);
    let mut report = Report::FRESH;
    let (mut answers, mut discards) = ([0; 18], 0);
    for _ in 0..100 {
        let arrivals: Vec<[u8; 512]> = (0..random.below(12))
            .map(|_| {
                arrival(Fields {
                    flags: random.pick(&[0x2000, 0x2000, 0x2001, 0]),
                    ..page(random.below(4) as u32, random.pick(&[3, 3, 4]))
                })
            })
            .collect();
        let records = traced(&mut begun(&bench), &arrivals);
        let cut = random.below(records.len() + 1);
        let mut trace = records[..cut].concat();
        let stop = if random.yes() {
            trace.extend([0; 513]);
            Stop::Differs(cut)
        } else {
            Stop::None
        };
        for record in &records[..cut] {
            answers[usize::from(record[0] >> 3)] += 1;
            discards += u32::from(record[0] >> 2 & 1);
        }
        assert_eq!(added(&mut bench, &mut report, &trace), Ok(stop));
        assert_eq!((report.answers, report.discards), (answers, discards));
        assert_eq!(report.records, answers.iter().sum());
        assert_eq!(report.marked as usize, marks(&bench.seen).len());
        let missing = match bench.transfer {
            Transfer::Running { total, .. } => {
                (0..total).find(|&k| !marks(&bench.seen).contains(&(k as usize)))
            }
            _ => None,
        };
        assert_eq!(report.missing, missing);
    }
    assert!(discards > 10 && answers[16] > 10 && answers[15] > 0);
}
