//! Parts of a report, merged (02, L14).

use super::replay::{begun, traced};
use super::*;
use crate::figures::{add, Report};
use crate::parts::{merge, part_of, Part};
use crate::replay::Stop;

const LEN: usize = 65_536;

fn part(bench: &mut Bench, trace: &[u8]) -> Part {
    let Bench {
        flash,
        seen,
        sectors,
        main,
        xip,
        ..
    } = bench;
    part_of(&bench.settings, trace, flash, seen, sectors, main, xip).unwrap()
}

/// Merges; a refusal has to leave the first.
fn merged(a: Part, b: Part) -> Result<Part, u32> {
    let mut sum = a;
    let result = merge(&mut sum, &b);
    if result.is_err() {
        assert_eq!(sum, a);
    }
    result.map(|()| sum)
}

/// A part of so many records with answer 4 and so many traces.
fn of(records: u32, traces: u32) -> Part {
    let mut part = Part {
        traces,
        ..Part::FRESH
    };
    part.report.records = records;
    part.report.answers[4] = records;
    part
}

#[test]
fn parts_of_one_trace() {
    let mut bench = Bench::new(NO_TABLE, LEN);
    let arrivals = [arrival(page(1, 3)), arrival(page(0, 3)), [0; 512]];
    let trace = traced(&mut begun(&bench), &arrivals).concat();
    let mut expected = of(1, 1);
    expected.report.records = 3;
    expected.report.answers[14] = 2;
    (expected.report.marked, expected.report.missing) = (2, Some(2));
    assert_eq!(part(&mut bench, &trace), expected);

    // The last record is short, or has another answer.
    expected.report.records = 2;
    expected.report.answers[4] = 0;
    let (bad, differs) = (1, 0);
    let cut = &trace[..trace.len() - 1];
    assert_eq!(part(&mut bench, cut), Part { bad, ..expected });
    let mut other = trace.clone();
    other[2 * 513] ^= 8;
    let stopped = Part {
        bad: differs,
        differs: bad,
        ..expected
    };
    assert_eq!(part(&mut bench, &other), stopped);

    // An empty trace is one.
    let empty = Part {
        traces: 1,
        ..Part::FRESH
    };
    assert_eq!(part(&mut bench, &[]), empty);
}

#[test]
fn sums_and_the_end() {
    let mut a = of(5, 3);
    (a.report.answers[14], a.report.records) = (2, 7);
    (a.report.discards, a.bad, a.differs) = (1, 1, 2);
    (a.report.marked, a.report.missing) = (9, Some(4));
    let mut b = of(10, 4);
    (b.report.answers[17], b.report.records) = (3, 13);
    (b.report.discards, b.bad, b.differs) = (13, 3, 1);
    (b.report.marked, b.report.missing) = (2, None);

    let sum = merged(a, b).unwrap();
    let mut answers = [0; 18];
    (answers[4], answers[14], answers[17]) = (15, 2, 3);
    let report = Report {
        records: 20,
        answers,
        discards: 14,
        marked: 2,
        missing: None,
    };
    let expected = Part {
        report,
        traces: 7,
        bad: 4,
        differs: 3,
    };
    assert_eq!(sum, expected);
    // The other way round the end is the other's.
    let mut swapped = expected;
    (swapped.report.marked, swapped.report.missing) = (9, Some(4));
    assert_eq!(merged(b, a), Ok(swapped));
    // Over no trace there is no end, so that it changes nothing.
    assert_eq!(merged(a, Part::FRESH), Ok(a));
    assert_eq!(merged(Part::FRESH, a), Ok(a));
    assert_eq!(merged(Part::FRESH, Part::FRESH), Ok(Part::FRESH));
    // A trace of no record has one.
    let empty = part(&mut Bench::new(NO_TABLE, 4096), &[]);
    let mut sum = a;
    (sum.traces, sum.report.marked, sum.report.missing) = (4, 0, None);
    assert_eq!(merged(a, empty), Ok(sum));
}

#[test]
fn refusal_71() {
    let good = of(10, 3);
    let mut bad = vec![];
    for answer in (1..18).filter(|&answer| answer != 6) {
        let mut part = good;
        part.report.answers[answer] += 1;
        bad.push(part);
    }
    let with = |change: fn(&mut Part)| {
        let mut part = good;
        change(&mut part);
        part
    };
    bad.extend([
        with(|p| p.report.records = 9),
        with(|p| p.report.discards = 11),
        with(|p| p.bad = 4),
        with(|p| p.differs = 4),
        with(|p| (p.bad, p.differs) = (2, 2)),
        // Together past 32 bits.
        with(|p| (p.bad, p.differs) = (u32::MAX, 1)),
        with(|p| (p.bad, p.differs) = (u32::MAX, u32::MAX)),
        with(|p| p.traces = 0),
        of(1, 0),
    ]);
    let without_traces: [fn(&mut Part); 5] = [
        |p| p.report.marked = 1,
        |p| p.report.missing = Some(0),
        |p| p.bad = 1,
        |p| p.differs = 1,
        |p| p.report.discards = 1,
    ];
    for change in without_traces {
        let mut part = Part::FRESH;
        change(&mut part);
        bad.push(part);
    }
    let full = of(u32::MAX, u32::MAX);
    for bad in bad {
        for other in [good, Part::FRESH, bad, full] {
            assert_eq!(merged(bad, other), Err(71), "{bad:?}");
            assert_eq!(merged(other, bad), Err(71), "{bad:?}");
        }
    }
    // At the edge of each.
    for part in [
        with(|p| p.report.discards = 10),
        with(|p| p.bad = 3),
        with(|p| p.differs = 3),
        with(|p| (p.bad, p.differs) = (1, 2)),
        with(|p| (p.report.marked, p.report.missing) = (77, Some(88))),
        of(0, 1),
        of(1, 1),
    ] {
        assert!(merged(part, good).is_ok() && merged(good, part).is_ok());
    }
    // The places of no answer hold none, and are let be.
    let mut part = Part::FRESH;
    (part.report.answers[0], part.report.answers[6]) = (1, u32::MAX);
    assert_eq!(merged(good, part), Ok(good));
    let mut sum = good;
    (sum.report.answers[0], sum.report.answers[6]) = (1, u32::MAX);
    assert_eq!(merged(part, good), Ok(sum));
}

#[test]
fn refusal_70() {
    let most = u32::MAX;
    for (a, b, refused) in [
        (of(most, 1), of(0, 1), false),
        (of(most, 1), of(1, 1), true),
        (of(most - 1, 1), of(1, 1), false),
        (of(most - 1, 1), of(2, 1), true),
        (of(most, 1), of(most, 1), true),
        (of(0, most), of(0, 1), true),
        (of(0, most - 1), of(0, 1), false),
        (of(0, most), of(0, most), true),
        (of(most, most), Part::FRESH, false),
        (of(1, most), of(most, 1), true),
    ] {
        let sum = of(
            a.report.records.wrapping_add(b.report.records),
            a.traces.wrapping_add(b.traces),
        );
        let expected = if refused { Err(70) } else { Ok(sum) };
        assert_eq!(merged(a, b), expected);
        assert_eq!(merged(b, a), expected);
    }
    // Figures at their largest.
    let mut a = of(most - 1, most - 1);
    (a.report.discards, a.bad) = (most - 1, most - 1);
    let mut b = of(1, 1);
    (b.report.discards, b.bad) = (1, 1);
    let sum = merged(a, b).unwrap();
    let figures = (sum.report.records, sum.report.answers[4], sum.traces);
    assert_eq!(figures, (most, most, most));
    assert_eq!((sum.report.discards, sum.bad), (most, most));
}

/// The part of a list of parts, merged by a tree of any shape.
fn by_tree(random: &mut Random, parts: &[Part]) -> Part {
    match parts {
        [] => Part::FRESH,
        [one] => *one,
        _ => {
            let cut = random.below(parts.len() + 1);
            let (left, right) = parts.split_at(cut);
            if left.is_empty() || right.is_empty() {
                // An empty side changes nothing.
                let inner = 1 + random.below(parts.len() - 1);
                let (a, b) = parts.split_at(inner);
                let whole = merged(by_tree(random, a), by_tree(random, b)).unwrap();
                return if left.is_empty() {
                    merged(Part::FRESH, whole).unwrap()
                } else {
                    merged(whole, Part::FRESH).unwrap()
                };
            }
            merged(by_tree(random, left), by_tree(random, right)).unwrap()
        }
    }
}

/// Whichever way it is cut, the parts of a list merge to its one report.
#[test]
fn trees_beside_one_call_after_another() {
    let mut random = Random(14);
    let mut stops = [0; 3];
    for _ in 0..300 {
        let bench = Bench::new(NO_TABLE, 4096);
        let mut whole = Part::FRESH;
        let mut parts = vec![];
        for _ in 0..random.below(9) {
            let arrivals: Vec<[u8; 512]> = (0..random.below(5))
                .map(|_| {
                    arrival(Fields {
                        flags: random.pick(&[0x2000, 0x2000, 0x2001, 0]),
                        ..page(random.below(3) as u32, random.pick(&[2, 3]))
                    })
                })
                .collect();
            let mut trace = traced(&mut begun(&bench), &arrivals).concat();
            match random.below(4) {
                0 => trace.extend([0; 513]),
                1 => trace.push(0),
                _ => {}
            }
            let mut one = bench.clone();
            let stop = add(
                &mut whole.report,
                &NO_TABLE,
                &trace,
                &mut one.flash,
                &mut one.seen,
                &mut one.sectors,
                &mut [],
                &mut [],
            );
            whole.traces += 1;
            match stop.unwrap().stop {
                Stop::None => stops[0] += 1,
                Stop::Bad(_) => whole.bad += 1,
                Stop::Differs(_) => whole.differs += 1,
            }
            parts.push(part(&mut bench.clone(), &trace));
        }
        stops[1] += whole.bad;
        stops[2] += whole.differs;
        assert_eq!(by_tree(&mut random, &parts), whole);
    }
    assert!(stops.iter().all(|&n| n > 100), "{stops:?}");
}
