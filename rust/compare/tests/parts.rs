//! Parts of reports, beside the reference: lists of traces cut anywhere and merged by any tree, beside one call after another; the edges of
//! 70 and 71.

use compare::adapter::{merge, part_of};
use compare::report::{plain_part, proved_part, NUMBERS};
use compare::{any_arrival, any_settings, arm_only, join, page, Buffers, Ram, Random};
use reference::figures::{add, Report};
use reference::parts::{self, Part};
use reference::replay::Stop;
use reference::{Settings, Transfer, ARM_S};
use tools::part::{merge_bytes, one_bytes, PART_BYTES};
use tools::report::REPORT_BYTES;

/// How many lists are cut and merged.
const LISTS: usize = 5_000;

/// Both merge: the same result and the same part, and a refusal leaves the first.
fn merged(a: Part, b: Part) -> Result<Part, u32> {
    let (mut ours, mut theirs) = (a, a);
    let got = merge(&mut ours, &b);
    let wanted = parts::merge(&mut theirs, &b);
    assert_eq!(got, wanted, "{a:?} {b:?}");
    assert_eq!(ours, theirs, "{a:?} {b:?}");
    assert!(got.is_ok() || ours == a, "a refusal leaves the first");
    got.map(|()| ours)
}

/// The part of one trace, the same on both sides, with the same buffers after it.
fn part(s: &Settings, trace: &[u8], lent: &Buffers) -> Part {
    let (mut ours, mut theirs) = (lent.clone(), lent.clone());
    let got = part_of(s, trace, &mut ours);
    let [flash, seen, sectors, main, xip] = theirs.each();
    let wanted = parts::part_of(s, trace, flash, seen, sectors, main, xip);
    assert_eq!(got, wanted);
    assert!(ours == theirs, "buffers");
    got.expect("a short trace is not refused")
}

/// Some arrivals recorded from Idle by the reference, now and then damaged or cut.
fn any_trace(r: &mut Random, s: &Settings, lent: &Buffers) -> Vec<u8> {
    let mut board = lent.clone();
    board.seen.fill(0);
    board.sectors.fill(0);
    let mut transfer = Transfer::Idle;
    let mut trace = Vec::new();
    for _ in 0..r.below(5) {
        let mut a = any_arrival(r, (lent.flash.len() / 256) as u64, Ram::NONE);
        if r.one_in(2) {
            join(r, &mut a, transfer);
        }
        let told = board.plain_take(s, transfer, &a);
        transfer = told.transfer;
        trace.push(told.answer << 3 | u8::from(told.discarded) << 2);
        trace.extend(a);
    }
    if !trace.is_empty() && r.one_in(3) {
        let index = r.below((trace.len() / 513) as u64) as usize;
        trace[index * 513] = r.draw() as u8;
    }
    if r.one_in(8) {
        trace.truncate(trace.len() - r.below(trace.len() as u64 + 1) as usize);
    }
    trace
}

/// The parts of a list, merged by a tree of any shape; now and then with one over no trace.
fn by_tree(r: &mut Random, list: &[Part]) -> Part {
    if r.one_in(6) {
        let whole = by_tree(r, list);
        let (a, b) = if r.one_in(2) {
            (whole, Part::FRESH)
        } else {
            (Part::FRESH, whole)
        };
        return merged(a, b).expect("few records");
    }
    match list {
        [] => Part::FRESH,
        [one] => *one,
        _ => {
            let cut = 1 + r.below(list.len() as u64 - 1) as usize;
            let (a, b) = list.split_at(cut);
            merged(by_tree(r, a), by_tree(r, b)).expect("few records")
        }
    }
}

#[test]
fn trees_beside_one_call_after_another() {
    let mut r = Random(70);
    let (mut stops, mut missing, mut discards) = ([0; 3], 0, 0);
    for _ in 0..LISTS {
        let mut list = Vec::new();
        let mut report = Report::FRESH;
        let mut stopped = [0; 3];
        for _ in 0..r.below(10) {
            // settings and buffers are each trace's own
            let settings = any_settings(&mut r, 1);
            let mut lent = Buffers::any(&mut r, 1, Ram::NONE);
            if r.one_in(40) {
                lent.sectors.pop();
            }
            let trace = any_trace(&mut r, &settings, &lent);
            list.push(part(&settings, &trace, &lent));
            let [flash, seen, sectors, main, xip] = lent.each();
            let told = add(
                &mut report,
                &settings,
                &trace,
                flash,
                seen,
                sectors,
                main,
                xip,
            );
            stopped[match told.expect("few records").stop {
                Stop::None => 0,
                Stop::Bad(_) => 1,
                Stop::Differs(_) => 2,
            }] += 1;
        }
        let whole = Part {
            report,
            traces: list.len() as u32,
            bad: stopped[1],
            differs: stopped[2],
        };
        assert_eq!(by_tree(&mut r, &list), whole);
        assert_eq!(by_tree(&mut r, &list), whole, "another tree");
        for (sum, n) in stops.iter_mut().zip(stopped) {
            *sum += n;
        }
        missing += u32::from(report.missing.is_some());
        discards += report.discards;
    }
    assert!(stops.iter().all(|&n| n > 1_000), "{stops:?}");
    assert!(missing > 500 && discards > 500, "{missing} {discards}");
}

/// A part of so many records with answer 14 and so many traces.
fn of(records: u32, traces: u32) -> Part {
    let mut part = Part {
        traces,
        ..Part::FRESH
    };
    part.report.records = records;
    part.report.answers[14] = records;
    part
}

#[test]
fn the_edges_of_70() {
    let most = u32::MAX;
    for (a, b, refused) in [
        (of(most, 1), of(0, 1), false),
        (of(most, 1), of(1, 1), true),
        (of(most - 1, 1), of(1, 1), false),
        (of(most - 1, 1), of(2, 1), true),
        (of(most, 1), of(most, 1), true),
        (of(0, most), of(0, 1), true),
        (of(0, most - 1), of(0, 1), false),
        (of(0, most), of(0, most), true),
        (of(most, most), Part::FRESH, false),
        (of(1 << 31, 1 << 31), of(1 << 31, 5), true),
        (of(5, 1 << 31), of(6, 1 << 31), true),
        (
            of((1 << 31) - 1, 1 << 31),
            of(1 << 31, (1 << 31) - 1),
            false,
        ),
    ] {
        assert_eq!(merged(a, b).err(), refused.then_some(70));
        assert_eq!(merged(b, a).err(), refused.then_some(70));
    }
    // every figure at its largest
    let full = |n| {
        let mut part = of(n, n);
        (part.report.discards, part.bad) = (n, n);
        (part.report.marked, part.report.missing) = (most, Some(most));
        part
    };
    assert_eq!(merged(full(most - 1), full(1)), Ok(full(most)));
    assert_eq!(merged(full(most), full(1)), Err(70));
}

#[test]
fn the_edges_of_71() {
    let mut good = of(10, 3);
    (good.report.marked, good.report.missing) = (77, Some(88));
    let with = |change: fn(&mut Part)| {
        let mut part = good;
        change(&mut part);
        part
    };
    let fresh_with = |change: fn(&mut Part)| {
        let mut part = Part::FRESH;
        change(&mut part);
        part
    };
    let mut bad = vec![
        with(|p| p.report.records = 9),
        with(|p| p.report.records = 11),
        with(|p| p.report.discards = 11),
        with(|p| {
            for n in NUMBERS {
                p.report.answers[n] = u32::MAX;
            }
        }),
        with(|p| (p.report.answers[14], p.report.answers[4]) = (u32::MAX, 11)),
        with(|p| p.bad = 4),
        with(|p| p.differs = 4),
        with(|p| (p.bad, p.differs) = (2, 2)),
        with(|p| (p.bad, p.differs) = (u32::MAX, 1)),
        with(|p| (p.bad, p.differs) = (u32::MAX, 4)),
        with(|p| p.traces = 0),
        of(1, 0),
        fresh_with(|p| p.report.marked = 1),
        fresh_with(|p| p.report.missing = Some(0)),
        fresh_with(|p| p.report.missing = Some(7)),
        fresh_with(|p| p.report.discards = 1),
        fresh_with(|p| p.bad = 1),
        fresh_with(|p| p.differs = 1),
    ];
    for answer in NUMBERS {
        let mut part = good;
        part.report.answers[answer] += 1;
        bad.push(part);
        let mut part = Part::FRESH;
        part.report.answers[answer] = 1;
        bad.push(part);
    }
    for part in bad {
        for other in [good, Part::FRESH, part, of(u32::MAX, u32::MAX)] {
            assert_eq!(merged(part, other), Err(71), "{part:?}");
            assert_eq!(merged(other, part), Err(71), "{part:?}");
        }
    }
    for part in [
        good,
        with(|p| p.report.discards = 10),
        with(|p| p.bad = 3),
        with(|p| p.differs = 3),
        with(|p| (p.bad, p.differs) = (1, 2)),
        of(0, 1),
        of(1, 1),
        Part::FRESH,
    ] {
        for other in [good, Part::FRESH] {
            assert!(merged(part, other).is_ok() && merged(other, part).is_ok());
        }
    }
}

/// Parts whose figures are at or near their bounds, of every mixture.
#[test]
fn parts_of_any_figures() {
    let mut r = Random(71);
    let mut met = [0; 3];
    let any = |r: &mut Random| {
        let near = |r: &mut Random| r.of(&[0, 0, 1, 2, 3, 1 << 31, u32::MAX - 1, u32::MAX]);
        let mut part = of(near(r), near(r));
        (part.report.discards, part.bad) = (near(r), near(r));
        if r.one_in(2) {
            part.report.discards = part.report.discards.min(part.report.records);
            part.bad = part.bad.min(part.traces);
            part.differs = part.traces - part.bad;
        }
        if r.one_in(4) {
            let answer = r.of(&NUMBERS);
            part.report.answers[answer] = near(r);
        }
        if part.traces != 0 && r.one_in(2) {
            let missing = near(r);
            part.report.marked = near(r);
            part.report.missing = r.of(&[None, Some(missing)]);
        }
        part
    };
    for _ in 0..100_000 {
        let (a, b) = (any(&mut r), any(&mut r));
        met[match merged(a, b) {
            Ok(_) => 0,
            Err(70) => 1,
            _ => 2,
        }] += 1;
    }
    assert!(met.iter().all(|&n| n > 1_000), "{met:?}");
}

/// The part of an empty trace, of one that stops at once, and of one whose transfer is Running, Done or was never begun.
#[test]
fn parts_of_one_trace() {
    let s = arm_only();
    let lent = Buffers::filled(4_096, 0x5A);
    let record = |answer: u8, a: &[u8]| [&[answer << 3], a].concat();
    let first = record(14, &page(ARM_S, 2, 0));
    let last = record(15, &page(ARM_S, 2, 1));
    for (trace, figures) in [
        (vec![], (0, 0, 0, 0, None)),
        (vec![0], (0, 1, 0, 0, None)),
        (record(14, &[0; 512]), (0, 0, 1, 0, None)),
        (first.clone(), (1, 0, 0, 1, Some(1))),
        ([first.clone(), last.clone()].concat(), (2, 0, 0, 2, None)),
        (
            [first.clone(), first.clone()].concat(),
            (1, 0, 1, 1, Some(1)),
        ),
        (
            [first, last[..512].to_vec()].concat(),
            (1, 1, 0, 1, Some(1)),
        ),
    ] {
        let got = part(&s, &trace, &lent);
        let report = got.report;
        assert_eq!(got.traces, 1);
        assert_eq!(
            (
                report.records,
                got.bad,
                got.differs,
                report.marked,
                report.missing
            ),
            figures
        );
    }
}

/// Bytes of every length near a part's: another length is 71 on either side, and a refusal leaves every byte.
#[test]
fn bytes_of_any_length() {
    let good = proved_part(&of(2, 1)).bytes();
    let long = |len: usize| [&good[..], &good[..]].concat()[..len].to_vec();
    let lens = [0, 1, 84, 95, 96, 97, 192];
    for a_len in lens {
        for b_len in lens {
            let mut a = long(a_len);
            let number = merge_bytes(&mut a, &long(b_len));
            let right = a_len == PART_BYTES && b_len == PART_BYTES;
            assert_eq!(number, if right { 0 } else { 71 }, "{a_len} {b_len}");
            assert!(right || a == long(a_len));
        }
    }
    let report = &good[..REPORT_BYTES];
    for report_len in [0, 83, 84, 85] {
        for part_len in lens {
            for stop in [0, 1, 2, 3, 70, 71, u32::MAX] {
                let mut part = vec![0xA5; part_len];
                let number = one_bytes(&long(report_len), stop, &mut part);
                let right = report_len == REPORT_BYTES && part_len == PART_BYTES && stop <= 2;
                assert_eq!(number, if right { 0 } else { 71 });
                assert!(right || part == vec![0xA5; part_len]);
                assert!(!right || part[..REPORT_BYTES] == *report);
            }
        }
    }
}

/// Parts of any bytes: what is told of them is what is told of the parts that they are, whatever stands for a number that is not missing; and a
/// refusal leaves every byte.
#[test]
fn parts_of_any_bytes() {
    let mut r = Random(72);
    let mut met = [0; 3];
    let any = |r: &mut Random| {
        let mut bytes = proved_part(&of(r.below(3) as u32, r.below(3) as u32)).bytes();
        for _ in 0..r.below(3) {
            let at = r.below(PART_BYTES as u64) as usize;
            bytes[at] = r.of(&[0, 1, 2, 255]);
        }
        bytes
    };
    for _ in 0..200_000 {
        let (a, b) = (any(&mut r), any(&mut r));
        let mut ours = a;
        let number = merge_bytes(&mut ours, &b);
        let part = |bytes| plain_part(&tools::part::Part::from_bytes(bytes));
        let mut wanted = part(&a);
        let told = parts::merge(&mut wanted, &part(&b));
        assert_eq!(number, told.err().unwrap_or(0), "{a:?} {b:?}");
        assert_eq!(part(&ours), wanted, "{a:?} {b:?}");
        assert!(number == 0 || ours == a, "a refusal leaves every byte");
        met[match number {
            0 => 0,
            70 => 1,
            _ => 2,
        }] += 1;
    }
    assert!(met[0] > 1_000 && met[2] > 1_000, "{met:?}");
}
