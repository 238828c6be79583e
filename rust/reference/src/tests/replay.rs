//! Traces and where their replay stops (02, L10).

use super::*;
use crate::replay::{replay, Replayed, Stop};

const LEN: usize = 65_536;

/// A record with that answer and "discarded".
pub fn record(answer: u8, discarded: bool, bytes: &[u8]) -> Vec<u8> {
    [&[answer << 3 | u8::from(discarded) << 2], bytes].concat()
}

/// The trace of what a bench answers.
pub fn traced(bench: &mut Bench, arrivals: &[[u8; 512]]) -> Vec<Vec<u8>> {
    let answered = |bytes: &[u8; 512]| {
        let outcome = bench.take(bytes);
        record(outcome.answer, outcome.discarded, bytes)
    };
    arrivals.iter().map(answered).collect()
}

/// A bench as a replay begins: the maps are zero.
pub fn begun(bench: &Bench) -> Bench {
    let mut begun = bench.clone();
    begun.transfer = Transfer::Idle;
    begun.seen.fill(0);
    begun.sectors.fill(0);
    begun
}

/// Replays on the bench, which has the transfer of the end then.
fn replayed(bench: &mut Bench, trace: &[u8]) -> Stop {
    let Replayed { transfer, stop } = replay(
        &bench.settings,
        trace,
        &mut bench.flash,
        &mut bench.seen,
        &mut bench.sectors,
        &mut bench.main,
        &mut bench.xip,
    );
    bench.transfer = transfer;
    stop
}

/// Arrivals that meet many answers, discards among them.
fn arrivals() -> Vec<[u8; 512]> {
    let comment = Fields {
        flags: 0x2001,
        ..page(3, 4)
    };
    let ram = Fields {
        address: 0x2000_0000,
        ..page(3, 4)
    };
    vec![
        arrival(page(0, 3)),
        arrival(page(0, 3)),
        [0; 512],
        arrival(page(2, 4)),
        arrival(comment),
        arrival(ram),
        arrival(page(1, 2)),
        arrival(page(0, 2)),
        arrival(page(0, 2)),
    ]
}

#[test]
fn the_empty_trace() {
    let mut bench = Bench::with_ram(NO_TABLE, LEN);
    let expected = begun(&bench);
    assert_eq!(replayed(&mut bench, &[]), Stop::None);
    assert!(bench == expected);
}

#[test]
fn a_whole_trace() {
    let start = Bench::with_ram(NO_TABLE, LEN);
    let mut expected = begun(&start);
    let trace = traced(&mut expected, &arrivals());
    let heads: Vec<(u8, u8)> = trace.iter().map(|r| (r[0] >> 3, r[0] & 7)).collect();
    let answers = [
        (14, 0),
        (13, 0),
        (4, 0),
        (14, 4),
        (16, 0),
        (14, 4),
        (14, 4),
        (15, 0),
        (12, 0),
    ];
    assert_eq!(heads, answers);
    let mut bench = start.clone();
    // The transfer that the bench has doesn't matter.
    bench.transfer = expected.transfer;
    assert_eq!(replayed(&mut bench, &trace.concat()), Stop::None);
    assert!(bench == expected);
}

/// A record that is wrong in some way stops the replay before it.
#[test]
fn stops() {
    let start = Bench::with_ram(NO_TABLE, LEN);
    for index in 0..arrivals().len() {
        let mut expected = begun(&start);
        let mut trace = traced(&mut expected, &arrivals()[..index]);
        let mut rest = expected.clone();
        trace.extend(traced(&mut rest, &arrivals()[index..]));
        let head = trace[index][0];
        for other in 0..=255 {
            trace[index][0] = other;
            let stop = if other & 3 != 0 {
                Stop::Bad(index)
            } else if other != head {
                Stop::Differs(index)
            } else {
                continue;
            };
            // Not all of the values need the whole of the buffers.
            if other > 7 && other % 29 != 0 && other ^ head != 4 {
                continue;
            }
            let mut bench = start.clone();
            assert_eq!(replayed(&mut bench, &trace.concat()), stop);
            assert!(bench == expected, "{index} {other}");
        }
        trace[index][0] = head;
        let before: usize = index * 513;
        let whole = trace.concat();
        for len in [1, 2, 256, 511, 512] {
            let mut bench = start.clone();
            let stop = replayed(&mut bench, &whole[..before + len]);
            assert_eq!(stop, Stop::Bad(index));
            assert!(bench == expected);
        }
    }
}

/// Stray bits go before a difference, and shortness before both.
#[test]
fn a_bad_record_is_not_compared() {
    let bytes = arrival(ONLY);
    for (trace, stop) in [
        (record(15, false, &bytes), Stop::None),
        (record(14, false, &bytes), Stop::Differs(0)),
        (record(15, true, &bytes), Stop::Differs(0)),
        (record(0, false, &bytes), Stop::Differs(0)),
        (record(31, true, &bytes), Stop::Differs(0)),
        ([&[14 << 3 | 1], &bytes[..]].concat(), Stop::Bad(0)),
        ([&[15 << 3 | 2], &bytes[..]].concat(), Stop::Bad(0)),
        (record(14, false, &bytes[..511]), Stop::Bad(0)),
        (vec![15 << 3], Stop::Bad(0)),
    ] {
        let mut bench = Bench::new(NO_TABLE, LEN);
        assert_eq!(replayed(&mut bench, &trace), stop);
    }
    // What follows a stop is not read.
    let trace = [record(14, false, &bytes), vec![3; 100]].concat();
    let mut bench = Bench::new(NO_TABLE, LEN);
    assert_eq!(replayed(&mut bench, &trace), Stop::Differs(0));
}

/// Refusals of all are answers too, and the maps are zeroed even then.
#[test]
fn wrong_buffers_and_settings() {
    let trace = record(1, false, &arrival(ONLY)).repeat(2);
    for lengths in [
        [100, SEEN_LEN, 0],
        [LEN, 3, SECTORS_LEN],
        [LEN, SEEN_LEN, 7],
    ] {
        let mut bench = Bench::new(NO_TABLE, lengths[0]);
        bench.seen.resize(lengths[1], 0xA7);
        bench.sectors.resize(lengths[2], 0xA7);
        let expected = begun(&bench);
        assert_eq!(replayed(&mut bench, &trace), Stop::None);
        assert!(bench == expected);
    }
    let mut bench = Bench::new(with_table(&[arm_s(0, 0)]), LEN);
    let expected = begun(&bench);
    assert_eq!(replayed(&mut bench, &trace), Stop::Differs(0));
    let trace = record(2, false, &arrival(ONLY)).repeat(2);
    assert_eq!(replayed(&mut bench, &trace), Stop::None);
    assert!(bench == expected);
}
