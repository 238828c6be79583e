//! Traces replayed, beside the reference: recorded lists, with every recorded byte set to each of its values, pieces cut short, and wrong
//! lengths; 01's file of two blocks.

use compare::region::any_region;
use compare::{
    any_arrival, any_settings, arm_only, join, page, proved_settings, proved_transfer, Buffers,
    Pair, Ram, Random,
};
use reference::{Kind, Settings, Transfer, ARM_S};
use tools::trace::{record, replay, replay_bytes, Stop, RECORD_BYTES};

/// How many lists are recorded.
const LISTS: usize = 2_000;

fn plain_stop(stop: reference::replay::Stop) -> Stop {
    match stop {
        reference::replay::Stop::None => Stop::None,
        reference::replay::Stop::Bad(i) => Stop::Bad(i),
        reference::replay::Stop::Differs(i) => Stop::Differs(i),
    }
}

/// Both replays of a trace, with what is lent: the same stop, the same transfer and the same buffers at the end, which they are.
fn both(settings: &Settings, trace: &[u8], lent: &Buffers) -> (Stop, Transfer, Buffers) {
    let (mut ours, mut theirs) = (lent.clone(), lent.clone());
    let got = replay(&proved_settings(settings), trace, &mut ours.lend());
    let [flash, seen, sectors, main, xip] = theirs.each();
    let wanted = reference::replay::replay(settings, trace, flash, seen, sectors, main, xip);
    assert_eq!(got.stop, plain_stop(wanted.stop), "stop");
    assert_eq!(got.transfer, proved_transfer(wanted.transfer), "transfer");
    assert!(ours == theirs, "buffers");
    (got.stop, wanted.transfer, ours)
}

/// A bench as a replay begins: Idle, both maps zero.
fn begun(settings: Settings, lent: &Buffers) -> Pair {
    let mut begun = lent.clone();
    begun.seen.fill(0);
    begun.sectors.fill(0);
    Pair::new(settings, Transfer::Idle, begun)
}

/// The record of an arrival that the pair takes.
fn recorded(pair: &mut Pair, a: &[u8]) -> Vec<u8> {
    let (answer, discarded) = pair.told(a);
    [&[answer << 3 | u8::from(discarded) << 2], a].concat()
}

/// Some arrivals, each 512 bytes long, taken and recorded: the trace, and the pair after it.
fn any_trace(r: &mut Random, settings: Settings, lent: &Buffers, ram: Ram) -> (Vec<u8>, Pair) {
    let mut pair = begun(settings, lent);
    let pages = (lent.flash.len() / 256) as u64;
    let mut sent: Vec<Vec<u8>> = Vec::new();
    let mut trace = Vec::new();
    for _ in 0..1 + r.below(6) {
        let mut a = if !sent.is_empty() && r.one_in(3) {
            sent[r.below(sent.len() as u64) as usize].clone()
        } else {
            any_arrival(r, pages, ram)
        };
        a.resize(512, 0);
        if r.one_in(3) {
            join(r, &mut a, pair.transfer);
        }
        if r.one_in(4) {
            let family = u32::from_le_bytes([a[28], a[29], a[30], a[31]]);
            let place = reference::ask_place(&settings, lent.flash.len(), family);
            any_region(
                r,
                &mut a,
                &pair.ours.flash,
                place.map_or(0, |(start, _)| start),
            );
        }
        trace.extend(recorded(&mut pair, &a));
        sent.push(a);
    }
    (trace, pair)
}

/// Every recorded byte, set to each of its 256 values: bad where it has stray bits, else differs, and the end is that before it.
fn every_value(settings: &Settings, trace: &[u8], lent: &Buffers, met: &mut [usize; 3]) {
    for index in 0..trace.len() / RECORD_BYTES {
        let at = index * RECORD_BYTES;
        let (stop, transfer, before) = both(settings, &trace[..at], lent);
        assert_eq!(stop, Stop::None);
        // what follows the stop is not replayed: one record after it is enough
        let to = trace.len().min(at + 2 * RECORD_BYTES);
        let mut changed = trace[..to].to_vec();
        for value in 0..=255 {
            if value == trace[at] {
                continue;
            }
            changed[at] = value;
            let wanted = if value % 4 != 0 {
                Stop::Bad(index)
            } else {
                Stop::Differs(index)
            };
            let mut ours = lent.clone();
            let got = replay(&proved_settings(settings), &changed, &mut ours.lend());
            assert_eq!(got.stop, wanted, "value {value:#x}");
            assert_eq!(got.transfer, proved_transfer(transfer), "value {value:#x}");
            assert!(ours == before, "value {value:#x}");
            // the reference too, at a part of the values
            if value % 16 == trace[at] % 16 {
                both(settings, &changed, lent);
            }
            met[if value % 4 != 0 { 1 } else { 2 }] += 1;
        }
    }
}

#[test]
fn recorded_lists_agree() {
    let mut r = Random(70);
    let mut met = [0; 3];
    for list in 0..LISTS {
        let sectors = r.of(&[1, 1, 2]);
        let settings = any_settings(&mut r, sectors);
        // main RAM is half a megabyte to copy for each value
        let ram = Ram {
            main: list % 100 == 0,
            xip: list % 8 == 0,
        };
        let lent = Buffers::any(&mut r, sectors, ram);
        let (trace, pair) = any_trace(&mut r, settings, &lent, ram);
        let (stop, transfer, end) = both(&settings, &trace, &lent);
        assert_eq!(stop, Stop::None);
        assert_eq!(transfer, pair.transfer);
        assert!(end == pair.ours, "the end is that of the takes");
        met[0] += 1;
        let cut = 1 + r.below(512) as usize;
        let (stop, ..) = both(&settings, &trace[..trace.len() - cut], &lent);
        assert_eq!(stop, Stop::Bad(trace.len() / RECORD_BYTES - 1));
        every_value(&settings, &trace, &lent, &mut met);
    }
    assert_eq!(met[0], LISTS);
    assert!(met[1] > 500_000 && met[2] > 150_000, "{met:?}");
}

/// 01's file of two blocks, sent as 0, 0, 1.
#[test]
fn the_file_of_two_blocks() {
    let settings = arm_only();
    let lent = Buffers::filled(32_768, 0x5A);
    let block = |k| page(ARM_S, 2, k);
    let trace = |heads: [u8; 3]| {
        let pieces = heads.iter().zip([0, 0, 1]);
        let pieces = pieces.map(|(&head, k)| [&[head], &block(k)[..]].concat());
        pieces.collect::<Vec<_>>().concat()
    };
    let running = Transfer::Running {
        family: ARM_S,
        total: 2,
        count: 1,
        kind: Kind::Flash,
    };
    let done = Transfer::Done {
        family: ARM_S,
        total: 2,
        kind: Kind::Flash,
    };
    let told = |trace: &[u8]| {
        let (stop, transfer, _) = both(&settings, trace, &lent);
        (stop, transfer)
    };
    let whole = trace([0x70, 0x68, 0x78]);
    assert_eq!(told(&whole), (Stop::None, done));
    assert_eq!(
        told(&trace([0x70, 0x70, 0x78])),
        (Stop::Differs(1), running)
    );
    assert_eq!(told(&trace([0x70, 0x6a, 0x78])), (Stop::Bad(1), running));
    assert_eq!(told(&whole[..whole.len() - 1]), (Stop::Bad(2), running));
    let (stop, transfer, end) = both(&settings, &[], &lent);
    assert_eq!((stop, transfer), (Stop::None, Transfer::Idle));
    assert!(end.flash == lent.flash && end.seen.iter().all(|&b| b == 0));
    let outcome = proved::Outcome {
        answer: proved::Answer::Again,
        discarded: false,
    };
    assert_eq!(record(outcome), 0x68);
}

/// Buffers, settings, a transfer and an index of wrong lengths: each arrival is answered, and what has not its length stays.
#[test]
fn wrong_lengths() {
    let mut r = Random(71);
    let settings = arm_only();
    let bytes = proved_settings(&settings).bytes();
    let block = page(ARM_S, 2, 0);
    let one = [&[1 << 3], &block[..]].concat().repeat(2);
    let two = [&[2 << 3], &block[..]].concat().repeat(2);
    for which in 0..5 {
        for n in [1, 100, 1023, 1025, 16_383, 16_385] {
            let mut lent = Buffers::any(&mut r, 2, Ram::BOTH);
            lent.each()[which].resize(n, 0xA7);
            assert_eq!(both(&settings, &one, &lent).0, Stop::None);
            assert_eq!(both(&settings, &two, &lent).0, Stop::Differs(0));
        }
    }
    let lent = Buffers::any(&mut r, 2, Ram::NONE);
    let right = proved_transfer(Transfer::Idle).bytes();
    for settings_len in [0, bytes.len() - 1, bytes.len()] {
        for transfer_len in [0, 13, 14, 15] {
            for index_len in [0, 4, 7, 8, 9] {
                let mut transfer = vec![0xA5; transfer_len];
                let mut index = vec![0xA5; index_len];
                let mut ours = lent.clone();
                let number = replay_bytes(
                    &bytes[..settings_len],
                    &two,
                    &mut ours.lend(),
                    &mut transfer,
                    &mut index,
                );
                assert_eq!(number, if settings_len == bytes.len() { 2 } else { 0 });
                assert!(
                    transfer
                        == if transfer_len == 14 {
                            right.to_vec()
                        } else {
                            vec![0xA5; transfer_len]
                        }
                );
                let written = index_len == 8 && number != 0;
                assert!(index == vec![if written { 0 } else { 0xA5 }; index_len]);
            }
        }
    }
}
