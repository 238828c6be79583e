//! Reasons: both name the same condition with the same numbers, and its answer is the look's. COMPARE_ARRIVALS sets how many arrivals are compared.

use compare::{
    any_arrival, any_settings, any_transfer, arrivals_asked, proved_settings, proved_transfer,
    Buffers, Ram, Random, FAMILIES,
};
use reference::why::{why, why_of_bytes, why_place, why_place_of_bytes};
use reference::why::{Why as PlainWhy, WhyPlace};
use tools::why::{explain, explain_place, Lent, Reason, Why};

/// The sectors of the flash, and its pages.
const SECTORS: u64 = 16;
const PAGES: u64 = 16 * SECTORS;

fn lent(b: &Buffers) -> Lent<'_> {
    Lent {
        flash: &b.flash,
        seen: &b.seen,
        sectors: &b.sectors,
        main: &b.main,
        xip: &b.xip,
    }
}

/// A reason of the reference, as ours.
fn of_arrival(w: &PlainWhy) -> Why {
    Why {
        result: u32::from(w.answer) + if w.discarded { 128 } else { 0 },
        reason: Reason {
            cause: w.cause,
            got: w.got,
            against: w.against,
            entry: w.entry,
            other: w.other,
            marks: w.marks,
        },
    }
}

/// The same of a place, which discards nothing.
fn of_place(w: &WhyPlace) -> Why {
    of_arrival(&PlainWhy {
        answer: w.answer,
        discarded: false,
        cause: w.cause,
        got: w.got,
        against: w.against,
        entry: w.entry,
        other: w.other,
        marks: w.marks,
    })
}

#[test]
fn reasons_agree() {
    let mut r = Random(60);
    let mut met = std::collections::BTreeSet::new();
    let mut boards = Ram::EVERY.map(|ram| Buffers::any(&mut r, SECTORS, ram));
    for i in 0..arrivals_asked() {
        let at = i % Ram::EVERY.len();
        let (ram, buffers) = (Ram::EVERY[at], &mut boards[at]);
        let settings = any_settings(&mut r, SECTORS);
        let transfer = any_transfer(&mut r, PAGES);
        let arrival = any_arrival(&mut r, PAGES, ram);
        let wanted = why(
            &settings,
            transfer,
            &arrival,
            &buffers.flash,
            &buffers.seen,
            &buffers.sectors,
            &buffers.main,
            &buffers.xip,
        );
        let bytes = proved_settings(&settings).bytes();
        let state = proved_transfer(transfer).bytes();
        let got = explain(&bytes, &state, &arrival, lent(buffers));
        let looked = proved::bytes::look(&bytes, &state, &arrival, &buffers.lend());
        assert_eq!(got.result, looked, "the look's answer");
        assert_eq!(got, of_arrival(&wanted), "{settings:?} {transfer:?}");
        met.insert(got.reason.cause);
    }
    assert!(met.len() > 20, "{met:?}");
}

#[test]
fn places_agree() {
    let mut r = Random(61);
    for _ in 0..10_000 {
        let sectors = r.of(&[1, 2, 16, 40, 8192]);
        let s = any_settings(&mut r, sectors);
        let bytes = proved_settings(&s).bytes();
        let len = match r.below(12) {
            0 => r.of(&[0, 1, 4095, 4097, 33_554_432 + 4096, usize::MAX]),
            _ => sectors as usize * 4096,
        };
        for family in FAMILIES {
            let wanted = why_place(&s, len, family);
            let got = explain_place(&bytes, len, family);
            assert_eq!(got, of_place(&wanted), "{s:?} {len} {family:x}");
        }
    }
}

/// Bytes that are no settings or no transfer are named as that.
#[test]
fn bytes_that_are_none() {
    let mut r = Random(62);
    let buffers = Buffers::any(&mut r, SECTORS, Ram::EVERY[0]);
    let lent = lent(&buffers);
    let settings = proved::Settings::ARM.bytes();
    let idle = [0; proved::TRANSFER_BYTES];
    let told = |settings: &[u8], transfer: &[u8]| {
        let why = explain(settings, transfer, &[0; 512], lent);
        let r = why.reason;
        (why.result, r.cause, r.got, r.against)
    };
    let right = settings.len() as u64;
    assert_eq!(told(&settings[1..], &idle), (2, 210, right - 1, right));
    links_of_no_kind(&settings, lent);
    assert_eq!(told(&settings, &idle[1..]), (3, 306, 13, 14));
    let mut state = idle;
    state[0] = 3;
    assert_eq!(told(&settings, &state), (3, 307, 3, 2));
    state[0] = 1;
    state[13] = 9;
    assert_eq!(told(&settings, &state), (3, 307, 9, 2));
    assert_eq!(told(&settings, &idle).1, 401);
}

/// Settings as bytes, in which the links of some entries are none: both tell the same of them, of an arrival and of a place alone.
#[test]
fn links_that_are_none() {
    let mut r = Random(63);
    let mut met = std::collections::BTreeMap::new();
    let buffers = Buffers::any(&mut r, SECTORS, Ram::NONE);
    for _ in 0..100_000 {
        let settings = any_settings(&mut r, SECTORS);
        let mut bytes = proved_settings(&settings).bytes();
        let mut no_links = [None; 16];
        for _ in 0..1 + r.below(3) {
            let used = usize::from(settings.count).clamp(1, 16);
            let among = r.of(&[16, used as u64]);
            let k = r.below(among) as usize;
            let byte = 3 + r.below(253) as u8;
            no_links[k] = Some(byte);
            bytes[6 + 34 * k + 31] = byte;
        }
        let arrival = any_arrival(&mut r, PAGES, Ram::NONE);
        let b = &buffers;
        let idle = reference::Transfer::Idle;
        let wanted = why_of_bytes(
            &settings, &no_links, idle, &arrival, &b.flash, &b.seen, &b.sectors, &b.main, &b.xip,
        );
        let got = explain(&bytes, &[0; proved::TRANSFER_BYTES], &arrival, lent(b));
        assert_eq!(got, of_arrival(&wanted), "{settings:?} {no_links:?}");
        let family = r.of(&FAMILIES);
        let wanted = why_place_of_bytes(&settings, &no_links, b.flash.len(), family);
        let placed = explain_place(&bytes, b.flash.len(), family);
        assert_eq!(placed, of_place(&wanted), "{settings:?} {no_links:?}");
        *met.entry(got.reason.cause).or_insert(0) += 1;
    }
    for cause in [201, 202, 203, 204, 205, 206, 211] {
        assert!(met.get(&cause).is_some_and(|&n| n > 50), "{met:?}");
    }
}

/// A link that is none is told with the first entry that has one, after the current architecture and the count.
fn links_of_no_kind(settings: &[u8], lent: Lent) {
    let idle = [0; proved::TRANSFER_BYTES];
    let told = |settings: &[u8], arrival: &[u8]| {
        let why = explain(settings, &idle, arrival, lent);
        let placed = explain_place(settings, lent.flash.len(), 0xe48b_ff59);
        let (r, p) = (why.reason, placed.reason);
        if why.result == 2 {
            assert_eq!((placed.result, p.cause, p.got), (2, r.cause, r.got));
            assert_eq!((p.against, p.entry, p.marks), (r.against, r.entry, r.marks));
        }
        assert_eq!((r.other, r.marks), (0, [0; 16]));
        (why.result, r.cause, r.got, r.against, r.entry)
    };
    let mut good = settings.to_vec();
    good[5] = 16;
    for k in 0..16 {
        // a sector each
        good[6 + 34 * k] = k as u8;
        good[6 + 34 * k + 4] = 1;
    }
    assert_eq!(told(&good, &[0; 512]).1, 401);
    for k in 0..16_u8 {
        for kind in 3..=255 {
            let mut bytes = good.clone();
            bytes[6 + 34 * usize::from(k) + 31] = kind;
            bytes[6 + 34 * 15 + 31] = if k < 15 { 3 } else { kind };
            let of_entry = (2, 211, u64::from(kind), 2, k);
            assert_eq!(told(&bytes, &[0; 512]), of_entry);
            assert_eq!(told(&bytes, &[0; 511]), (1, 101, 511, 512, 0));
            bytes[6 + 34 * 15 + 4] = 0; // the last entry has no sectors
            assert_eq!(told(&bytes, &[0; 512]), (2, 203, 0, 0, 15));
            bytes[0] = 0; // the current architecture is off
            assert_eq!(told(&bytes, &[0; 512]).1, 201);
            bytes[5] = 17;
            assert_eq!(told(&bytes, &[0; 512]).1, 201);
            bytes[0] = 1;
            assert_eq!(told(&bytes, &[0; 512]), (2, 202, 17, 16, 0));
            bytes[5] = k; // entry k is not used
            assert_ne!(told(&bytes, &[0; 512]).1, 211);
        }
    }
}
