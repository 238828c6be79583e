//! Settings and transfers as bytes of any content and length: what is no settings is answered 2, what is no state 3, each in its order,
//! and a refusal leaves every byte that was lent.

use compare::{any_settings, arm_only, page, proved_settings, proved_transfer, Buffers, Random};
use proved::{bytes, ENTRIES, SETTINGS_BYTES, TRANSFER_BYTES};
use reference::{Kind, Transfer};

const LEN: usize = 16_384;

/// Where byte i of entry k stands.
fn at(k: usize, i: usize) -> usize {
    6 + (SETTINGS_BYTES - 6) / ENTRIES * k + i
}

fn buffers() -> Buffers {
    Buffers::filled(LEN, 5)
}

/// The result of a block that is right but for what is handed over, by a look, by one take and by all at once.
fn taken(settings: &[u8], transfer: &[u8], arrival: &[u8]) -> u32 {
    let (mut one, mut all) = (transfer.to_vec(), transfer.to_vec());
    let (mut ours, mut theirs) = (buffers(), buffers());
    let looked = ours.look(settings, &one, arrival);
    assert!(one == transfer && ours == buffers(), "a look changes");
    let result = ours.take(settings, &mut one, arrival);
    assert_eq!(looked, result);
    let mut results = [0; 1];
    let number = theirs.take_all(settings, &mut all, arrival, &mut results);
    assert_eq!((number, results[0].into()), (1, result));
    assert!(one == all && ours == theirs);
    if result < 14 {
        assert!(one == transfer && ours == buffers(), "a refusal changes");
    }
    result
}

fn lengths(right: usize) -> impl Iterator<Item = usize> {
    (0..right + 20)
        .chain([2 * right, 65_536])
        .filter(move |&n| n != right)
}

#[test]
fn transfers_of_every_state_and_kind() {
    let s = proved_settings(&arm_only()).bytes();
    let a = page(reference::ARM_S, 4, 1);
    let running = Transfer::Running {
        family: reference::ARM_S,
        total: 4,
        count: 1,
        kind: Kind::Flash,
    };
    for state in 0..=255 {
        for kind in [0, 1, 2, 3, 4, 127, 128, 129, 254, 255] {
            let mut t = proved_transfer(running).bytes();
            (t[0], t[13]) = (state, kind);
            let wanted = match (state, kind) {
                // what is idle has no kind
                (0, _) | (1, 0) => 14,
                // a block of flash discards a transfer of RAM
                (1, 1 | 2) => 14 + 128,
                (2, 0..=2) => 12,
                _ => 3,
            };
            assert_eq!(taken(&s, &t, &a), wanted, "state {state}, kind {kind}");
        }
    }
}

/// What a transfer is, is read back from its bytes; other bytes are no transfer.
#[test]
fn transfers_are_read_back() {
    for kind in compare::KINDS {
        let (family, total) = (0x0102_0304, 0x0506_0708);
        let done = Transfer::Done {
            family,
            total,
            kind,
        };
        let running = Transfer::Running {
            family,
            total,
            count: 0x090A_0B0C,
            kind,
        };
        for transfer in [Transfer::Idle, running, done].map(proved_transfer) {
            let mut bytes = transfer.bytes();
            assert_eq!(proved::Transfer::from_bytes(&bytes), Some(transfer));
            bytes[13] = 3;
            let idle = transfer == proved::Transfer::Idle;
            let wanted = idle.then_some(proved::Transfer::Idle);
            assert_eq!(proved::Transfer::from_bytes(&bytes), wanted);
            bytes[0] = 3;
            assert_eq!(proved::Transfer::from_bytes(&bytes), None);
        }
    }
}

#[test]
fn transfers_of_every_length() {
    let good = proved_settings(&arm_only()).bytes();
    let bad = [0; SETTINGS_BYTES];
    let a = page(reference::ARM_S, 4, 1);
    for n in lengths(TRANSFER_BYTES) {
        for fill in [0, 1, 2, 255] {
            let t = vec![fill; n];
            assert_eq!(taken(&good, &t, &a), 3, "{n} bytes");
            // 2 is asked before
            assert_eq!(taken(&bad, &t, &a), 2, "{n} bytes");
        }
    }
}

#[test]
fn settings_of_every_length() {
    let whole = proved_settings(&arm_only()).bytes();
    let t = proved_transfer(Transfer::Idle).bytes();
    let a = page(reference::ARM_S, 4, 1);
    assert_eq!(taken(&whole, &t, &a), 14);
    for n in lengths(SETTINGS_BYTES) {
        let mut s = whole.to_vec();
        s.resize(n, 0);
        assert_eq!(taken(&s, &t, &a), 2, "{n} bytes");
        // also with a transfer that is no state
        assert_eq!(taken(&s, &[], &a), 2, "{n} bytes");
        let mut place = [9; 8];
        let number = bytes::ask(&s, LEN, reference::ARM_S, &mut place);
        assert_eq!((number, place), (2, [9; 8]), "{n} bytes");
        // 1 is asked before
        assert_eq!(bytes::ask(&s, LEN + 1, reference::ARM_S, &mut place), 1);
    }
}

#[test]
fn links_of_every_kind() {
    let mut r = Random(9);
    let mut bad = 0;
    for _ in 0..2_000 {
        let s = any_settings(&mut r, 40);
        let k = r.below(16) as usize;
        let kind = 3 + r.below(253) as u8;
        let mut b = proved_settings(&s).bytes();
        b[at(k, 31)] = kind;
        let mut changed = s;
        changed.table[k].link = reference::Link::OwnedBy(255);
        let wanted = reference::ask_place(&changed, 40 * 4096, reference::ARM_S);
        let mut place = [9; 8];
        let got = bytes::ask(&b, 40 * 4096, reference::ARM_S, &mut place);
        assert_eq!(got, wanted.err().unwrap_or(0).into());
        if k < usize::from(s.count) {
            assert_eq!(got, 2, "a used entry of link kind {kind}");
            bad += 1;
        }
    }
    assert!(bad > 200);
}

/// A flag is on if its byte is not 0, and bytes of any content get the answer of the settings that they are.
#[test]
fn any_bytes() {
    let mut r = Random(10);
    for _ in 0..20_000 {
        let s = any_settings(&mut r, 40);
        let mut b = proved_settings(&s).bytes();
        let flags = (0..5)
            .chain((0..ENTRIES).flat_map(|k| (24..31).filter(|&i| i != 28).map(move |i| at(k, i))));
        for i in flags {
            if b[i] != 0 {
                b[i] = 1 + r.below(255) as u8;
            }
        }
        // no answer depends on "don't restart", or on a slot that is not used
        for k in 0..ENTRIES {
            b[at(k, 33)] = r.of(&[0, 1, 255]);
            let used = usize::from(b[at(k, 28)].min(4));
            let slots = at(k, 8 + 4 * used)..at(k, 24);
            b[slots].fill(r.draw() as u8);
        }
        let family = r.of(&compare::FAMILIES);
        let wanted = reference::ask_place(&s, 40 * 4096, family);
        let mut place = [0; 8];
        let got = bytes::ask(&b, 40 * 4096, family, &mut place);
        assert_eq!(got, wanted.err().unwrap_or(0).into());
        if let Ok((start, len)) = wanted {
            let two = [start as u32, len as u32].map(u32::to_le_bytes).concat();
            assert_eq!(place, two[..]);
        }
    }
}

#[test]
fn places_of_every_length() {
    let s = proved_settings(&arm_only()).bytes();
    for n in lengths(8) {
        let mut place = vec![9; n];
        assert_eq!(bytes::ask(&s, LEN, reference::ARM_S, &mut place), 1);
        assert!(place.iter().all(|&b| b == 9));
    }
}

#[test]
fn fresh_transfer() {
    assert_eq!(proved::Transfer::new(), proved::Transfer::Idle);
    for n in lengths(TRANSFER_BYTES) {
        let mut transfer = vec![9; n];
        bytes::new(&mut transfer);
        assert!(transfer.iter().all(|&b| b == 9));
    }
}
