//! Pages that stand already, beside the reference and beside the looks and takes of both. COMPARE_ARRIVALS sets how many arrivals are compared.

use compare::adapter;
use compare::files::{any_case, distinct};
use compare::region::any_region;
use compare::{any_arrival, any_settings, arm_only, arrival, arrivals_asked, Buffers, Fields, Ram};
use compare::{Random, FAMILIES};
use reference::{Settings, Transfer, ARM_S};

/// The sectors of the flash, and its pages.
const SECTORS: u64 = 16;
const PAGES: u64 = 16 * SECTORS;

/// What both say; what is lent is only read.
fn both(s: &Settings, a: &[u8], lent: &Buffers) -> u8 {
    let wanted = reference::stands::stands(s, a, &lent.flash, &lent.main, &lent.xip);
    let got = adapter::stands(s, a, lent);
    assert_eq!(got, wanted, "{s:?}");
    wanted
}

/// Whether a take leaves every memory as it is, where no sector is erased first since all are marked.
fn take_changes_nothing(s: &Settings, a: &[u8], lent: &Buffers) -> bool {
    let mut after = lent.clone();
    (after.seen, after.sectors) = (vec![0; 16_384], vec![0xFF; 1_024]);
    let field = |at: usize| u32::from_le_bytes([a[at], a[at + 1], a[at + 2], a[at + 3]]);
    let (family, total) = (field(28), field(24));
    // a transfer that the block goes on with, so that no map is cleared
    let kind = match field(12) {
        0x2000_0000.. => reference::Kind::MainRam,
        0x13ff_c000.. => reference::Kind::XipRam,
        _ => reference::Kind::Flash,
    };
    let running = Transfer::Running {
        family,
        total,
        count: 1,
        kind,
    };
    let told = after.plain_take(s, running, a);
    assert!(told.answer >= 14 && !told.discarded, "{}", told.answer);
    after.flash == lent.flash && after.main == lent.main && after.xip == lent.xip
}

#[test]
fn arrivals_agree() {
    let mut r = Random(95);
    let mut met = [0u64; 97];
    let mut lent = Ram::EVERY.map(|ram| Buffers::any(&mut r, SECTORS, ram));
    for i in 0..arrivals_asked() {
        let at = i % Ram::EVERY.len();
        let (ram, buffers) = (Ram::EVERY[at], &mut lent[at]);
        let settings = if r.one_in(3) {
            arm_only()
        } else {
            any_settings(&mut r, SECTORS)
        };
        let mut a = any_arrival(&mut r, PAGES, ram);
        if r.one_in(8) {
            any_region(&mut r, &mut a, &buffers.flash, 0);
        }
        if r.one_in(50) {
            a.resize(r.of(&[0, 511, 513]), 0);
        }
        // the page is stored first, in a half; then one byte of the memory may be another
        if r.one_in(2) {
            buffers.seen.fill(0);
            buffers.plain_take(&settings, Transfer::Idle, &a);
            if r.one_in(3) {
                let memory = r.below(3);
                let bytes = match memory {
                    0 => &mut buffers.flash,
                    1 if ram.main => &mut buffers.main,
                    _ if ram.xip => &mut buffers.xip,
                    _ => &mut buffers.flash,
                };
                let near = a
                    .get(12..16)
                    .map_or(0, |b| u32::from_le_bytes([b[0], b[1], b[2], b[3]]));
                let at = (near & 0x0007_FFFF) as usize + r.below(258) as usize;
                let len = bytes.len();
                bytes[at % len] ^= 1 << r.below(8);
            }
        }
        let told = both(&settings, &a, buffers);
        met[usize::from(told)] += 1;
        let (looked, _) = buffers.plain_look(&settings, Transfer::Idle, &a);
        if told <= 11 {
            assert_eq!(looked, told, "as an Idle board's look answers");
        } else {
            assert!(looked >= 14, "{looked}");
        }
    }
    let least = arrivals_asked() as u64 / 10_000;
    for number in [1, 2, 4, 5, 7, 8, 9, 10, 11, 95, 96] {
        assert!(met[number] >= least, "{number}: {met:?}");
    }
}

/// 95 exactly if a take would store what is there.
#[test]
fn beside_a_take() {
    let mut r = Random(96);
    let mut met = [0; 2];
    for _ in 0..20_000 {
        let ram = Ram {
            main: r.one_in(50),
            xip: r.one_in(4),
        };
        let mut lent = Buffers::any(&mut r, 2, ram);
        let settings = any_settings(&mut r, 2);
        let mut a = any_arrival(&mut r, 32, ram);
        a[8] &= !1; // a page
        a[9] &= !0x40; // that names no region
        a[24..28].copy_from_slice(&r.of(&[2_u32, 3, 16]).to_le_bytes());
        if r.one_in(2) {
            lent.plain_take(&settings, Transfer::Idle, &a);
        }
        let told = both(&settings, &a, &lent);
        if told >= 95 {
            assert_eq!(take_changes_nothing(&settings, &a, &lent), told == 95);
            met[usize::from(told) - 95] += 1;
        }
    }
    assert!(met.iter().all(|&n| n > 500), "{met:?}");
}

/// Every byte of a page counts and none beside it, at the first, an odd and the last address of each memory.
#[test]
fn every_byte_of_a_page() {
    let mut r = Random(97);
    let settings = arm_only();
    let mut lent = Buffers::any(&mut r, SECTORS, Ram::BOTH);
    for (address, at) in [
        (0x1000_0000, 0),
        (0x1000_3100, 0x3100),
        (0x1000_FF00, 0xFF00),
        (0x2000_0000, 0),
        (0x2000_0301, 0x301),
        (0x2008_1F00, 0x8_1F00),
        (0x13ff_c000, 0),
        (0x13ff_c0ff, 0xff),
        (0x13ff_ff00, 0x3f00),
    ] {
        let fields = Fields {
            flags: 0x2000,
            address,
            size: 256,
            number: 1,
            total: 3,
            family: ARM_S,
        };
        let a = arrival(fields, r.draw());
        assert_eq!(both(&settings, &a, &lent), 96);
        let memory = |lent: &mut Buffers, at: usize| match address {
            0x2000_0000.. => lent.main.get_mut(at).map(|byte| *byte ^= 1),
            0x13ff_c000.. => lent.xip.get_mut(at).map(|byte| *byte ^= 1),
            _ => lent.flash.get_mut(at).map(|byte| *byte ^= 1),
        };
        lent.plain_take(&settings, Transfer::Idle, &a);
        assert_eq!(both(&settings, &a, &lent), 95);
        for k in 0..256 {
            memory(&mut lent, at + k);
            assert_eq!(both(&settings, &a, &lent), 96, "byte {k}");
            memory(&mut lent, at + k);
        }
        memory(&mut lent, at.wrapping_sub(1));
        memory(&mut lent, at + 256);
        assert_eq!(both(&settings, &a, &lent), 95);
        // a comment has no page
        let comment = arrival(
            Fields {
                flags: 0x2001,
                ..fields
            },
            r.draw(),
        );
        assert_eq!(both(&settings, &comment, &lent), 95);
    }
}

/// Lengths of every kind, for each family.
#[test]
fn lengths_and_families() {
    let fields = |family| Fields {
        flags: 0x2000,
        address: 0x1000_0000,
        size: 256,
        number: 0,
        total: 1,
        family,
    };
    for family in FAMILIES {
        let a = arrival(fields(family), 1);
        for flash in [0, 1, 4_095, 4_096, 4_097, 8_192] {
            for main in [0, 1, 532_479, 532_480, 532_481] {
                for xip in [0, 16_383, 16_384, 16_385] {
                    let mut lent = Buffers::filled(flash, 0x5A);
                    (lent.main, lent.xip) = (vec![0; main], vec![0; xip]);
                    // maps are not asked for
                    (lent.seen, lent.sectors) = (vec![], vec![]);
                    let told = both(&arm_only(), &a, &lent);
                    let right = matches!(flash, 4_096 | 8_192)
                        && matches!(main, 0 | 532_480)
                        && matches!(xip, 0 | 16_384);
                    assert_eq!(told == 1, !right);
                    assert_eq!(both(&arm_only(), &a[1..], &lent), 1);
                }
            }
        }
    }
}

/// Every piece of a valid file stands once the file was sent, in any order; of random content before that, no page does.
#[test]
fn files_that_were_sent() {
    let mut r = Random(98);
    let mut met = 0;
    for _ in 0..3_000 {
        let mut case = any_case(&mut r);
        distinct(&mut case.pieces);
        let [flash, main, xip] = case.lens();
        let found = reference::check::check(&case.settings, &case.file(), flash, main, xip);
        if found.number() != 0 {
            continue;
        }
        let mut lent = Buffers::any(&mut r, case.sectors, case.ram);
        for a in &case.pieces {
            let comment = a[8] & 1 != 0;
            let wanted = if comment { 95 } else { 96 };
            assert_eq!(both(&case.settings, a, &lent), wanted);
        }
        r.shuffle(&mut case.pieces);
        let mut transfer = Transfer::Idle;
        for a in &case.pieces {
            transfer = lent.plain_take(&case.settings, transfer, a).transfer;
            assert_eq!(both(&case.settings, a, &lent), 95);
        }
        for a in &case.pieces {
            assert_eq!(both(&case.settings, a, &lent), 95);
        }
        met += 1;
    }
    assert!(met > 1_000, "{met}");
}
