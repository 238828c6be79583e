//! Pages that stand already.

use super::*;
use crate::stands::stands;

const LEN: usize = 65_536;
const MAIN: u32 = 0x2000_0000;
const XIP: u32 = 0x13ff_c000;

fn on(bench: &Bench, bytes: &[u8]) -> u8 {
    let Bench {
        settings,
        flash,
        main,
        xip,
        ..
    } = bench;
    stands(settings, bytes, flash, main, xip)
}

fn asked(bench: &Bench, f: Fields) -> u8 {
    on(bench, &arrival(f))
}

/// Each page stands once it is taken, and every byte of it counts.
#[test]
fn a_page_that_is_stored() {
    // 01: place from sector 4, two sectors: 0x10000100 is stored at 16,640.
    let s = with_table(&[arm_s(4, 2)]);
    for (address, at) in [
        (0x1000_0100, 16_640),
        (0x1000_0000, 16_384),
        (0x1000_1F00, 24_320),
        (MAIN, 0),
        (MAIN + 1, 1),
        (0x2008_1f00, 532_224),
        (XIP, 0),
        (XIP + 777, 777),
        (0x13ff_ff00, 16_128),
    ] {
        let mut bench = Bench::with_ram(s, LEN);
        let f = Fields {
            address,
            ..page(5, 32)
        };
        assert_eq!(asked(&bench, f), 96);
        assert_eq!(bench.answer(f), 14);
        assert_eq!(asked(&bench, f), 95);
        let other = Fields { fill: 6, ..f };
        assert_eq!(asked(&bench, other), 96);
        for k in [0, 1, 128, 254, 255] {
            let mut changed = bench.clone();
            let buffer = match address {
                MAIN.. => &mut changed.main,
                XIP.. => &mut changed.xip,
                _ => &mut changed.flash,
            };
            buffer[at + k] ^= 1;
            assert_eq!(asked(&changed, f), 96);
        }
        // Bytes beside it don't count, nor do the others of its memory.
        let mut around = Bench::with_ram(s, LEN);
        let buffer = match address {
            MAIN.. => &mut around.main,
            XIP.. => &mut around.xip,
            _ => &mut around.flash,
        };
        buffer[at..at + 256].fill(5);
        assert_eq!(asked(&around, f), 95);
        // Nor does a number, as long as it is a right one; nor a transfer.
        let last = Fields { number: 31, ..f };
        assert_eq!(asked(&around, last), 95);
        around.transfer = Transfer::Done {
            family: DATA,
            total: 0,
            kind: Kind::XipRam,
        };
        (around.seen, around.sectors) = (vec![], vec![]);
        assert_eq!(asked(&around, f), 95);
    }
}

#[test]
fn a_comment_stands() {
    let comment = Fields {
        flags: 0x2001,
        size: 1,
        address: 3,
        ..ONLY
    };
    let bench = Bench::new(NO_TABLE, LEN);
    assert_eq!(asked(&bench, comment), 95);
    let number = Fields {
        number: 1,
        ..comment
    };
    assert_eq!(asked(&bench, number), 10);
    let family = Fields {
        family: RISCV,
        ..comment
    };
    assert_eq!(asked(&bench, family), 8);
}

#[test]
fn a_region_changes_nothing() {
    let mut bench = Bench::new(NO_TABLE, LEN);
    let mut bytes = arrival(Fields {
        flags: 0x6000,
        ..page(0, 2)
    });
    let digest = crate::md5::md5(&bench.flash[..4096]);
    bytes[484..488].copy_from_slice(&0x1000_0000_u32.to_le_bytes());
    bytes[488..492].copy_from_slice(&4096_u32.to_le_bytes());
    bytes[492..508].copy_from_slice(&digest);
    // It would be kept, though its page isn't there.
    assert_eq!(bench.look(&bytes), (17, false));
    assert_eq!(on(&bench, &bytes), 96);
    bench.flash[..256].fill(0);
    assert_eq!(bench.look(&bytes), (14, false));
    assert_eq!(on(&bench, &bytes), 95);
}

#[test]
fn lengths_and_settings() {
    let good = arrival(ONLY);
    let mut bench = Bench::with_ram(with_table(&[arm_s(4, 0)]), LEN);
    assert_eq!(on(&bench, &good), 2);
    assert_eq!(on(&bench, &[0; 512]), 2);
    for bytes in [&good[..511], &[good.as_slice(), &[0]].concat(), &[]] {
        assert_eq!(on(&bench, bytes), 1);
    }
    bench.settings = NO_TABLE;
    for (flash, main, xip, answer) in [
        (0, 0, 0, 1),
        (4095, 0, 0, 1),
        (4096, 0, 0, 96),
        (4097, 0, 0, 1),
        (LEN, 1, 0, 1),
        (LEN, 532_479, 0, 1),
        (LEN, 532_480, 16_384, 96),
        (LEN, 532_480, 16_383, 1),
        (LEN, 532_481, 0, 1),
        (LEN, 0, 1, 1),
        (LEN, 0, 16_385, 1),
        (LEN, 0, 16_384, 96),
    ] {
        bench.flash.resize(flash, 0);
        bench.main.resize(main, 0);
        bench.xip.resize(xip, 0);
        assert_eq!(on(&bench, &good), answer, "{flash} {main} {xip}");
    }
}

/// On any board and block: 1 to 11 exactly as an Idle look answers, and else 95
/// exactly if taking the block leaves the 256 bytes as they are.
#[test]
fn beside_a_look_and_a_take() {
    let mut random = Random(95);
    let mut met = [0; 97];
    let tables = [
        NO_TABLE,
        with_table(&[arm_s(4, 2)]),
        with_table(&[arm_s(0, 1), arm_s(1, 3)]),
        with_table(&[arm_s(0, 0)]),
    ];
    let small = Bench::new(NO_TABLE, LEN);
    let large = Bench::with_ram(NO_TABLE, LEN);
    for _ in 0..4_000 {
        let mut bench = if random.below(4) == 0 {
            large.clone()
        } else {
            small.clone()
        };
        bench.settings = random.pick(&tables);
        let total = random.pick(&[1, 3, 3, 32, 33, 0]);
        let f = Fields {
            flags: random.pick(&[0x2000, 0x2000, 0x2000, 0x2000, 0x2001, 0x3000, 0]),
            address: random.pick(&[
                0x1000_0000,
                0x1000_0100,
                0x1000_1F00,
                0x1000_2000,
                0x1000_0001,
                0x1200_0000,
                MAIN + 1,
                0x2008_1f01,
                XIP,
            ]),
            size: random.pick(&[256, 256, 256, 255]),
            number: random.below(4) as u32,
            total,
            family: random.pick(&[ARM_S, ARM_S, DATA, RISCV]),
            fill: random.next() as u8,
        };
        let mut bytes = arrival(f);
        if random.below(20) == 0 {
            bytes[random.pick(&[0, 5, 511])] ^= 1;
        }
        if random.yes() {
            bench.take(&bytes);
            bench.transfer = Transfer::Idle;
        }
        let told = on(&bench, &bytes);
        met[usize::from(told)] += 1;
        let (answer, _) = bench.look(&bytes);
        if answer <= 11 {
            assert_eq!(told, answer);
            continue;
        }
        // A RAM page alone shows it; a flash page's sector is marked first.
        let before = bench.clone();
        bench.seen.fill(0);
        bench.sectors.fill(0xFF);
        bench.transfer = Transfer::Running {
            family: f.family,
            total: f.total.max(2),
            count: 1,
            kind: Kind::Flash,
        };
        if f.total >= 2 && f.address < XIP {
            assert!(bench.take(&bytes).answer >= 14);
            let same = bench.flash == before.flash;
            assert_eq!(told, if same { 95 } else { 96 });
        }
    }
    assert!(
        [2, 4, 5, 7, 8, 9, 10, 11, 95, 96]
            .iter()
            .all(|&k| met[k] > 20),
        "{met:?}"
    );
}
