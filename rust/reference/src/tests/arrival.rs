//! The rows of the answers' table, each at its boundary and in its order.

use super::*;

const LEN: usize = 65_536;

fn running(total: u32, count: u32) -> Transfer {
    Transfer::Running {
        family: ARM_S,
        total,
        count,
        kind: Kind::Flash,
    }
}

fn done(total: u32) -> Transfer {
    Transfer::Done {
        family: ARM_S,
        total,
        kind: Kind::Flash,
    }
}

#[test]
fn row_1_lengths() {
    let good = arrival(ONLY);
    for len in [0, 1, 511, 513, 1024] {
        let bytes = vec![0; len];
        assert_eq!(Bench::new(NO_TABLE, LEN).send(&bytes), (1, false));
    }
    for len in [0, 1, 256, 4095, 4097, 4096 + 256, 33_554_432 + 4096] {
        assert_eq!(Bench::new(NO_TABLE, len).send(&good), (1, false));
    }
    for len in [4096, 8192, 33_554_432] {
        assert_eq!(Bench::new(NO_TABLE, len).send(&good), (15, false));
    }
    for len in [0, 1024, 16_383, 16_385] {
        let mut bench = Bench::new(NO_TABLE, LEN);
        bench.seen.resize(len, 0);
        assert_eq!(bench.send(&good), (1, false));
    }
    for len in [0, 1023, 1025, 16_384] {
        let mut bench = Bench::new(NO_TABLE, LEN);
        bench.sectors.resize(len, 0);
        assert_eq!(bench.send(&good), (1, false));
    }
}

#[test]
fn row_2_settings() {
    let s = with_table(&[arm_s(15, 1)]);
    assert_eq!(first_answer(s, LEN, ONLY), 15);
    assert_eq!(first_answer(s, LEN - 4096, ONLY), 2);
}

#[test]
fn row_3_state() {
    for (transfer, answer) in [
        (running(2, 0), 3),
        (running(1, 1), 3),
        (running(2, 2), 3),
        (running(0, 0), 3),
        (running(2, 1), 15),
        (running(3, 1), 14),
        (running(3, 3), 3),
        (running(131_072, 131_071), 15),
        (running(131_073, 1), 3),
        (running(u32::MAX, 1), 3),
        (running(u32::MAX, u32::MAX), 3),
        (done(0), 3),
        (done(1), 12),
        (done(131_072), 12),
        (done(131_073), 3),
        (done(u32::MAX), 3),
    ] {
        let total = match transfer {
            Transfer::Running { total, .. } => total,
            _ => 1,
        };
        let mut bench = Bench::new(NO_TABLE, 33_554_432);
        bench.transfer = transfer;
        bench.seen.fill(0);
        let block = Fields { total, ..ONLY };
        assert_eq!(bench.answer(block), answer, "{transfer:?}");
    }
}

#[test]
fn row_4_every_bit_of_the_magic_numbers() {
    let good = arrival(ONLY);
    for at in (0..8).chain(508..512) {
        for bit in 0..8 {
            let mut bytes = good;
            bytes[at] ^= 1 << bit;
            assert_eq!(Bench::new(NO_TABLE, LEN).send(&bytes), (4, false));
        }
    }
    assert_eq!(Bench::new(NO_TABLE, LEN).send(&[0; 512]), (4, false));
    assert_eq!(good[..4], *b"UF2\n");
}

#[test]
fn rows_5_and_7_flags() {
    for (flags, answer) in [
        (0x1000, 5),
        (0x1001, 5),
        (0x3000, 5),
        (0x3001, 5),
        (0x0001, 7),
        (0x2001, 15),
        (0x0000, 7),
        (0xFFFF_CFFE, 7),
        (0xFFFF_CFFF, 7),
        (0xFFFF_EFFE, 15),
        (0xFFFF_EFFF, 15),
        (0x2000, 15),
        (0x6000, 15),
        (0xA000, 15),
        (u32::MAX, 5),
    ] {
        let block = Fields { flags, ..ONLY };
        assert_eq!(first_answer(NO_TABLE, LEN, block), answer, "{flags:x}");
    }
}

#[test]
fn row_8_family_without_place() {
    for family in [RP2040, RISCV, ARM_NS, 0, u32::MAX] {
        let block = Fields { family, ..ONLY };
        assert_eq!(first_answer(NO_TABLE, LEN, block), 8);
    }
    for family in [ABSOLUTE, DATA, ARM_S] {
        let block = Fields { family, ..ONLY };
        assert_eq!(first_answer(NO_TABLE, LEN, block), 15);
    }
}

#[test]
fn row_9_payload_size() {
    for size in [0, 1, 255, 257, 476, 0x0100_0100, u32::MAX] {
        let block = Fields { size, ..ONLY };
        assert_eq!(first_answer(NO_TABLE, LEN, block), 9);
    }
}

#[test]
fn row_10_numbers() {
    for (number, total, answer) in [
        (0, 0, 10),
        (0, 1, 15),
        (1, 1, 10),
        (0, 256, 14),
        (255, 256, 14),
        (256, 256, 10),
        (u32::MAX, 256, 10),
        (0, 257, 10),
        // Totals whose bytes 32 bits would wrap to 0 or to one payload.
        (0, 0x0100_0000, 10),
        (0, 0x0100_0001, 10),
        (0, u32::MAX, 10),
    ] {
        let block = Fields {
            number,
            total,
            ..ONLY
        };
        assert_eq!(first_answer(NO_TABLE, LEN, block), answer);
    }
}

#[test]
fn row_11_address() {
    for (address, answer) in [
        (0, 11),
        (0x0FFF_FF00, 11),
        (0x0FFF_FFFF, 11),
        (0x1000_0000, 15),
        (0x1000_0001, 11),
        (0x1000_0080, 11),
        (0x1000_00FF, 11),
        (0x1000_0100, 15),
        (0x1000_FF00, 15),
        (0x1000_FF01, 11),
        (0x1001_0000, 11),
        (0x1200_0000, 11),
        (0x2000_0000, 11),
        (0xFFFF_FF00, 11),
        (u32::MAX, 11),
    ] {
        let block = Fields { address, ..ONLY };
        assert_eq!(first_answer(NO_TABLE, LEN, block), answer, "{address:x}");
    }
    for (address, answer) in [(0x11FF_FF00, 15), (0x1200_0000, 11)] {
        let block = Fields { address, ..ONLY };
        assert_eq!(first_answer(NO_TABLE, 33_554_432, block), answer);
    }
}

#[test]
fn row_12_done_refuses_every_family() {
    let mut bench = Bench::new(NO_TABLE, LEN);
    assert_eq!(bench.answer(ONLY), 15);
    for family in [ARM_S, DATA, ABSOLUTE] {
        for total in [1, 2] {
            let block = Fields {
                family,
                total,
                ..ONLY
            };
            assert_eq!(bench.answer(block), 12);
        }
    }
}

#[test]
fn row_13_needs_the_mark_alone() {
    let mut bench = Bench::new(NO_TABLE, LEN);
    assert_eq!(bench.answer(page(9, 20)), 14);
    // Another address and payload under a marked number is still a repeat.
    let moved = Fields {
        address: 0x1000_8000,
        ..page(9, 20)
    };
    assert_eq!(bench.answer(moved), 13);
    assert_eq!(bench.answer(page(8, 20)), 14);
    assert_eq!(bench.answer(page(10, 20)), 14);
    // A count that disagrees with the map isn't detected.
    bench.seen[0] = 0x80;
    assert_eq!(bench.answer(page(0, 20)), 13);
    assert_eq!(bench.answer(page(1, 20)), 14);
    assert_eq!(bench.transfer, running(20, 4));
}

/// Wrong in all that rows 5 and 7 to 11 ask; Done, so that row 12 waits behind.
const ALL_WRONG: Fields = Fields {
    flags: 0x1001,
    address: 0x1000_2000,
    size: 0,
    number: 0,
    total: 0,
    family: DATA,
    fill: 1,
};

/// The answer after it, and what it mends.
type Repair = (u8, fn(&mut Fields));

#[test]
fn the_first_row_that_applies_answers() {
    let mut bench = Bench::new(with_table(&[arm_s(4, 0)]), LEN);
    bench.transfer = running(3, 3);
    assert_eq!(bench.send(&[0; 511]), (1, false));
    assert_eq!(bench.send(&[0; 512]), (2, false));
    bench.settings.table[0].sectors = 2;
    assert_eq!(bench.send(&[0; 512]), (3, false));
    bench.transfer = done(1);
    let mut bytes = arrival(ALL_WRONG);
    bytes[511] ^= 1;
    assert_eq!(bench.send(&bytes), (4, false));
    let mut block = ALL_WRONG;
    let repairs: [Repair; 7] = [
        (5, |_| {}),
        (7, |f| f.flags = 0x0000),
        (8, |f| f.flags = 0x2000),
        (9, |f| f.family = ARM_S),
        (10, |f| f.size = 256),
        (11, |f| f.total = 3),
        (12, |f| f.address = 0x1000_1F00),
    ];
    for (answer, repair) in repairs {
        repair(&mut block);
        assert_eq!(bench.answer(block), answer);
    }
    // A comment's size and address may stay wrong.
    let mut comment = ALL_WRONG;
    let repairs: [Repair; 5] = [
        (5, |_| {}),
        (7, |f| f.flags = 0x0001),
        (8, |f| f.flags = 0x2001),
        (10, |f| f.family = ARM_S),
        (12, |f| f.total = 3),
    ];
    for (answer, repair) in repairs {
        repair(&mut comment);
        assert_eq!(bench.answer(comment), answer);
    }
    bench.transfer = running(3, 1);
    bench.seen[0] = 0x80;
    let noted = [0, 1, 2].map(|number| bench.answer(Fields { number, ..comment }));
    assert_eq!(noted, [13, 16, 15]);
    bench.transfer = running(3, 1);
    bench.seen[0] = 0x80;
    let numbered = [0, 1, 2].map(|number| bench.answer(Fields { number, ..block }));
    assert_eq!(numbered, [13, 14, 15]);
}

#[test]
fn example_whole_flash() {
    for (number, total, address, answer) in [
        (0, 256, 0x1000_0000, 14),
        (0, 257, 0x1000_0000, 10),
        (0, 256, 0x1000_FF00, 14),
        (0, 256, 0x1001_0000, 11),
        (256, 256, 0x1000_0000, 10),
    ] {
        let block = Fields {
            number,
            total,
            address,
            ..ONLY
        };
        assert_eq!(first_answer(NO_TABLE, LEN, block), answer);
    }
}

#[test]
fn example_place_from_sector_4() {
    let s = with_table(&[arm_s(4, 2)]);
    for (total, address, answer) in [
        (1, 0x1000_0100, 15),
        (1, 0x1000_1F00, 15),
        (1, 0x1000_2000, 11),
        (32, 0x1000_0000, 14),
        (33, 0x1000_0000, 10),
    ] {
        let block = Fields {
            total,
            address,
            ..ONLY
        };
        assert_eq!(first_answer(s, LEN, block), answer);
    }
    let mut bench = Bench::new(s, LEN);
    bench.answer(page(1, 2));
    assert!(bench.flash[16_640..16_896].iter().all(|&b| b == 1));
}

#[test]
fn answers_ignore_flash_and_sector_map() {
    let mut random = Random(3);
    let mut bench = Bench::new(NO_TABLE, LEN);
    let mut twin = bench.clone();
    for _ in 0..2000 {
        let total = 40 + (random.below(50) / 49) as u32;
        let block = page(random.below(42) as u32, total);
        twin.flash.fill(random.next() as u8);
        twin.sectors.fill(random.next() as u8);
        let bytes = arrival(block);
        assert_eq!(bench.send(&bytes), twin.send(&bytes));
        assert_eq!(bench.transfer, twin.transfer);
        if let Transfer::Done { .. } = bench.transfer {
            (bench.transfer, twin.transfer) = (Transfer::Idle, Transfer::Idle);
        }
    }
}

/// Fields at and around every boundary, so that each row is met.
fn any_fields(random: &mut Random) -> Fields {
    let small = [0, 1, 2, 3, 3, 3, 3, 16, 131_072, 1 << 24, u32::MAX];
    let offset = random.pick(&[0, 256, 0xF00, 0x1000, 0x8000, 1, 0xEFFF_FF00]);
    let flash = 0x1000_0000;
    let base: u32 = random.pick(&[flash, flash, 0x0FFF_FF00, 0x13FF_C000, 0x2000_0000]);
    Fields {
        flags: random.pick(&[0x2000, 0x2000, 0x2000, 0xE000, 0x3000, 0x2001, 1, 0]),
        address: base.wrapping_add(offset),
        size: random.pick(&[256, 256, 256, 256, 255]),
        number: random.pick(&small),
        total: random.pick(&small),
        family: random.pick(&[ARM_S, ARM_S, DATA, RISCV, ABSOLUTE, 0x1234_5678]),
        fill: random.next() as u8,
    }
}

fn any_transfer(random: &mut Random) -> Transfer {
    let numbers = [0, 1, 2, 3, 3, 16, 131_072, 131_073, u32::MAX];
    let family = random.pick(&[ARM_S, DATA]);
    let total = random.pick(&numbers);
    let count = random.pick(&[1, 1, 2, 3, 0, total, u32::MAX]);
    let kind = random.pick(&[Kind::Flash, Kind::Flash, Kind::MainRam, Kind::XipRam]);
    match random.below(4) {
        0 => Transfer::Idle,
        1 => Transfer::Done {
            family,
            total,
            kind,
        },
        _ => Transfer::Running {
            family,
            total,
            count,
            kind,
        },
    }
}

#[test]
fn anything_gets_an_answer_and_stays_in_its_place() {
    let mut random = Random(17);
    let mut answers = [0; 17];
    for _ in 0..20_000 {
        let s = match random.below(6) {
            0 => super::place::any_settings(&mut random, &[0, 1, 2, 7, 8, u32::MAX]),
            1 => with_table(&[arm_s(1, 3), arm_s(7, 1)]),
            _ => NO_TABLE,
        };
        let mut bench = Bench::new(s, random.pick(&[32_768, 32_768, 32_768, 4096, 100]));
        bench.transfer = any_transfer(&mut random);
        if random.yes() {
            bench.xip = vec![0xA7; XIP_LEN];
        }
        if random.below(40) == 0 {
            bench.main = vec![0xA7; MAIN_LEN];
        }
        let block = any_fields(&mut random);
        let mut bytes = arrival(block);
        bytes[508] ^= u8::from(random.below(20) == 0);
        let (answer, _) = bench.send(&bytes);
        answers[usize::from(answer)] += 1;
        let kind = match bench.transfer {
            Transfer::Running { kind, .. } | Transfer::Done { kind, .. } => Some(kind),
            Transfer::Idle => None,
        };
        let untouched = |bytes: &[u8]| bytes.iter().all(|&b| b == 0xA7);
        assert!(kind == Some(Kind::MainRam) || untouched(&bench.main));
        assert!(kind == Some(Kind::XipRam) || untouched(&bench.xip));
        assert!(kind == Some(Kind::Flash) || untouched(&bench.flash));
        if answer >= WRITTEN && kind == Some(Kind::Flash) {
            let (start, len) = ask_place(&s, bench.flash.len(), block.family).unwrap();
            assert!(untouched(&bench.flash[..start]));
            assert!(untouched(&bench.flash[start + len..]));
        }
    }
    for (answer, &n) in answers.iter().enumerate() {
        assert_eq!(n == 0, [0, 6].contains(&answer), "{answers:?}");
    }
}
