//! The RAM windows and the kind of a transfer (02, L8).

use super::*;

const LEN: usize = 65_536;
const USER: u32 = 0x1234_5678;
const MAIN: u32 = 0x2000_0000;
const XIP: u32 = 0x13ff_c000;

/// The only block of an arm-s file, at that address.
fn at(address: u32) -> Fields {
    Fields { address, ..ONLY }
}

fn bench() -> Bench {
    Bench::with_ram(NO_TABLE, LEN)
}

fn answer(f: Fields) -> u8 {
    bench().answer(f)
}

fn running(kind: Kind, total: u32, count: u32) -> Transfer {
    Transfer::Running {
        family: ARM_S,
        total,
        count,
        kind,
    }
}

#[test]
fn row_1_lengths() {
    let good = arrival(ONLY);
    for (main, xip, answer) in [
        (0, 0, 15),
        (532_480, 0, 15),
        (0, 16_384, 15),
        (532_480, 16_384, 15),
        (1, 0, 1),
        (532_479, 0, 1),
        (532_481, 0, 1),
        (16_384, 0, 1),
        (0, 1, 1),
        (0, 16_383, 1),
        (0, 16_385, 1),
        (0, 532_480, 1),
        (532_480, 1, 1),
        (1, 16_384, 1),
    ] {
        let mut bench = Bench::new(NO_TABLE, LEN);
        bench.main.resize(main, 0xA7);
        bench.xip.resize(xip, 0xA7);
        assert_eq!(bench.send(&good), (answer, false), "{main} {xip}");
    }
    // It goes before the settings.
    let mut bench = Bench::new(with_table(&[arm_s(4, 0)]), LEN);
    assert_eq!(bench.send(&good), (2, false));
    bench.xip.resize(1, 0);
    assert_eq!(bench.send(&good), (1, false));
}

#[test]
fn row_11_at_the_ends_of_the_windows() {
    for (address, expected) in [
        (0x13ff_bf00, 11),
        (0x13ff_bfff, 11),
        (0x13ff_c000, 15),
        (0x13ff_c001, 15),
        (0x13ff_feff, 15),
        (0x13ff_ff00, 15),
        (0x13ff_ff01, 11),
        (0x13ff_ffff, 11),
        (0x1400_0000, 11),
        (0x1fff_ff00, 11),
        (0x1fff_ffff, 11),
        (0x2000_0000, 15),
        (0x2000_0001, 15),
        (0x2008_1f00, 15),
        (0x2008_1f01, 11),
        (0x2008_1fff, 11),
        (0x2008_2000, 11),
        (0xffff_ff00, 11),
        (u32::MAX, 11),
    ] {
        assert_eq!(answer(at(address)), expected, "{address:x}");
        // Where the board lacks it, no address is in the window.
        assert_eq!(first_answer(NO_TABLE, LEN, at(address)), 11);
    }
    let mut one = Bench::new(NO_TABLE, LEN);
    one.main = vec![0xA7; MAIN_LEN];
    assert_eq!(one.clone().answer(at(MAIN)), 15);
    assert_eq!(one.answer(at(XIP)), 11);
    let mut one = Bench::new(NO_TABLE, LEN);
    one.xip = vec![0xA7; XIP_LEN];
    assert_eq!(one.clone().answer(at(MAIN)), 11);
    assert_eq!(one.answer(at(XIP)), 15);
}

/// In a window 10 goes before 11, in none 11 before 10.
#[test]
fn rows_10_and_11() {
    let bad = |address| Fields {
        total: 0,
        ..at(address)
    };
    for (address, expected) in [
        (0x1000_0000, 10),
        (0x1000_0001, 10),
        (0x1001_0000, 10),
        (0x11ff_ffff, 10),
        (0x2000_0000, 10),
        (0x2008_1fff, 10),
        (0x13ff_c000, 10),
        (0x13ff_ffff, 10),
        (0x0fff_ffff, 11),
        (0, 11),
        (0x1200_0000, 11),
        (0x13ff_bfff, 11),
        (0x1400_0000, 11),
        (0x1fff_ffff, 11),
        (0x2008_2000, 11),
        (u32::MAX, 11),
    ] {
        assert_eq!(answer(bad(address)), expected, "{address:x}");
    }
    assert_eq!(first_answer(NO_TABLE, LEN, bad(MAIN)), 11);
    assert_eq!(first_answer(NO_TABLE, LEN, bad(XIP)), 11);
    assert_eq!(first_answer(NO_TABLE, LEN, bad(0x1001_0000)), 10);
}

/// All of 7 to 11 wrong, then mended one by one.
#[test]
fn order_of_the_rows() {
    let mut bench = Bench::with_ram(with_table(&[arm_s(4, 2)]), LEN);
    bench.transfer = Transfer::Done {
        family: ARM_S,
        total: 1,
        kind: Kind::MainRam,
    };
    let wrong = |address| Fields {
        flags: 0,
        family: ABSOLUTE,
        size: 0,
        total: 0,
        ..at(address)
    };
    let repairs: [fn(&mut Fields); 5] = [
        |_| {},
        |f| f.flags = 0x2000,
        |f| f.family = ARM_NS,
        |f| f.size = 256,
        |f| f.total = 1,
    ];
    for address in [0x2008_1fff, 0x13ff_ffff] {
        let mut block = wrong(address);
        for (answer, repair) in (7..).zip(repairs) {
            repair(&mut block);
            assert_eq!(bench.answer(block), answer);
        }
        block.address &= !0xff;
        assert_eq!(bench.answer(block), 12);
    }
    for address in [0, 0x1200_0000, 0x2008_2000] {
        let mut block = wrong(address);
        block.family = RP2040;
        assert_eq!(bench.answer(block), 7);
        block.flags = 0x2000;
        assert_eq!(bench.answer(block), 8);
        // Its place is asked of flash, where arm-ns has none.
        block.family = ARM_NS;
        assert_eq!(bench.answer(block), 8);
        for family in [ARM_S, ABSOLUTE] {
            block.family = family;
            block.size = 0;
            assert_eq!(bench.answer(block), 9);
            block.size = 256;
            assert_eq!(bench.answer(block), 11);
        }
    }
}

#[test]
fn row_8_families() {
    let b = Entry {
        link: Link::BOf(0),
        user_count: 1,
        users: [USER, USER + 1, 0, 0],
        ..arm_s(5, 1)
    };
    let mut s = with_table(&[arm_s(4, 1), b]);
    s.table[2] = Entry {
        user_count: 1,
        users: [USER + 2, 0, 0, 0],
        ..arm_s(6, 1)
    };
    for (family, no_table, table) in [
        (RP2040, 8, 8),
        (ABSOLUTE, 8, 8),
        (DATA, 15, 15),
        (ARM_S, 15, 15),
        // Neither a table nor the architecture is asked for.
        (RISCV, 15, 15),
        (ARM_NS, 15, 15),
        (0xe48b_ff5c, 8, 8),
        (0xe48b_ff55, 8, 8),
        (0, 8, 8),
        // A user family, though flash has no place for it in a "B of".
        (USER, 8, 15),
        // Not in a used slot, not in a used entry.
        (USER + 1, 8, 8),
        (USER + 2, 8, 8),
    ] {
        for address in [MAIN, XIP] {
            let block = Fields {
                family,
                ..at(address)
            };
            assert_eq!(answer(block), no_table, "{family:x}");
            assert_eq!(Bench::with_ram(s, LEN).answer(block), table, "{family:x}");
        }
    }
    assert_eq!(ask_place(&s, LEN, USER), Err(8));
    assert_eq!(ask_place(&s, LEN, RISCV), Err(8));
}

#[test]
fn rows_9_and_10() {
    for (address, most) in [(MAIN, 2080), (XIP, 64)] {
        for size in [0, 255, 257, 476, u32::MAX] {
            let block = Fields {
                size,
                ..at(address)
            };
            assert_eq!(answer(block), 9);
        }
        for (number, total, expected) in [
            (0, 0, 10),
            (0, 1, 15),
            (1, 1, 10),
            (0, most, 14),
            (most - 1, most, 14),
            (most, most, 10),
            (0, most + 1, 10),
            (0, 0x0100_0001, 10),
            (0, u32::MAX, 10),
        ] {
            let block = Fields {
                number,
                total,
                ..at(address)
            };
            assert_eq!(answer(block), expected);
            // The flash's length doesn't matter.
            assert_eq!(Bench::with_ram(NO_TABLE, 4096).answer(block), expected);
        }
    }
}

#[test]
fn only_the_256_bytes_change() {
    for (kind, window, len) in [
        (Kind::MainRam, MAIN, MAIN_LEN),
        (Kind::XipRam, XIP, XIP_LEN),
    ] {
        for offset in [0, 1, 255, 4095, 4096, len - 257, len - 256] {
            let mut bytes = arrival(at(window + offset as u32));
            for (i, byte) in bytes[32..508].iter_mut().enumerate() {
                *byte = i as u8 ^ 0x33;
            }
            let mut bench = bench();
            let mut expected = bench.clone();
            assert_eq!(bench.send(&bytes), (15, false));
            let buffer = match kind {
                Kind::MainRam => &mut expected.main,
                _ => &mut expected.xip,
            };
            buffer[offset..offset + 256].copy_from_slice(&bytes[32..288]);
            expected.seen.fill(0);
            expected.seen[0] = 0x80;
            expected.sectors.fill(0);
            expected.transfer = Transfer::Done {
                family: ARM_S,
                total: 1,
                kind,
            };
            assert!(bench == expected);
        }
    }
}

/// Ranges may overlap; the later one to be accepted stands.
#[test]
fn later_bytes_stand() {
    let mut bench = bench();
    let block = |number, address, fill| Fields {
        number,
        total: 3,
        fill,
        ..at(address)
    };
    assert_eq!(bench.answer(block(0, MAIN, 1)), 14);
    assert_eq!(bench.answer(block(1, MAIN + 100, 2)), 14);
    assert_eq!(bench.answer(block(0, MAIN + 50, 9)), 13);
    assert!(bench.main[..100].iter().all(|&byte| byte == 1));
    assert!(bench.main[100..356].iter().all(|&byte| byte == 2));
    assert_eq!(bench.main[356], 0xA7);
}

#[test]
fn a_change_of_kind_discards() {
    let kinds = [
        (Kind::Flash, 0x1000_0000),
        (Kind::MainRam, MAIN),
        (Kind::XipRam, XIP),
    ];
    for (before, first) in kinds {
        for (after, second) in kinds {
            let mut bench = bench();
            let block = |number, address| Fields {
                number,
                total: 3,
                ..at(address)
            };
            assert_eq!(bench.answer(block(1, first)), 14);
            assert_eq!(bench.transfer, running(before, 3, 1));
            let sent = bench.send(&arrival(block(1, second)));
            if before == after {
                assert_eq!(sent, (13, false));
                continue;
            }
            assert_eq!(sent, (14, true));
            assert_eq!(bench.transfer, running(after, 3, 1));
            assert_eq!(marks(&bench.seen), [1]);
            let touched: &[usize] = if after == Kind::Flash { &[0] } else { &[] };
            assert_eq!(marks(&bench.sectors), touched);
            // What the discarded transfer wrote stays.
            let buffer = match before {
                Kind::Flash => &bench.flash,
                Kind::MainRam => &bench.main,
                Kind::XipRam => &bench.xip,
            };
            assert!(buffer[..256].iter().all(|&byte| byte == 0x5A));
        }
    }
}

#[test]
fn done_refuses_every_kind() {
    for (kind, address) in [(Kind::MainRam, MAIN), (Kind::XipRam, XIP)] {
        let mut bench = bench();
        assert_eq!(bench.answer(at(address)), 15);
        let done = Transfer::Done {
            family: ARM_S,
            total: 1,
            kind,
        };
        assert_eq!(bench.transfer, done);
        for address in [0x1000_0000, MAIN, XIP] {
            assert_eq!(bench.answer(at(address)), 12);
            let comment = Fields {
                flags: 0x2001,
                ..at(address)
            };
            assert_eq!(bench.answer(comment), 12);
        }
    }
}

#[test]
fn row_3_asks_nothing_of_the_kind() {
    for kind in [Kind::Flash, Kind::MainRam, Kind::XipRam] {
        for (transfer, answer) in [
            (running(kind, 131_072, 131_071), 4),
            (running(kind, 131_073, 1), 3),
            (running(kind, 2, 2), 3),
        ] {
            for mut bench in [bench(), Bench::new(NO_TABLE, LEN)] {
                bench.transfer = transfer;
                assert_eq!(bench.send(&[0; 512]), (answer, false));
            }
        }
    }
}

fn comment(number: u32, total: u32, family: u32) -> Fields {
    Fields {
        flags: 0x2001,
        size: 9,
        address: 0x1000_0000,
        number,
        total,
        family,
        fill: 0,
    }
}

#[test]
fn a_comment_takes_the_running_kind() {
    for (kind, address, most) in [(Kind::MainRam, MAIN, 2080), (Kind::XipRam, XIP, 64)] {
        // Flash has neither a place for arm-ns nor room for that many.
        let mut bench = Bench::with_ram(NO_TABLE, 4096);
        let block = Fields {
            family: ARM_NS,
            total: most,
            ..at(address)
        };
        assert_eq!(bench.answer(comment(1, most, ARM_NS)), 8);
        assert_eq!(bench.answer(comment(1, most, ARM_S)), 10);
        assert_eq!(bench.answer(block), 14);
        let before = bench.clone();
        assert_eq!(bench.answer(comment(1, most, ARM_NS)), 16);
        assert_eq!(bench.answer(comment(1, most, ARM_NS)), 13);
        assert_eq!(bench.answer(comment(0, most, ARM_NS)), 13);
        assert_eq!(bench.answer(comment(most, most, ARM_NS)), 10);
        let transfer = Transfer::Running {
            family: ARM_NS,
            total: most,
            count: 2,
            kind,
        };
        assert_eq!(bench.transfer, transfer);
        assert!(bench.main == before.main && bench.xip == before.xip);
        assert!(bench.flash == before.flash && bench.sectors == before.sectors);
        // Another total or family makes it a comment for flash.
        assert_eq!(bench.answer(comment(1, 2, ARM_NS)), 8);
        assert_eq!(bench.answer(comment(1, most, ARM_S)), 10);
        let sent = bench.send(&arrival(comment(1, 2, ARM_S)));
        assert_eq!(sent, (16, true));
        assert_eq!(bench.transfer, running(Kind::Flash, 2, 1));
        // Then the next is one too, and its RAM file discards it.
        assert_eq!(bench.send(&arrival(block)), (14, true));
    }
}

#[test]
fn a_comment_is_flash_where_the_running_kind_has_no_buffer() {
    for (kind, other) in [(Kind::MainRam, Kind::XipRam), (Kind::XipRam, Kind::MainRam)] {
        let mut lacking = bench();
        match kind {
            Kind::MainRam => lacking.main.clear(),
            _ => lacking.xip.clear(),
        }
        lacking.transfer = running(kind, 3, 1);
        lacking.seen.fill(0);
        let sent = lacking.clone().send(&arrival(comment(1, 3, ARM_S)));
        assert_eq!(sent, (16, true));
        lacking.transfer = running(other, 3, 1);
        assert_eq!(lacking.clone().answer(comment(1, 3, ARM_S)), 16);
        lacking.transfer = Transfer::Running {
            family: ARM_NS,
            total: 3,
            count: 1,
            kind,
        };
        assert_eq!(lacking.answer(comment(1, 3, ARM_NS)), 8);
    }
}

/// A comment's address is no matter, even one in a RAM window.
#[test]
fn a_comment_in_a_window_is_flash() {
    for address in [MAIN, XIP, 0] {
        let block = Fields {
            address,
            ..comment(0, 2, ARM_S)
        };
        let mut bench = bench();
        assert_eq!(bench.answer(block), 16);
        assert_eq!(bench.transfer, running(Kind::Flash, 2, 1));
    }
}

/// A stopped update, then a good one of another kind (02, L13).
#[test]
fn after_a_stopped_update() {
    let file: Vec<Fields> = [3, 0, 1, 3, 2]
        .map(|number| Fields {
            number,
            total: 4,
            fill: number as u8,
            ..at(MAIN + 1000 * number)
        })
        .to_vec();
    let mut idle = bench();
    let mut stopped = bench();
    stopped.transfer = running(Kind::Flash, 4, 2);
    for block in file {
        idle.send(&arrival(block));
        stopped.send(&arrival(block));
    }
    assert_eq!(stopped.transfer, idle.transfer);
    assert!(stopped == idle);
}
