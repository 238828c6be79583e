//! Comment blocks: they count like all others, and store nothing (02, L3).

use super::*;

const LEN: usize = 65_536;

/// A comment with that number; its size and address are those of no block.
fn comment(number: u32, total: u32) -> Fields {
    Fields {
        flags: 0x2001,
        size: 0,
        address: 0xFFFF_FFFF,
        ..page(number, total)
    }
}

fn running(total: u32, count: u32) -> Transfer {
    Transfer::Running {
        family: ARM_S,
        total,
        count,
        kind: Kind::Flash,
    }
}

/// The answer to a comment, which may change maps and transfer only.
fn note(bench: &mut Bench, f: Fields) -> (u8, bool) {
    let (flash, sectors) = (bench.flash.clone(), bench.sectors.clone());
    let cleared = match bench.transfer {
        Transfer::Running { family, total, .. } => (family, total) != (f.family, f.total),
        _ => true,
    };
    let (answer, discarded) = bench.send(&arrival(f));
    assert!(bench.flash == flash);
    if answer >= WRITTEN && cleared {
        assert!(bench.sectors.iter().all(|&byte| byte == 0));
    } else {
        assert!(bench.sectors == sectors);
    }
    (answer, discarded)
}

#[test]
fn a_comment_opens_a_transfer() {
    let mut bench = Bench::new(NO_TABLE, LEN);
    assert_eq!(note(&mut bench, comment(2, 3)), (16, false));
    assert_eq!(bench.transfer, running(3, 1));
    assert_eq!(marks(&bench.seen), [2]);
    assert_eq!(marks(&bench.sectors), []);
}

#[test]
fn a_file_with_comments_finishes() {
    let mut bench = Bench::new(NO_TABLE, LEN);
    assert_eq!(bench.answer(page(0, 4)), 14);
    assert_eq!(note(&mut bench, comment(1, 4)), (16, false));
    assert_eq!(note(&mut bench, comment(1, 4)), (13, false));
    assert_eq!(bench.answer(page(2, 4)), 14);
    assert_eq!(marks(&bench.sectors), [0]);
    assert_eq!(note(&mut bench, comment(3, 4)), (15, false));
    let done = Transfer::Done {
        family: ARM_S,
        total: 4,
        kind: Kind::Flash,
    };
    assert_eq!(bench.transfer, done);
    assert_eq!(marks(&bench.seen), [0, 1, 2, 3]);
    assert_eq!(note(&mut bench, comment(1, 4)), (12, false));
    assert!(bench.flash[256..512].iter().all(|&byte| byte == 0xFF));
}

#[test]
fn a_file_of_comments_alone() {
    let mut bench = Bench::new(NO_TABLE, LEN);
    assert_eq!(note(&mut bench, comment(0, 1)), (15, false));
    assert_eq!(marks(&bench.seen), [0]);
    let mut bench = Bench::new(NO_TABLE, LEN);
    assert_eq!(note(&mut bench, comment(1, 2)), (16, false));
    assert_eq!(note(&mut bench, comment(0, 2)), (15, false));
}

#[test]
fn a_comment_discards() {
    for block in [
        comment(1, 5),
        Fields {
            family: DATA,
            ..comment(1, 4)
        },
    ] {
        let mut bench = Bench::new(NO_TABLE, LEN);
        assert_eq!(bench.answer(page(0, 4)), 14);
        assert_eq!(note(&mut bench, block), (16, true));
        assert_eq!(marks(&bench.seen), [1]);
        // Flash keeps what the discarded transfer wrote.
        assert!(bench.flash[..256].iter().all(|&byte| byte == 0));
    }
    let mut bench = Bench::new(NO_TABLE, LEN);
    assert_eq!(bench.answer(page(0, 4)), 14);
    assert_eq!(note(&mut bench, comment(0, 1)), (15, true));
}

/// "With the same number as a data block, the first to come stands."
#[test]
fn the_first_of_a_number_stands() {
    let mut bench = Bench::new(NO_TABLE, LEN);
    assert_eq!(note(&mut bench, comment(0, 3)), (16, false));
    assert_eq!(bench.answer(page(0, 3)), 13);
    assert!(bench.flash.iter().all(|&byte| byte == 0xA7));
    assert_eq!(bench.answer(page(1, 3)), 14);
    assert_eq!(note(&mut bench, comment(1, 3)), (13, false));
    assert!(bench.flash[256..512].iter().all(|&byte| byte == 1));
}

#[test]
fn checks_of_a_comment() {
    let s = with_table(&[arm_s(4, 2)]);
    for (block, answer) in [
        (
            Fields {
                flags: 0x3001,
                ..comment(0, 2)
            },
            5,
        ),
        (
            Fields {
                flags: 0x0001,
                ..comment(0, 2)
            },
            7,
        ),
        (
            Fields {
                family: DATA,
                ..comment(0, 2)
            },
            8,
        ),
        (
            Fields {
                family: RP2040,
                ..comment(0, 2)
            },
            8,
        ),
        (comment(0, 0), 10),
        (comment(2, 2), 10),
        (comment(0, 32), 16),
        (comment(0, 33), 10),
        (comment(0, 0x0100_0001), 10),
    ] {
        let mut bench = Bench::new(s, LEN);
        assert_eq!(note(&mut bench, block), (answer, false));
    }
    for size in [0, 1, 255, 256, 257, 476, 477, u32::MAX] {
        for address in [
            0,
            0x0FFF_FF00,
            0x1000_0001,
            0x1000_2000,
            0x2000_0000,
            u32::MAX,
        ] {
            let block = Fields {
                size,
                address,
                ..comment(0, 2)
            };
            assert_eq!(note(&mut Bench::new(s, LEN), block), (16, false));
        }
    }
}

/// A refused comment discards nothing.
#[test]
fn a_refused_comment() {
    let mut bench = Bench::new(NO_TABLE, LEN);
    assert_eq!(bench.answer(page(0, 2)), 14);
    let foreign = Fields {
        family: 0x68ed_2b88,
        ..comment(0, 5)
    };
    assert_eq!(note(&mut bench, foreign), (8, false));
    assert_eq!(note(&mut bench, comment(0, 257)), (10, false));
    assert_eq!(bench.answer(page(1, 2)), 15);
}
