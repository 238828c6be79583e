//! The reasons of answers (02, L6).

use std::collections::BTreeMap;

use super::*;
use crate::md5::md5;
use crate::why::{why, why_of_bytes, why_place, why_place_of_bytes, NoLinks, Why, WhyPlace};
use crate::why::{BY_ABSOLUTE, BY_ENTRY, BY_NO_TABLE, NO_LINK, NO_WINDOW};

const LEN: usize = 65_536;
const USER: u32 = 0x1234_5678;
const FLASH: u32 = 0x1000_0000;
const MAIN: u32 = 0x2000_0000;
const XIP: u32 = 0x13ff_c000;
const MAGIC_0: u32 = 0x0A32_4655;
const MAGIC_4: u32 = 0x9E5D_5157;
const MAGIC_508: u32 = 0x0AB1_6F30;

/// Every condition there is.
const CAUSES: [u32; 55] = [
    101, 102, 103, 104, 105, 106, 107, 108, 201, 202, 203, 204, 205, 206, 207, 208, 209, 301, 302,
    303, 304, 305, 401, 402, 403, 501, 701, 801, 802, 803, 804, 805, 806, 807, 901, 1001, 1002,
    1003, 1101, NO_WINDOW, 1102, 1103, 1104, 1201, 1301, 1401, 1402, 1403, 1404, 1405, 1406, 1407,
    1501, 1601, 1701,
];

/// An arrival with all that it meets.
#[derive(Clone)]
struct Case {
    bench: Bench,
    bytes: Vec<u8>,
}

impl Case {
    fn new(bench: Bench, f: Fields) -> Case {
        Case {
            bench,
            bytes: arrival(f).to_vec(),
        }
    }

    /// Sets a field of the block.
    fn put(&mut self, at: usize, value: u32) {
        self.bytes[at..at + 4].copy_from_slice(&value.to_le_bytes());
    }

    fn flags(&mut self, flags: u32) {
        self.put(8, flags);
    }

    fn address(&mut self, address: u32) {
        self.put(12, address);
    }

    fn size(&mut self, size: u32) {
        self.put(16, size);
    }

    fn numbers(&mut self, number: u32, total: u32) {
        self.put(20, number);
        self.put(24, total);
    }

    fn family(&mut self, family: u32) {
        self.put(28, family);
    }

    fn region(&mut self, start: u32, len: u32) {
        self.put(484, start);
        self.put(488, len);
    }

    fn digest(&mut self, digest: [u8; 16]) {
        self.bytes[492..508].copy_from_slice(&digest);
    }

    fn table(&mut self) -> &mut [Entry; 16] {
        &mut self.bench.settings.table
    }

    /// The reason, whose answer has to be the one that a look gives.
    fn why(&self) -> Why {
        let bench = &self.bench;
        let why = why(
            &bench.settings,
            bench.transfer,
            &self.bytes,
            &bench.flash,
            &bench.seen,
            &bench.sectors,
            &bench.main,
            &bench.xip,
        );
        let looked = bench.look(&self.bytes);
        assert_eq!((why.answer, why.discarded), looked, "{why:?}");
        why
    }
}

fn running(family: u32, total: u32, count: u32, kind: Kind) -> Transfer {
    Transfer::Running {
        family,
        total,
        count,
        kind,
    }
}

fn done(total: u32) -> Transfer {
    Transfer::Done {
        family: DATA,
        total,
        kind: Kind::Flash,
    }
}

/// A reason with nothing told but the numbers.
fn plain(cause: u32, got: u64, against: u64) -> Why {
    Why {
        answer: (cause / 100) as u8,
        discarded: false,
        cause,
        got,
        against,
        entry: 0,
        other: 0,
        marks: [0; 16],
    }
}

fn of_entry(cause: u32, got: u64, against: u64, entry: u8) -> Why {
    Why {
        entry,
        ..plain(cause, got, against)
    }
}

fn with_marks(why: Why, first: &[u8]) -> Why {
    let mut marks = [0; 16];
    marks[..first.len()].copy_from_slice(first);
    Why { marks, ..why }
}

/// What mends the condition told before, and the reason told then.
type Step = (fn(&mut Case), Why);

/// Mends one condition after the other. Before each mending the condition that
/// it leads to is wrong already but not told, as an earlier one is; and when it
/// is told, those that the later steps lead to are wrong too. Only conditions
/// that can't be wrong together take turns.
fn chain(case: &mut Case, steps: &[Step]) {
    for (mend, expected) in steps {
        mend(case);
        assert_eq!(case.why(), *expected);
    }
}

/// Entries with one fault each, the earlier condition in the later entry; those
/// of 205 are told once entry 7 has sectors.
fn faulty_table() -> [Entry; 8] {
    let good = |k: u32| arm_s(2 * k, 2);
    let linked = |k: u32, link| Entry { link, ..good(k) };
    [
        Entry {
            user_count: 3,
            users: [USER, 0xe48b_ff5b, 0xe48b_ff56, 0],
            ..good(0)
        },
        Entry {
            user_count: 5,
            ..good(1)
        },
        linked(2, Link::BOf(0)),
        linked(3, Link::OwnedBy(2)),
        linked(4, Link::OwnedBy(4)),
        good(5),
        arm_s(12, 0xFFFF_FFFF),
        arm_s(11, 0),
    ]
}

/// All wrong that can be wrong together.
fn all_wrong() -> Case {
    let mut bench = Bench::new(with_table(&faulty_table()), 100);
    (bench.settings.arm, bench.settings.absolute) = (false, false);
    bench.settings.count = 17;
    bench.transfer = running(DATA, 0, 0, Kind::Flash);
    bench.seen = vec![];
    bench.sectors = vec![0; 1025];
    bench.main = vec![0; 1];
    bench.xip = vec![0; 532_480];
    Case {
        bench,
        bytes: vec![0; 511],
    }
}

/// One arrival from all wrong to kept, through every condition that a page for
/// flash can meet in its window with a table.
#[test]
fn a_page_for_flash() {
    let wrong_buffers: [Step; 9] = [
        (|_| {}, plain(101, 511, 512)),
        (|c| c.bytes = vec![0; 512], plain(102, 100, 4096)),
        (|c| c.bench.flash.clear(), plain(103, 0, 4096)),
        (
            |c| c.bench.flash = vec![0; 33_558_528],
            plain(104, 33_558_528, 33_554_432),
        ),
        (
            |c| {
                let mut random = Random(41);
                c.bench.flash = (0..LEN).map(|_| random.next() as u8).collect();
            },
            plain(105, 0, 16_384),
        ),
        (
            |c| c.bench.seen = vec![0xFF; 16_384],
            plain(106, 1025, 1024),
        ),
        (|c| c.bench.sectors.truncate(1024), plain(107, 1, 532_480)),
        (|c| c.bench.main.clear(), plain(108, 532_480, 16_384)),
        (|c| c.bench.xip.clear(), plain(201, 0, 0)),
    ];
    let wrong_settings: [Step; 9] = [
        (|c| c.bench.settings.arm = true, plain(202, 17, 16)),
        (|c| c.bench.settings.count = 8, of_entry(203, 0, 0, 7)),
        // (12 + 4,294,967,295) x 4,096
        (
            |c| c.table()[7].sectors = 1,
            of_entry(204, 17_592_186_089_472, 65_536, 6),
        ),
        (
            |c| c.table()[6].sectors = 2,
            Why {
                other: 7,
                ..of_entry(205, 7, 5, 5)
            },
        ),
        (|c| c.table()[7].first = 14, of_entry(206, 4, 4, 4)),
        (
            |c| c.table()[4].link = Link::OwnedBy(3),
            of_entry(207, 2, 3, 3),
        ),
        (
            |c| c.table()[3].link = Link::OwnedBy(1),
            of_entry(208, 5, 4, 1),
        ),
        (
            |c| c.table()[1].user_count = 4,
            of_entry(209, 0xe48b_ff5b, 0xe48b_ff56, 0),
        ),
        (|c| c.table()[0].users = [USER; 4], plain(301, 0, 1)),
    ];
    let wrong_states: [Step; 5] = [
        (
            |c| c.bench.transfer = running(DATA, 131_073, 200_000, Kind::Flash),
            plain(302, 200_000, 131_073),
        ),
        (
            |c| c.bench.transfer = running(DATA, 131_073, 131_072, Kind::Flash),
            plain(303, 131_073, 131_072),
        ),
        (|c| c.bench.transfer = done(0), plain(304, 0, 1)),
        (
            |c| c.bench.transfer = done(131_073),
            plain(305, 131_073, 131_072),
        ),
        (
            |c| {
                // Then the fields: a container, no family, and the rest.
                c.bench.transfer = done(9);
                c.put(0, 0x0A32_4654);
                c.put(4, 0xFFFF_FFFF);
                c.flags(0x1001);
                c.address(0x1000_2001);
                c.family(ABSOLUTE);
            },
            plain(401, 0x0A32_4654, 0x0A32_4655),
        ),
    ];
    let wrong_fields: [Step; 15] = [
        (|c| c.put(0, MAGIC_0), plain(402, 0xFFFF_FFFF, 0x9E5D_5157)),
        (|c| c.put(4, MAGIC_4), plain(403, 0, 0x0AB1_6F30)),
        (|c| c.put(508, MAGIC_508), plain(501, 0x1001, 0x1000)),
        (|c| c.flags(0xFFFF_CFFE), plain(701, 0xFFFF_CFFE, 0x2000)),
        (|c| c.flags(0x2000), plain(801, 0xe48b_ff57, 0)),
        (|c| c.family(RP2040), plain(802, 0xe48b_ff56, 0)),
        (
            |c| c.family(0xe48b_ff5b),
            with_marks(plain(806, 0xe48b_ff5b, 0), &[2, 2, 1, 2, 2, 2, 2, 2]),
        ),
        (|c| c.family(ARM_S), plain(901, 0, 256)),
        (|c| c.size(256), plain(1001, 0, 0)),
        (|c| c.numbers(40, 33), plain(1002, 8448, 8192)),
        (|c| c.numbers(40, 32), plain(1003, 40, 32)),
        (|c| c.numbers(5, 32), plain(1102, 0x1000_2001, 256)),
        (|c| c.address(0x1000_2000), plain(1103, 8448, 8192)),
        (|c| c.address(0x1000_1100), plain(1201, 5, 32)),
        (
            |c| c.bench.transfer = running(ARM_S, 32, 31, Kind::Flash),
            plain(1301, 5, 32),
        ),
    ];
    let accepted: [Step; 8] = [
        (|c| c.bench.seen[0] = 0b1111_1011, plain(1501, 32, 32)),
        (
            |c| {
                c.bench.transfer = running(ARM_S, 32, 30, Kind::Flash);
                c.region(FLASH - 1, 0);
            },
            plain(1401, 31, 32),
        ),
        (|c| c.flags(0x6000), plain(1403, 31, 32)),
        (|c| c.region(FLASH - 4096, 0), plain(1404, 31, 32)),
        (|c| c.region(FLASH - 4096, 4096), plain(1405, 31, 32)),
        (|c| c.region(FLASH, 4096), plain(1406, 31, 32)),
        (|c| c.region(FLASH + 4096, 4096), plain(1407, 31, 32)),
        (
            // The place is entry 0's, from the start of the flash.
            |c| c.digest(md5(&c.bench.flash[4096..8192])),
            plain(1701, 31, 32),
        ),
    ];
    let mut case = all_wrong();
    chain(&mut case, &wrong_buffers);
    chain(&mut case, &wrong_settings);
    chain(&mut case, &wrong_states);
    chain(&mut case, &wrong_fields);
    chain(&mut case, &accepted);
}

/// A good case, an arm-s page without a table.
fn good() -> Case {
    let mut bench = Bench::new(NO_TABLE, LEN);
    bench.seen.fill(0);
    Case::new(bench, page(1, 3))
}

#[test]
fn row_1_each_length() {
    let told = |change: &dyn Fn(&mut Case)| {
        let mut case = good();
        change(&mut case);
        case.why()
    };
    for len in [0, 1, 511, 513, 1024] {
        let why = told(&|c| c.bytes.resize(len, 0));
        assert_eq!(why, plain(101, len as u64, 512));
    }
    for (len, cause, against) in [
        (0, 103, 4096),
        (1, 102, 4096),
        (4095, 102, 4096),
        (4097, 102, 4096),
        (33_554_433, 102, 4096),
        (33_558_528, 104, 33_554_432),
    ] {
        let why = told(&|c| c.bench.flash = vec![0; len]);
        assert_eq!(why, plain(cause, len as u64, against));
    }
    for len in [0, 1024, 16_383, 16_385] {
        let why = told(&|c| c.bench.seen.resize(len, 0));
        assert_eq!(why, plain(105, len as u64, 16_384));
    }
    for len in [0, 1023, 16_384] {
        let why = told(&|c| c.bench.sectors.resize(len, 0));
        assert_eq!(why, plain(106, len as u64, 1024));
    }
    for len in [1, 16_384, 532_479, 532_481] {
        let why = told(&|c| c.bench.main.resize(len, 0));
        assert_eq!(why, plain(107, len as u64, 532_480));
    }
    for len in [1, 16_383, 16_385, 532_480] {
        let why = told(&|c| c.bench.xip.resize(len, 0));
        assert_eq!(why, plain(108, len as u64, 16_384));
    }
    for len in [4096, 33_554_432] {
        let why = told(&|c| c.bench.flash = vec![0; len]);
        assert_eq!(why, plain(1401, 1, 3));
    }
}

/// What settings are bad by, told of an arrival and of a place alike.
fn fault(s: Settings) -> Why {
    let mut case = good();
    case.bench.settings = s;
    let why = case.why();
    assert_eq!(why.answer, 2);
    for family in [ARM_S, RP2040] {
        assert_eq!(of_place(&why_place(&s, LEN, family)), why);
    }
    why
}

fn of_place(w: &WhyPlace) -> Why {
    Why {
        answer: w.answer,
        discarded: false,
        cause: w.cause,
        got: w.got,
        against: w.against,
        entry: w.entry,
        other: w.other,
        marks: w.marks,
    }
}

#[test]
fn row_2_the_condition_goes_before_the_entry() {
    let reserved = Entry {
        user_count: 1,
        users: [DATA, 0, 0, 0],
        ..arm_s(0, 1)
    };
    let mut list: Vec<Entry> = (0..6).map(|k| arm_s(k, 1)).collect();
    (list[0], list[5]) = (reserved, arm_s(5, 0));
    assert_eq!(fault(with_table(&list)), of_entry(203, 0, 0, 5));
    list[5] = arm_s(5, 1);
    let family = u64::from(DATA);
    let expected = of_entry(209, family, 0xe48b_ff56, 0);
    assert_eq!(fault(with_table(&list)), expected);
}

#[test]
fn row_2_the_first_entry_at_fault() {
    let mut s = NO_TABLE;
    (s.arm, s.current) = (true, Arch::RiscV);
    s.count = 255;
    assert_eq!(fault(s), plain(201, 0, 0));
    s.current = Arch::Arm;
    assert_eq!(fault(s), plain(202, 255, 16));
    // Entries that have no sectors, all of them.
    s.count = 16;
    assert_eq!(fault(s), of_entry(203, 0, 0, 0));
    s.count = 1;
    assert_eq!(fault(s), of_entry(203, 0, 0, 0));

    let two_past = with_table(&[arm_s(0, 1), arm_s(15, 2), arm_s(16, 2)]);
    assert_eq!(fault(two_past), of_entry(204, 69_632, 65_536, 1));

    let most = arm_s(u32::MAX, u32::MAX);
    let most = fault(with_table(&[most]));
    assert_eq!(most, of_entry(204, 35_184_372_080_640, 65_536, 0));

    let linked = |k: u32, link| Entry {
        link,
        ..arm_s(k, 1)
    };
    for make in [Link::OwnedBy, Link::BOf] {
        let s = with_table(&[arm_s(0, 1), linked(1, make(200)), linked(2, make(3))]);
        assert_eq!(fault(s), of_entry(206, 200, 1, 1));
        let s = with_table(&[linked(0, make(0))]);
        assert_eq!(fault(s), of_entry(206, 0, 0, 0));
        // An earlier entry links to a "B of", a later one not below itself.
        let b = linked(1, Link::BOf(0));
        let to_b = linked(2, make(1));
        let s = with_table(&[arm_s(0, 1), b, to_b, linked(3, make(3))]);
        assert_eq!(fault(s), of_entry(206, 3, 3, 3));
        let s = with_table(&[arm_s(0, 1), b, to_b, linked(3, make(1))]);
        assert_eq!(fault(s), of_entry(207, 1, 2, 2));
    }

    let users = |k: u32, user_count, users| Entry {
        user_count,
        users,
        ..arm_s(k, 1)
    };
    let s = with_table(&[
        users(0, 4, [USER, ABSOLUTE, RP2040, 0]),
        users(1, 7, [0; 4]),
        users(2, 255, [0; 4]),
    ]);
    assert_eq!(fault(s), of_entry(208, 7, 4, 1));
    let s = with_table(&[
        users(0, 1, [USER, DATA, 0, 0]),
        users(1, 4, [1, 2, 3, RISCV]),
    ]);
    let expected = of_entry(209, 0xe48b_ff5a, 0xe48b_ff56, 1);
    assert_eq!(fault(s), expected);
}

#[test]
fn row_2_the_two_that_share() {
    let shared = |list: &[Entry], k: u8, j: u8| {
        let expected = Why {
            other: j,
            ..of_entry(205, j.into(), k.into(), k)
        };
        assert_eq!(fault(with_table(list)), expected);
    };
    // With both of the others: the first of them.
    shared(&[arm_s(9, 1), arm_s(0, 4), arm_s(3, 1), arm_s(0, 1)], 1, 2);
    // Entry 0 goes first, though its other is later than 1's.
    shared(&[arm_s(0, 1), arm_s(4, 2), arm_s(5, 2), arm_s(0, 1)], 0, 3);
    shared(&[arm_s(4, 2), arm_s(5, 1)], 0, 1);
    shared(&[arm_s(5, 1), arm_s(4, 2)], 0, 1);
}

#[test]
fn row_3_each_bound() {
    let told = |transfer| {
        let mut case = good();
        case.bench.transfer = transfer;
        case.bytes[0] ^= 1;
        let why = case.why();
        (why.cause, why.got, why.against)
    };
    let differing = u64::from(MAGIC_0 ^ 1);
    let good_state = (401, differing, u64::from(MAGIC_0));
    for kind in [Kind::Flash, Kind::MainRam, Kind::XipRam] {
        for (total, count, expected) in [
            (0, 0, (301, 0, 1)),
            (2, 0, (301, 0, 1)),
            (u32::MAX, 0, (301, 0, 1)),
            (0, 1, (302, 1, 0)),
            (1, 1, (302, 1, 1)),
            (u32::MAX, u32::MAX, (302, 0xFFFF_FFFF, 0xFFFF_FFFF)),
            (131_073, 1, (303, 131_073, 131_072)),
            (u32::MAX, 1, (303, 0xFFFF_FFFF, 131_072)),
            (131_072, 131_071, good_state),
            (2, 1, good_state),
        ] {
            assert_eq!(told(running(ARM_S, total, count, kind)), expected);
        }
    }
    for (total, expected) in [
        (0, (304, 0, 1)),
        (1, good_state),
        (131_072, good_state),
        (131_073, (305, 131_073, 131_072)),
        (u32::MAX, (305, 0xFFFF_FFFF, 131_072)),
    ] {
        assert_eq!(told(done(total)), expected);
    }
    assert_eq!(told(Transfer::Idle), good_state);
}

#[test]
fn row_4_each_magic() {
    for (at, magic, cause) in [(0, MAGIC_0, 401), (4, MAGIC_4, 402), (508, MAGIC_508, 403)] {
        for bit in 0..32 {
            let mut case = good();
            let got = magic ^ (1 << bit);
            case.put(at, got);
            case.flags(0x1000);
            assert_eq!(case.why(), plain(cause, got.into(), magic.into()));
        }
    }
}

#[test]
fn rows_5_and_7_tell_all_flags() {
    for (flags, cause, against) in [
        (0x1000, 501, 0x1000),
        (0x1001, 501, 0x1000),
        (0xFFFF_FFFF, 501, 0x1000),
        (0, 701, 0x2000),
        (1, 701, 0x2000),
        (0xC000, 701, 0x2000),
    ] {
        let mut case = good();
        case.flags(flags);
        case.family(RP2040);
        assert_eq!(case.why(), plain(cause, flags.into(), against));
    }
}

/// The reason why a family has no place, told of a page, of a comment, of an
/// address in no window and of the place alone.
fn shut(s: Settings, family: u32) -> Why {
    let mut case = good();
    case.bench.settings = s;
    case.family(family);
    case.size(255);
    case.numbers(0, 0);
    let why = case.why();
    for address in [0, 0x1200_0000, MAIN, XIP] {
        case.address(address);
        assert_eq!(case.why(), why);
    }
    case.flags(0x2001);
    assert_eq!(case.why(), why);
    assert_eq!(of_place(&why_place(&s, LEN, family)), why);
    why
}

#[test]
fn row_8_without_a_table() {
    let mut s = NO_TABLE;
    s.absolute = false;
    assert_eq!(shut(s, ABSOLUTE), plain(801, 0xe48b_ff57, 0));
    assert_eq!(shut(s, RP2040), plain(802, 0xe48b_ff56, 0));
    assert_eq!(shut(s, RISCV), plain(804, 0xe48b_ff5a, 0));
    (s.arm, s.riscv, s.current) = (false, true, Arch::RiscV);
    assert_eq!(shut(s, ARM_S), plain(803, 0xe48b_ff59, 0));
    for family in [ARM_NS, USER, 0, u32::MAX] {
        assert_eq!(shut(s, family), plain(805, family.into(), 0));
    }
}

#[test]
fn row_8_with_a_table() {
    let b = Entry {
        link: Link::BOf(0),
        riscv: true,
        user_count: 1,
        users: [USER, 0, 0, 0],
        ..arm_s(5, 1)
    };
    let owned = Entry {
        link: Link::OwnedBy(0),
        data: true,
        ..arm_s(6, 1)
    };
    let mut s = with_table(&[arm_s(4, 1), b, owned]);
    (s.absolute, s.riscv) = (false, true);
    assert_eq!(shut(s, ABSOLUTE), plain(801, 0xe48b_ff57, 0));
    assert_eq!(shut(s, RP2040), plain(802, 0xe48b_ff56, 0));
    // The "B of" may accept it or not; the architecture's setting isn't asked.
    for family in [RISCV, USER, ARM_NS, 0] {
        let expected = with_marks(plain(806, family.into(), 0), &[2, 1, 2]);
        assert_eq!(shut(s, family), expected);
    }
    // All sixteen entries have a mark.
    let mut full = NO_TABLE;
    full.count = 16;
    full.table = std::array::from_fn(|k| Entry {
        link: [Link::None, Link::BOf(0)][k % 2],
        ..arm_s(k as u32, 1)
    });
    let expected = with_marks(plain(806, 0xe48b_ff58, 0), &[2, 1].repeat(8));
    assert_eq!(shut(full, DATA), expected);
}

/// An address in no window: 8, 9, then 11 before 10.
#[test]
fn a_page_in_no_window() {
    let mut case = Case::new(Bench::new(with_table(&[arm_s(4, 2)]), LEN), ONLY);
    case.bench.transfer = done(1);
    case.address(0x0FFF_FF01);
    case.family(DATA);
    case.size(1);
    case.numbers(7, 0);
    let steps: [Step; 8] = [
        (|_| {}, with_marks(plain(806, 0xe48b_ff58, 0), &[2])),
        (|c| c.family(ARM_S), plain(901, 1, 256)),
        (|c| c.size(256), plain(1101, 0x0FFF_FF01, 0x1000_0000)),
        (|c| c.address(0), plain(1101, 0, 0x1000_0000)),
        (
            |c| c.address(0x1200_0001),
            plain(NO_WINDOW, 0x1200_0001, 0x1200_0000),
        ),
        (
            |c| c.address(0x1200_0000),
            plain(NO_WINDOW, 0x1200_0000, 0x1200_0000),
        ),
        (
            |c| c.address(0xFFFF_FF00),
            plain(NO_WINDOW, 0xFFFF_FF00, 0x1200_0000),
        ),
        // In the window it is 10 that goes first.
        (|c| c.address(0x1000_2001), plain(1001, 0, 0)),
    ];
    chain(&mut case, &steps);
    // A window without its buffer is none; a multiple of 256 isn't asked for.
    for address in [
        MAIN,
        MAIN + 1,
        0x2008_1FFF,
        0x2008_2000,
        XIP - 1,
        XIP,
        XIP + 255,
        0x1400_0000,
        0x1200_0000,
        u32::MAX,
    ] {
        case.address(address);
        assert_eq!(case.why(), plain(NO_WINDOW, address.into(), 0x1200_0000));
    }
    case.address(0x0FFF_FFFF);
    assert_eq!(case.why(), plain(1101, 0x0FFF_FFFF, 0x1000_0000));
    // The largest place ends where the window does.
    case.bench.settings = NO_TABLE;
    case.bench.flash = vec![0; 33_554_432];
    case.address(0x1200_0000);
    assert_eq!(case.why(), plain(NO_WINDOW, 0x1200_0000, 0x1200_0000));
    case.numbers(0, 1);
    case.bench.transfer = Transfer::Idle;
    case.address(0x11FF_FF00);
    assert_eq!(case.why(), plain(1501, 1, 1));
    case.address(0x11FF_FFFF);
    assert_eq!(case.why(), plain(1102, 0x11FF_FFFF, 256));
    // A RAM that is there has its window, and no other.
    let mut case = Case::new(Bench::new(NO_TABLE, LEN), ONLY);
    case.bench.main = vec![0; MAIN_LEN];
    for (address, expected) in [
        (MAIN - 1, plain(NO_WINDOW, 0x1FFF_FFFF, 0x1200_0000)),
        (MAIN, plain(1501, 1, 1)),
        (0x2008_1F01, plain(1104, 0x2008_2001, 0x2008_2000)),
        (0x2008_1FFF, plain(1104, 0x2008_20FF, 0x2008_2000)),
        (0x2008_2000, plain(NO_WINDOW, 0x2008_2000, 0x1200_0000)),
        (XIP, plain(NO_WINDOW, 0x13ff_c000, 0x1200_0000)),
    ] {
        case.address(address);
        assert_eq!(case.why(), expected);
    }
}

/// A link that is none is told where an index not below would be: after the
/// conditions before that, and for the first entry with either.
#[test]
fn links_that_are_none() {
    let told = |s: Settings, no_links: &NoLinks, len: usize| {
        let bench = Bench::new(s, len);
        let w = why_of_bytes(
            &s,
            no_links,
            Transfer::Idle,
            &arrival(ONLY),
            &bench.flash,
            &bench.seen,
            &bench.sectors,
            &[],
            &[],
        );
        let alone = why_place_of_bytes(&s, no_links, len, ARM_S);
        if w.answer <= 2 {
            assert_eq!(of_place(&alone), w);
        }
        w
    };
    let at = |k: usize, byte| {
        let mut no_links = [None; 16];
        no_links[k] = Some(byte);
        no_links
    };
    let mut s = with_table(&[arm_s(0, 1), arm_s(1, 1), arm_s(2, 1), arm_s(3, 1)]);
    for byte in [3, 4, 255] {
        for k in 0..4 {
            let expected = of_entry(NO_LINK, byte.into(), 2, k as u8);
            assert_eq!(told(s, &at(k, byte), LEN), expected);
        }
        // Of an entry that isn't used nothing is asked.
        for k in 4..16 {
            assert_eq!(told(s, &at(k, byte), LEN), plain(1501, 1, 1));
        }
    }
    let mut both = at(1, 9);
    both[3] = Some(3);
    assert_eq!(told(s, &both, LEN), of_entry(211, 9, 2, 1));
    // Entry by entry with 206.
    s.table[2].link = Link::OwnedBy(2);
    assert_eq!(told(s, &both, LEN), of_entry(211, 9, 2, 1));
    assert_eq!(told(s, &at(3, 3), LEN), of_entry(206, 2, 2, 2));
    assert_eq!(told(s, &at(2, 3), LEN), of_entry(211, 3, 2, 2));
    s.table[2].link = Link::None;
    // All that is after it, in an earlier entry.
    s.table[0].user_count = 5;
    assert_eq!(told(s, &both, LEN), of_entry(211, 9, 2, 1));
    s.table[0].user_count = 0;
    (s.table[1].link, s.table[2].link) = (Link::BOf(0), Link::BOf(1));
    assert_eq!(told(s, &at(3, 3), LEN), of_entry(211, 3, 2, 3));
    assert_eq!(told(s, &[None; 16], LEN), of_entry(207, 1, 2, 2));
    // What is before it, in a later entry or of none.
    let shares = Why {
        other: 3,
        ..of_entry(205, 3, 2, 2)
    };
    s.table[3].first = 2;
    assert_eq!(told(s, &both, LEN), shares);
    s.table[3].first = 16;
    assert_eq!(told(s, &both, LEN), of_entry(204, 69_632, 65_536, 3));
    s.table[3].sectors = 0;
    assert_eq!(told(s, &both, LEN), of_entry(203, 0, 0, 3));
    s.count = 17;
    assert_eq!(told(s, &both, LEN), plain(202, 17, 16));
    s.arm = false;
    assert_eq!(told(s, &both, LEN), plain(201, 0, 0));
    assert_eq!(told(s, &both, LEN - 1), plain(102, 65_535, 4096));
}

#[test]
fn a_page_for_ram() {
    for (kind, window, end, room) in [
        (Kind::MainRam, MAIN, 0x2008_2000, 532_480),
        (Kind::XipRam, XIP, 0x1400_0000, 16_384),
    ] {
        let most = room as u32 / 256;
        // Neither "absolute allowed" nor an entry past the count helps.
        let mut s = with_table(&[arm_s(4, 2)]);
        s.table[1] = Entry {
            user_count: 1,
            users: [USER, 0, 0, 0],
            ..arm_s(6, 1)
        };
        let mut case = Case::new(Bench::with_ram(s, LEN), ONLY);
        case.bench.transfer = done(1);
        case.bench.seen.fill(0xFF);
        case.address(window + room as u32 - 255);
        case.size(0);
        case.numbers(most, 0);
        for family in [ABSOLUTE, RP2040, USER, 0xe48b_ff5c] {
            case.family(family);
            assert_eq!(case.why(), plain(807, family.into(), 0));
        }
        case.family(ARM_NS);
        assert_eq!(case.why(), plain(901, 0, 256));
        case.size(256);
        assert_eq!(case.why(), plain(1001, 0, 0));
        case.numbers(most + 1, most + 1);
        assert_eq!(case.why(), plain(1002, room + 256, room));
        case.numbers(most + 1, most);
        assert_eq!(case.why(), plain(1003, u64::from(most) + 1, most.into()));
        case.numbers(most - 1, most);
        assert_eq!(case.why(), plain(1104, end + 1, end));
        case.address(window + room as u32 - 256);
        assert_eq!(case.why(), plain(1201, u64::from(most) - 1, most.into()));
        // By byte address: no multiple of 256 is asked for.
        case.address(window + room as u32 - 257);
        assert_eq!(case.why(), plain(1201, u64::from(most) - 1, most.into()));
        case.bench.transfer = running(ARM_NS, most, most - 1, kind);
        assert_eq!(case.why(), plain(1301, u64::from(most) - 1, most.into()));
        case.bench.seen.fill(0);
        assert_eq!(case.why(), plain(1501, most.into(), most.into()));
        case.bench.transfer = running(ARM_NS, most, most - 2, kind);
        // Without the flag it is the flag, with it the RAM.
        assert_eq!(case.why(), plain(1401, u64::from(most) - 1, most.into()));
        case.flags(0x6000);
        assert_eq!(case.why(), plain(1402, u64::from(most) - 1, most.into()));
        case.region(FLASH, 4096);
        case.digest(md5(&case.bench.flash[16_384..20_480]));
        assert_eq!(case.why(), plain(1402, u64::from(most) - 1, most.into()));
        // A user family, though of a "B of".
        case.bench.settings.count = 2;
        case.table()[1].link = Link::BOf(0);
        case.family(USER);
        let discarding = Why {
            discarded: true,
            ..plain(1402, 1, most.into())
        };
        assert_eq!(case.why(), discarding);
    }
}

#[test]
fn a_comment() {
    let mut case = Case::new(Bench::new(with_table(&[arm_s(4, 2)]), LEN), ONLY);
    case.bench.transfer = done(9);
    case.bench.seen.fill(0xFF);
    case.bench.settings.absolute = false;
    // Size and address are never asked; nor is a region.
    case.flags(0x5001);
    case.size(77);
    case.address(0xFFFF_FFFF);
    case.family(ABSOLUTE);
    case.numbers(40, 0);
    let steps: [Step; 11] = [
        (|_| {}, plain(501, 0x5001, 0x1000)),
        (|c| c.flags(0x4001), plain(701, 0x4001, 0x2000)),
        (|c| c.flags(0x6001), plain(801, 0xe48b_ff57, 0)),
        (
            |c| c.family(DATA),
            with_marks(plain(806, 0xe48b_ff58, 0), &[2]),
        ),
        (|c| c.family(ARM_S), plain(1001, 0, 0)),
        (|c| c.numbers(40, 33), plain(1002, 8448, 8192)),
        (|c| c.numbers(40, 32), plain(1003, 40, 32)),
        (|c| c.numbers(31, 32), plain(1201, 31, 32)),
        (
            |c| c.bench.transfer = running(ARM_S, 32, 31, Kind::Flash),
            plain(1301, 31, 32),
        ),
        (|c| c.bench.seen.fill(0), plain(1501, 32, 32)),
        (
            |c| c.bench.transfer = running(ARM_S, 32, 1, Kind::Flash),
            plain(1601, 2, 32),
        ),
    ];
    chain(&mut case, &steps);
    case.flags(0x2001);
    assert_eq!(case.why(), plain(1601, 2, 32));
}

#[test]
fn a_comment_by_the_running_kind() {
    for (kind, room) in [(Kind::MainRam, 532_480), (Kind::XipRam, 16_384)] {
        let most = room as u32 / 256;
        let mut case = Case::new(Bench::with_ram(NO_TABLE, 4096), ONLY);
        case.flags(0x2001);
        case.size(0);
        case.numbers(most + 2, most + 1);
        let over = most + 1;
        // Flash's place would be there for absolute, yet it is no RAM family.
        case.family(ABSOLUTE);
        case.bench.transfer = running(ABSOLUTE, over, 1, kind);
        assert_eq!(case.why(), plain(807, 0xe48b_ff57, 0));
        case.family(ARM_NS);
        case.bench.transfer = running(ARM_NS, over, 1, kind);
        assert_eq!(case.why(), plain(1002, room + 256, room));
        case.numbers(most, most);
        case.bench.transfer = running(ARM_NS, most, 1, kind);
        assert_eq!(case.why(), plain(1003, most.into(), most.into()));
        case.numbers(0, most);
        case.bench.seen.fill(0xFF);
        assert_eq!(case.why(), plain(1301, 0, most.into()));
        case.bench.seen.fill(0);
        assert_eq!(case.why(), plain(1601, 2, most.into()));
        // Of another total, or without the kind's buffer, it is flash's.
        case.bench.transfer = running(ARM_NS, most - 1, 1, kind);
        assert_eq!(case.why(), plain(805, 0xe48b_ff5b, 0));
        case.bench.transfer = running(ARM_NS, most, 1, kind);
        case.bench.main.clear();
        case.bench.xip.clear();
        assert_eq!(case.why(), plain(805, 0xe48b_ff5b, 0));
        case.family(ARM_S);
        case.bench.transfer = running(ARM_S, most, 1, kind);
        assert_eq!(case.why(), plain(1002, room, 4096));
    }
}

/// The numbers from row 12 on: where the maps are cleared the count is 1.
#[test]
fn the_raised_count() {
    let mut case = good();
    assert_eq!(case.why(), plain(1401, 1, 3));
    case.bench.seen.fill(0xFF);
    assert_eq!(case.why(), plain(1401, 1, 3));
    case.bench.transfer = running(ARM_S, 3, 1, Kind::Flash);
    assert_eq!(case.why(), plain(1301, 1, 3));
    case.bench.seen.fill(0);
    assert_eq!(case.why(), plain(1401, 2, 3));
    case.bench.transfer = running(ARM_S, 3, 2, Kind::Flash);
    assert_eq!(case.why(), plain(1501, 3, 3));
    let discards = |why: Why| Why {
        discarded: true,
        ..why
    };
    case.bench.seen.fill(0xFF);
    for (family, total, kind) in [
        (DATA, 3, Kind::Flash),
        (ARM_S, 4, Kind::Flash),
        (ARM_S, 3, Kind::XipRam),
    ] {
        case.bench.transfer = running(family, total, 2, kind);
        assert_eq!(case.why(), discards(plain(1401, 1, 3)));
    }
    case.bench.transfer = running(DATA, 9, 8, Kind::Flash);
    case.flags(0x2001);
    assert_eq!(case.why(), discards(plain(1601, 1, 3)));
    case.numbers(0, 1);
    assert_eq!(case.why(), discards(plain(1501, 1, 1)));
    case.flags(0x6000);
    assert_eq!(case.why(), discards(plain(1501, 1, 1)));
    case.numbers(0, 2);
    case.region(FLASH, 4096);
    case.digest(md5(&case.bench.flash[..4096]));
    assert_eq!(case.why(), discards(plain(1701, 1, 2)));
    // A refusal discards nothing.
    case.address(FLASH + 1);
    assert_eq!(case.why(), plain(1102, 0x1000_0001, 256));
    // Done tells the block's own numbers, whatever its own total was.
    case.address(FLASH);
    case.bench.transfer = done(9);
    assert_eq!(case.why(), plain(1201, 0, 2));
}

/// Why a page is written and not kept, in a place that isn't the flash's start.
#[test]
fn row_14_each_condition() {
    let mut bench = Bench::new(with_table(&[arm_s(4, 4)]), LEN);
    let mut random = Random(43);
    bench.flash.fill_with(|| random.next() as u8);
    // The second page of the place's second sector.
    let block = Fields {
        flags: 0x6000,
        address: FLASH + 4096 + 256,
        ..page(1, 3)
    };
    let mut case = Case::new(bench, block);
    let mut told = |start: u32, len: u32| {
        case.region(start, len);
        let from = (16_384 + start.wrapping_sub(FLASH) as usize).min(LEN);
        let to = from.saturating_add(len as usize).min(LEN);
        case.digest(md5(&case.bench.flash[from..to]));
        let why = case.why();
        assert_eq!(why, plain(why.cause, 1, 3));
        let kept = why.cause;
        case.bytes[500] ^= 1;
        let other = case.why().cause;
        assert_eq!(other, if kept == 1701 { 1407 } else { kept });
        kept
    };
    for (start, len, cause) in [
        (FLASH + 4096, 4096, 1701),
        (FLASH, 8192, 1701),
        (FLASH, 16_384, 1701),
        (FLASH + 4096, 12_288, 1701),
        (FLASH + 1, 0, 1403),
        (FLASH + 256, 4096, 1403),
        (FLASH, 8191, 1403),
        (FLASH + 4096, 256, 1403),
        (0, 1, 1403),
        (u32::MAX, u32::MAX, 1403),
        (0, 0, 1404),
        (FLASH + 4096, 0, 1404),
        (FLASH + 65_536, 0, 1404),
        (0xFFFF_F000, 0, 1404),
        (0, 4096, 1405),
        (FLASH - 4096, 12_288, 1405),
        (FLASH, 20_480, 1405),
        (FLASH + 16_384, 4096, 1405),
        (FLASH + 4096, 0xFFFF_F000, 1405),
        (0xFFFF_F000, 0xFFFF_F000, 1405),
        (MAIN, 4096, 1405),
        (FLASH, 4096, 1406),
        (FLASH + 8192, 4096, 1406),
        (FLASH + 8192, 8192, 1406),
    ] {
        assert_eq!(told(start, len), cause, "{start:x} {len}");
    }
}

/// The families of all rules.
const FAMILIES: [u32; 9] = [
    RP2040,
    ABSOLUTE,
    DATA,
    ARM_S,
    RISCV,
    ARM_NS,
    USER,
    USER + 1,
    u32::MAX,
];

/// A table that is good but for a fault now and then.
fn any_table(random: &mut Random) -> Settings {
    let arm = random.below(3) > 0;
    let riscv = !arm || random.yes();
    let current = match (arm, riscv) {
        (true, false) => Arch::Arm,
        (false, _) => Arch::RiscV,
        _ => random.pick(&[Arch::Arm, Arch::RiscV]),
    };
    let mut s = Settings {
        arm,
        riscv,
        current,
        auto_switch: random.yes(),
        absolute: random.yes(),
        count: random.pick(&[0, 1, 2, 3, 5, 8, 16]),
        table: [Entry::EMPTY; 16],
    };
    let order = random.below(8);
    for k in 0..16 {
        let target = random.below(k.max(1));
        let linked = k > 0 && !matches!(s.table[target].link, Link::BOf(_));
        let target = target as u8;
        s.table[k] = Entry {
            first: 2 * (k ^ order) as u32,
            sectors: 1 + random.below(2) as u32,
            data: random.below(4) == 0,
            arm_s: random.below(4) == 0,
            riscv: random.below(4) == 0,
            arm_ns: random.below(8) == 0,
            user_count: random.pick(&[0, 0, 1, 2]),
            users: [USER + random.below(3) as u32, USER, DATA, RP2040],
            not_bootable_arm: random.yes(),
            not_bootable_riscv: random.yes(),
            link: match random.below(4) {
                0 | 1 if linked => Link::OwnedBy(target),
                2 if linked => Link::BOf(target),
                _ => Link::None,
            },
        };
    }
    for _ in 0..random.pick(&[0, 0, 0, 0, 1, 2]) {
        spoil(random, &mut s);
    }
    s
}

/// Makes one thing in the settings bad, mostly.
fn spoil(random: &mut Random, s: &mut Settings) {
    let k = random.below(usize::from(s.count).clamp(1, 16));
    let entry = &mut s.table[k];
    match random.below(9) {
        0 => (s.arm, s.riscv) = (s.current != Arch::Arm, s.current != Arch::RiscV),
        1 => s.count = random.pick(&[17, 255]),
        2 => entry.sectors = 0,
        3 => entry.sectors = random.pick(&[33, 1 << 20, u32::MAX]),
        4 => entry.first = random.below(32) as u32,
        5 => entry.link = Link::OwnedBy(random.pick(&[k as u8, 16, 255])),
        6 => entry.link = Link::BOf(random.below(16) as u8),
        7 => entry.user_count = random.pick(&[3, 4, 5, 255]),
        _ => (entry.user_count, entry.users[0]) = (1, random.pick(&[RP2040, ARM_NS, ARM_NS + 1])),
    }
}

#[test]
fn places_by_their_rules() {
    let found = |s: &Settings, family| {
        let why = why_place(s, LEN, family);
        let told = of_place(&why);
        assert_eq!(told, of_entry(why.cause, why.got, 0, why.entry));
        (why.cause, why.got, why.entry)
    };
    let absolute = with_table(&[arm_s(4, 2)]);
    assert_eq!(found(&absolute, ABSOLUTE), (BY_ABSOLUTE, 0, 0));
    assert_eq!(found(&NO_TABLE, ABSOLUTE), (BY_ABSOLUTE, 0, 0));
    assert_eq!(found(&NO_TABLE, DATA), (BY_NO_TABLE, 0, 0));
    assert_eq!(found(&NO_TABLE, ARM_S), (BY_NO_TABLE, 0, 0));
    let both = |first, not_bootable_arm, not_bootable_riscv| Entry {
        riscv: true,
        not_bootable_arm,
        not_bootable_riscv,
        ..arm_s(first, 1)
    };
    let owned = Entry {
        link: Link::OwnedBy(0),
        data: true,
        ..arm_s(5, 1)
    };
    let mut s = with_table(&[
        both(0, true, true),
        both(1, false, true),
        both(2, true, false),
        owned,
    ]);
    (s.riscv, s.auto_switch) = (true, true);
    assert_eq!(found(&s, ARM_S), (BY_ENTRY, 1, 1));
    assert_eq!(found(&s, RISCV), (BY_ENTRY, 2, 2));
    assert_eq!(found(&s, DATA), (BY_ENTRY, 4, 3));
    s.auto_switch = false;
    assert_eq!(found(&s, RISCV), (BY_ENTRY, 3, 0));
    (s.auto_switch, s.riscv) = (true, false);
    assert_eq!(found(&s, RISCV), (BY_ENTRY, 3, 0));
    (s.riscv, s.current) = (true, Arch::RiscV);
    assert_eq!(found(&s, RISCV), (BY_ENTRY, 1, 2));
    assert_eq!(found(&s, ARM_S), (BY_ENTRY, 2, 1));
    s.arm = false;
    assert_eq!(found(&s, ARM_S), (BY_ENTRY, 3, 0));
}

/// A place alone is refused by 1, 2 or 8, in that order.
#[test]
fn places_refused_in_order() {
    let mut s = with_table(&[arm_s(4, 0)]);
    let told = |s: &Settings, len| of_place(&why_place(s, len, DATA));
    assert_eq!(told(&s, 100), plain(102, 100, 4096));
    assert_eq!(told(&s, 0), plain(103, 0, 4096));
    let over = told(&s, 33_558_528);
    assert_eq!(over, plain(104, 33_558_528, 33_554_432));
    let most = usize::MAX - 4095;
    assert_eq!(told(&s, most), plain(104, most as u64, 33_554_432));
    assert_eq!(told(&s, LEN), of_entry(203, 0, 0, 0));
    s.table[0].sectors = 2;
    let shut = with_marks(plain(806, 0xe48b_ff58, 0), &[2]);
    assert_eq!(told(&s, LEN), shut);
}

/// Places of all families over random tables: the answer is that of the place
/// asked for, and a place found is where the reason says.
#[test]
fn places_are_the_reference_s_own() {
    let mut random = Random(2029);
    let mut causes = BTreeMap::new();
    for _ in 0..4000 {
        let s = any_table(&mut random);
        let lens = [
            131_072,
            131_072,
            131_072,
            131_072,
            135_168,
            4096,
            0,
            5000,
            1 << 26,
        ];
        let len = random.pick(&lens);
        for family in FAMILIES {
            let why = why_place(&s, len, family);
            *causes.entry((why.cause, why.got.min(4))).or_insert(0) += 1;
            let told = match why.cause {
                BY_ABSOLUTE | BY_NO_TABLE => Ok((0, len)),
                BY_ENTRY => {
                    let entry = s.table[usize::from(why.entry)];
                    Ok((entry.first as usize * 4096, entry.sectors as usize * 4096))
                }
                _ => Err(why.answer),
            };
            assert_eq!(told, ask_place(&s, len, family), "{why:?}");
            assert_eq!(why.answer == 0, told.is_ok());
            assert!(fits(&of_place(&why)), "{why:?}");
        }
    }
    for pass in 1..=4 {
        let met = causes.get(&(BY_ENTRY, pass)).copied().unwrap_or(0);
        assert!(met > 30, "pass {pass}: {met}");
    }
    let told = |cause| causes.keys().any(|&(c, _)| c == cause);
    let all = [102, 103, 104]
        .into_iter()
        .chain(201..=209)
        .chain(801..=806)
        .chain([BY_ABSOLUTE, BY_NO_TABLE]);
    for cause in all {
        assert!(told(cause), "{cause}");
    }
}

/// Whether the numbers told are such that the condition holds, as far as they
/// show it, and nothing is told that is another condition's.
fn fits(w: &Why) -> bool {
    let (got, against) = (w.got, w.against);
    let no_entry = w.entry == 0 && w.other == 0;
    let no_marks = w.marks == [0; 16];
    let told = match w.cause {
        102 | 1102 => got % against != 0,
        101 | 105..=108 | 401..=403 | 901 => got != against,
        103 | 301 | 304 | 1101 => got < against,
        104 | 202 | 204 | 208 | 303 | 305 | 1002 | 1103 | 1104 => got > against,
        302 | 1003 => got >= against,
        201 | 203 | 1001 => (got, against) == (0, 0),
        205 => got > against && w.other as u64 == got && w.entry as u64 == against,
        206 => got >= against && w.entry as u64 == against,
        207 => got < against && w.entry as u64 == against,
        209 => (0xe48b_ff56..=0xe48b_ff5b).contains(&got) && against == 0xe48b_ff56,
        501 => against == 0x1000 && got & against != 0,
        701 => against == 0x2000 && got & against == 0,
        801..=807 => against == 0 && got <= 0xFFFF_FFFF,
        NO_WINDOW => against == 0x1200_0000 && (against..1 << 32).contains(&got),
        1201 | 1301 => got < against,
        1401..=1407 | 1601 | 1701 => 1 <= got && got < against,
        1501 => got == against,
        BY_ABSOLUTE | BY_NO_TABLE => (got, against) == (0, 0),
        BY_ENTRY => (1..=4).contains(&got) && against == 0,
        _ => false,
    };
    let entry_told = (203..=209).contains(&w.cause) || w.cause == BY_ENTRY;
    told && (no_entry || entry_told)
        && (w.other == 0 || w.cause == 205)
        && no_marks == (w.cause != 806)
        && (!w.discarded || w.answer >= 14)
}

/// Buffers to lend from, made once.
struct Shelf {
    flash: Vec<u8>,
    seen: [Vec<u8>; 3],
    sectors: Vec<u8>,
    main: Vec<u8>,
    xip: Vec<u8>,
}

/// What one random arrival meets: lengths to cut the buffers to, and the rest.
struct Drawn {
    settings: Settings,
    transfer: Transfer,
    fields: Fields,
    bytes: [u8; 512],
    arrival_len: usize,
    flash_len: usize,
    seen: usize,
    seen_len: usize,
    sectors_len: usize,
    main_len: usize,
    xip_len: usize,
}

fn draw(random: &mut Random, shelf: &Shelf) -> Drawn {
    let settings = match random.below(8) {
        0..3 => any_table(random),
        3 => Settings {
            absolute: false,
            arm: false,
            riscv: true,
            current: Arch::RiscV,
            ..NO_TABLE
        },
        4 => with_table(&[arm_s(4, 4)]),
        _ => NO_TABLE,
    };
    let mut drawn = Drawn {
        settings,
        transfer: Transfer::Idle,
        fields: ONLY,
        bytes: [0; 512],
        arrival_len: 512,
        flash_len: 131_072,
        seen: random.below(3),
        seen_len: SEEN_LEN,
        sectors_len: SECTORS_LEN,
        main_len: random.pick(&[0, MAIN_LEN]),
        xip_len: random.pick(&[0, XIP_LEN]),
    };
    drawn.fields = any_block(random);
    drawn.transfer = any_transfer(random, drawn.fields);
    for _ in 0..random.pick(&[0, 0, 1, 1, 2]) {
        drawn.spoil(random);
    }
    drawn.bytes = arrival(drawn.fields);
    if drawn.fields.flags & 0x4000 != 0 {
        any_region(random, &mut drawn, shelf);
    }
    if random.below(30) == 0 {
        let at = random.pick(&[0, 3, 4, 508, 511]);
        drawn.bytes[at] ^= 1;
        drawn.bytes[508] ^= random.pick(&[0, 1]);
    }
    drawn
}

/// A block that is mostly good, in one of the windows.
fn any_block(random: &mut Random) -> Fields {
    let total = random.pick(&[1, 2, 3, 3, 8, 16]);
    let window = random.pick(&[FLASH, FLASH, FLASH, FLASH, MAIN, XIP]);
    Fields {
        flags: random.pick(&[0x2000, 0x6000, 0x6000, 0x2001, 0x6001]),
        address: window + 256 * random.below(16) as u32,
        size: 256,
        number: random.below(total as usize) as u32,
        total,
        family: match random.below(4) {
            0 => random.pick(&FAMILIES),
            _ => random.pick(&[ARM_S, DATA]),
        },
        fill: random.next() as u8,
    }
}

fn any_transfer(random: &mut Random, f: Fields) -> Transfer {
    let family = random.pick(&[f.family, f.family, f.family, DATA]);
    let total = random.pick(&[f.total, f.total, f.total, 5]).max(2);
    let count = 1 + random.below(total as usize - 1) as u32;
    let kind = match f.address {
        _ if random.below(4) == 0 => random.pick(&[Kind::Flash, Kind::MainRam, Kind::XipRam]),
        MAIN.. => Kind::MainRam,
        XIP.. => Kind::XipRam,
        _ => Kind::Flash,
    };
    match random.below(8) {
        0 => Transfer::Done {
            family,
            total,
            kind,
        },
        1..3 => Transfer::Idle,
        _ => running(family, total, count, kind),
    }
}

impl Drawn {
    /// Makes one thing bad, mostly.
    fn spoil(&mut self, random: &mut Random) {
        let f = &mut self.fields;
        match random.below(18) {
            0 => self.arrival_len = random.pick(&[0, 511]),
            1 => self.flash_len = random.pick(&[0, 100, 4097, MAX_FLASH_LEN + 4096]),
            2 => self.flash_len = random.pick(&[4096, 8192, MAX_FLASH_LEN]),
            3 => self.seen_len = random.pick(&[0, SEEN_LEN - 1]),
            4 => self.sectors_len = random.pick(&[0, SECTORS_LEN - 1]),
            5 => self.main_len = random.pick(&[1, MAIN_LEN - 1]),
            6 => self.xip_len = random.pick(&[1, XIP_LEN - 1]),
            7 => spoil(random, &mut self.settings),
            8 => {
                let numbers = [0, 1, 2, 131_072, 131_073, u32::MAX];
                let (total, count) = (random.pick(&numbers), random.pick(&numbers));
                self.transfer = match random.yes() {
                    true => running(f.family, total, count, Kind::Flash),
                    false => done(total),
                };
            }
            9 => f.flags ^= random.pick(&[0x1000, 0x2000, 0x3000]),
            10 | 11 => f.family = random.pick(&FAMILIES),
            12 => f.size = random.pick(&[0, 255, 257]),
            13 => f.total = random.pick(&[0, 65, 2081, 1 << 24, u32::MAX]),
            14 => f.number = random.pick(&[f.total, u32::MAX]),
            15 => {
                let near = [1, 0x8000, 0xF_FFFF, 0x0FFF_FF00, 0x3F01, 0x8_1F01];
                f.address = f.address.wrapping_add(random.pick(&near));
            }
            16 if random.yes() => {
                f.address = random.pick(&[0x2008_1F01, 0x2008_1FFF, 0x13FF_FF01, 0x13FF_FFFF]);
            }
            16 => f.address = random.pick(&[0, 0x1200_0000, 0x1200_0001, 0xFFFF_FF00]),
            _ => f.number = 0,
        }
    }
}

/// A region around the block or not, mostly with the digest of what is there.
fn any_region(random: &mut Random, drawn: &mut Drawn, shelf: &Shelf) {
    let starts = [FLASH, FLASH, FLASH, FLASH + 4096, FLASH - 4096, FLASH + 1];
    let start = random.pick(&starts);
    let len = random.pick(&[4096, 4096, 8192, 0, 256, 1 << 20]);
    let place = ask_place(&drawn.settings, drawn.flash_len, drawn.fields.family);
    let from = place.map_or(0, |(start, _)| start) + start.saturating_sub(FLASH) as usize;
    let digest = match random.below(4) {
        0 => [0; 16],
        _ => md5(&shelf.flash[from..from + (len as usize).min(8192)]),
    };
    drawn.bytes[484..488].copy_from_slice(&start.to_le_bytes());
    drawn.bytes[488..492].copy_from_slice(&u32::to_le_bytes(len));
    drawn.bytes[492..508].copy_from_slice(&digest);
}

/// 100,000 random arrivals: the answer and "discarded" are a look's, the
/// numbers fit the condition, and every condition is met.
#[test]
fn random_arrivals_have_the_answer_of_a_look() {
    let mut random = Random(61);
    let shelf = Shelf {
        flash: (0..MAX_FLASH_LEN + 4096).map(|i| (i >> 8) as u8).collect(),
        seen: [0, 0xFF, 0x5A].map(|byte| vec![byte; SEEN_LEN]),
        sectors: vec![0xA7; SECTORS_LEN],
        main: vec![0; MAIN_LEN],
        xip: vec![0; XIP_LEN],
    };
    let mut causes = BTreeMap::new();
    let mut discards = 0;
    for _ in 0..100_000 {
        let drawn = draw(&mut random, &shelf);
        let (s, t) = (&drawn.settings, drawn.transfer);
        let bytes = &drawn.bytes[..drawn.arrival_len];
        let flash = &shelf.flash[..drawn.flash_len];
        let seen = &shelf.seen[drawn.seen][..drawn.seen_len];
        let sectors = &shelf.sectors[..drawn.sectors_len];
        let main = &shelf.main[..drawn.main_len];
        let xip = &shelf.xip[..drawn.xip_len];
        let why = why(s, t, bytes, flash, seen, sectors, main, xip);
        let looked = look(s, t, bytes, flash, seen, sectors, main, xip);
        assert_eq!((why.answer, why.discarded), looked, "{why:?}");
        assert!(fits(&why), "{why:?}");
        *causes.entry(why.cause).or_insert(0) += 1;
        discards += u32::from(why.discarded);
    }
    for cause in CAUSES {
        let met = causes.get(&cause).copied().unwrap_or(0);
        assert!(met >= 10, "{cause}: {met} of {causes:?}");
    }
    assert_eq!(causes.len(), CAUSES.len());
    assert!(discards > 1000);
}
