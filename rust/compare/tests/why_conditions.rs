//! A run for every condition that a run can reach (02, L6): alone; with an earlier one that fails too, which is told then; and with a
//! later one that fails too, where it is told itself. The proved reason beside the reference's, and its answer beside the look's.

use std::collections::BTreeSet;

use compare::{arm_only, proved_settings, proved_transfer, Buffers, Fields, Ram, USER};
use reference::md5::md5;
use reference::why::{why, why_place, NO_WINDOW};
use reference::{Arch, Entry, Kind, Link, Settings, Transfer};
use reference::{ABSOLUTE, ARM_S, DATA, MAIN_LEN, RISCV, RP2040};
use tools::why::{explain, explain_place, Lent, Why};

const LEN: usize = 65_536;
const FLASH: u32 = 0x1000_0000;
const MAIN: u32 = 0x2000_0000;

/// Every condition, in the order in which a page in a window meets them.
const CAUSES: [u32; 55] = [
    101, 102, 103, 104, 105, 106, 107, 108, 201, 202, 203, 204, 205, 206, 207, 208, 209, 301, 302,
    303, 304, 305, 401, 402, 403, 501, 701, 801, 802, 803, 804, 805, 806, 807, 901, 1001, 1002,
    1003, 1101, NO_WINDOW, 1102, 1103, 1104, 1201, 1301, 1501, 1601, 1401, 1402, 1403, 1404, 1405,
    1406, 1407, 1701,
];

/// An arrival with all that it meets.
struct Case {
    settings: Settings,
    transfer: Transfer,
    arrival: Vec<u8>,
    lent: Buffers,
}

impl Case {
    fn field(&self, at: usize) -> u32 {
        let a = &self.arrival;
        u32::from_le_bytes([a[at], a[at + 1], a[at + 2], a[at + 3]])
    }

    fn put(&mut self, at: usize, value: u32) {
        self.arrival[at..at + 4].copy_from_slice(&value.to_le_bytes());
    }

    fn set(&mut self, flag: u32) {
        self.put(8, self.field(8) | flag);
    }

    fn clear(&mut self, flag: u32) {
        self.put(8, self.field(8) & !flag);
    }

    /// Moves the block's address.
    fn moved(&mut self, by: i32) {
        self.put(12, self.field(12).wrapping_add_signed(by));
    }

    fn entry(&mut self, k: usize) -> &mut Entry {
        &mut self.settings.table[k]
    }

    fn users(&mut self, k: usize, count: u8, users: [u32; 4]) {
        (self.entry(k).user_count, self.entry(k).users) = (count, users);
    }

    /// What is proved, which has to be the reference's reason, with the look's answer; where a place asked alone is refused by
    /// the same conditions, it is refused for the same reason.
    fn told(&mut self) -> Why {
        let bytes = proved_settings(&self.settings).bytes();
        let state = proved_transfer(self.transfer).bytes();
        let b = &self.lent;
        let lent = Lent {
            flash: &b.flash,
            seen: &b.seen,
            sectors: &b.sectors,
            main: &b.main,
            xip: &b.xip,
        };
        let got = explain(&bytes, &state, &self.arrival, lent);
        let w = why(
            &self.settings,
            self.transfer,
            &self.arrival,
            &b.flash,
            &b.seen,
            &b.sectors,
            &b.main,
            &b.xip,
        );
        let (result, told) = (
            u32::from(w.answer) + 128 * u32::from(w.discarded),
            got.reason,
        );
        let wanted = (w.cause, w.got, w.against, w.entry, w.other, w.marks);
        assert_eq!((got.result, numbers(&got)), (result, wanted));
        let looked = self.lent.look(&bytes, &state, &self.arrival);
        assert_eq!(got.result, looked, "the look's answer");
        if matches!(told.cause, 102..=104 | 201..=209 | 801..=806) {
            let (len, family) = (self.lent.flash.len(), self.family());
            assert_eq!(place(&self.settings, len, family), got, "asked alone");
        }
        got
    }

    /// The family, of an arrival that is long enough.
    fn family(&self) -> u32 {
        self.field(28)
    }
}

type Numbers = (u32, u64, u64, u8, u8, [u8; 16]);

fn numbers(why: &Why) -> Numbers {
    let r = why.reason;
    (r.cause, r.got, r.against, r.entry, r.other, r.marks)
}

/// The reason of a place asked alone, which has to be the reference's.
fn place(s: &Settings, len: usize, family: u32) -> Why {
    let got = explain_place(&proved_settings(s).bytes(), len, family);
    let w = why_place(s, len, family);
    let wanted = (w.cause, w.got, w.against, w.entry, w.other, w.marks);
    assert_eq!(
        (got.result, numbers(&got)),
        (u32::from(w.answer), wanted),
        "{family:x}"
    );
    got
}

type Base = fn() -> Case;
type Edit = fn(&mut Case);

/// What makes a condition fail in a case where it does not, what is told of it alone, and others that fail beside it.
struct Run {
    base: Base,
    told: Numbers,
    fails: Edit,
    earlier: Option<(u32, Edit)>,
    later: Option<(u32, Edit)>,
}

fn run(base: Base, cause: u32, got: u64, against: u64, fails: Edit) -> Run {
    Run {
        base,
        told: (cause, got, against, 0, 0, [0; 16]),
        fails,
        earlier: None,
        later: None,
    }
}

impl Run {
    fn entry(mut self, entry: u8, other: u8) -> Run {
        (self.told.3, self.told.4) = (entry, other);
        self
    }

    fn marks(mut self, first: &[u8]) -> Run {
        self.told.5[..first.len()].copy_from_slice(first);
        self
    }

    fn earlier(self, cause: u32, edit: Edit) -> Run {
        Run {
            earlier: Some((cause, edit)),
            ..self
        }
    }

    fn later(self, cause: u32, edit: Edit) -> Run {
        Run {
            later: Some((cause, edit)),
            ..self
        }
    }

    fn cause_with(&self, edits: &[Edit]) -> u32 {
        let mut case = (self.base)();
        edits.iter().for_each(|edit| edit(&mut case));
        case.told().reason.cause
    }

    fn check(&self) {
        let cause = self.told.0;
        assert_ne!(self.cause_with(&[]), cause, "it does not fail yet");
        let mut case = (self.base)();
        (self.fails)(&mut case);
        assert_eq!(numbers(&case.told()), self.told);
        if let Some((earlier, edit)) = self.earlier {
            assert_eq!(self.cause_with(&[edit]), earlier, "before {cause}");
            let both = self.cause_with(&[self.fails, edit]);
            assert_eq!(both, earlier, "before {cause}");
        }
        if let Some((later, edit)) = self.later {
            assert_eq!(self.cause_with(&[edit]), later, "after {cause}");
            let both = self.cause_with(&[self.fails, edit]);
            assert_eq!(both, cause, "{later} after it");
        }
    }
}

fn running(total: u32, count: u32) -> Transfer {
    Transfer::Running {
        family: ARM_S,
        total,
        count,
        kind: Kind::Flash,
    }
}

fn done(total: u32) -> Transfer {
    Transfer::Done {
        family: ARM_S,
        total,
        kind: Kind::Flash,
    }
}

/// An arm-s page without a table, block 1 of 3, on a board with both RAMs: told 1401.
fn page() -> Case {
    let fields = Fields {
        flags: 0x2000,
        address: FLASH,
        size: 256,
        number: 1,
        total: 3,
        family: ARM_S,
    };
    Case {
        settings: arm_only(),
        transfer: Transfer::Idle,
        arrival: compare::arrival(fields, 1),
        lent: Buffers::filled(LEN, 0).with_ram(Ram::BOTH, 0),
    }
}

/// The same with eight entries of two sectors.
fn table() -> Case {
    let mut case = page();
    case.settings.count = 8;
    for k in 0..8 {
        let e = case.entry(k);
        (e.first, e.sectors, e.arm_s) = (2 * k as u32, 2, true);
    }
    case
}

/// The same without a table, of a running transfer with one of 3 counted.
fn follower() -> Case {
    Case {
        transfer: running(3, 1),
        ..page()
    }
}

/// The same that is kept: told 1701.
fn kept() -> Case {
    let mut case = follower();
    case.set(0x4000);
    case.put(484, FLASH);
    case.put(488, 4096);
    let digest = md5(&case.lent.flash[..4096]);
    case.arrival[492..508].copy_from_slice(&digest);
    case
}

/// The same with another digest: told 1407.
fn other_digest() -> Case {
    let mut case = kept();
    case.arrival[500] ^= 1;
    case
}

/// A page for main RAM.
fn ram() -> Case {
    let mut case = page();
    case.put(12, MAIN);
    case
}

fn flash_ragged(c: &mut Case) {
    c.lent.flash.push(0);
}

/// By a whole flash less.
fn flash_small(c: &mut Case) {
    let left = c.lent.flash.len() - LEN;
    c.lent.flash.truncate(left);
}

fn flash_large(c: &mut Case) {
    let len = c.lent.flash.len() + 33_554_432;
    c.lent.flash.resize(len, 0);
}

fn long(c: &mut Case) {
    c.arrival.push(0);
}

fn row_1() -> Vec<Run> {
    let over = 33_554_432 + LEN as u64;
    let seen: Edit = |c| c.lent.seen.clear();
    let sectors: Edit = |c| c.lent.sectors.push(0);
    let main: Edit = |c| c.lent.main.truncate(1);
    let xip: Edit = |c| c.lent.xip.truncate(16_383);
    vec![
        run(page, 101, 513, 512, long).later(102, flash_ragged),
        run(page, 102, 65_537, 4096, flash_ragged)
            .earlier(101, long)
            .later(103, flash_small),
        run(page, 102, 65_537, 4096, flash_ragged).later(104, flash_large),
        run(page, 103, 0, 4096, flash_small)
            .earlier(102, flash_ragged)
            .later(105, seen),
        run(page, 104, over, 33_554_432, flash_large)
            .earlier(102, flash_ragged)
            .later(105, seen),
        run(page, 105, 0, 16_384, seen)
            .earlier(104, flash_large)
            .later(106, sectors),
        run(page, 106, 1025, 1024, sectors)
            .earlier(105, seen)
            .later(107, main),
        run(page, 107, 1, 532_480, main)
            .earlier(106, sectors)
            .later(108, xip),
        run(page, 108, 16_383, 16_384, xip)
            .earlier(107, main)
            .later(201, |c| c.settings.arm = false),
    ]
}

/// From 204 on the earlier condition stands in a later entry, and the later one in an earlier.
fn row_2() -> Vec<Run> {
    vec![
        run(table, 201, 0, 0, |c| c.settings.arm = false)
            .earlier(108, |c| c.lent.xip.truncate(1))
            .later(202, |c| c.settings.count = 17),
        run(table, 202, 17, 16, |c| c.settings.count = 17)
            .earlier(201, |c| c.settings.arm = false)
            .later(203, |c| c.entry(0).sectors = 0),
        run(table, 203, 0, 0, |c| c.entry(5).sectors = 0)
            .entry(5, 0)
            .earlier(202, |c| c.settings.count = 255)
            .later(204, |c| c.entry(2).sectors = u32::MAX),
        run(table, 204, 17_592_186_073_088, 65_536, |c| {
            c.entry(4).sectors = u32::MAX
        })
        .entry(4, 0)
        .earlier(203, |c| c.entry(6).sectors = 0)
        .later(205, |c| c.entry(1).first = 0),
        run(table, 205, 7, 5, |c| c.entry(5).first = 14)
            .entry(5, 7)
            .earlier(204, |c| c.entry(6).first = u32::MAX)
            .later(206, |c| c.entry(2).link = Link::OwnedBy(2)),
        run(table, 206, 4, 4, |c| c.entry(4).link = Link::OwnedBy(4))
            .entry(4, 0)
            .earlier(205, |c| c.entry(5).first = 14)
            .later(207, |c| to_b(c, 1)),
    ]
}

/// Entry k is "B of" the one before, and the next one links to it.
fn to_b(c: &mut Case, k: u8) {
    c.entry(usize::from(k)).link = Link::BOf(k - 1);
    c.entry(usize::from(k) + 1).link = Link::OwnedBy(k);
}

fn row_2_links_and_users() -> Vec<Run> {
    vec![
        run(table, 207, 2, 3, |c| to_b(c, 2))
            .entry(3, 0)
            .earlier(206, |c| c.entry(5).link = Link::BOf(200))
            .later(208, |c| c.users(1, 5, [0; 4])),
        run(table, 208, 5, 4, |c| c.users(3, 5, [0; 4]))
            .entry(3, 0)
            .earlier(207, |c| to_b(c, 5))
            .later(209, |c| c.users(0, 1, [DATA, 0, 0, 0])),
        run(table, 209, 0xe48b_ff5b, 0xe48b_ff56, |c| {
            c.users(2, 3, [USER, 0xe48b_ff5b, 0xe48b_ff56, 0])
        })
        .entry(2, 0)
        .earlier(208, |c| c.users(6, 255, [0; 4]))
        .later(304, |c| c.transfer = done(0)),
    ]
}

/// The running transfer with another total or another count.
fn total(c: &mut Case, changed: u32) {
    if let Transfer::Running { total, .. } = &mut c.transfer {
        *total = changed;
    }
}

fn count(c: &mut Case, changed: u32) {
    if let Transfer::Running { count, .. } = &mut c.transfer {
        *count = changed;
    }
}

fn row_3() -> Vec<Run> {
    let off: Edit = |c| c.settings.arm = false;
    let magic: Edit = |c| c.put(0, 0);
    vec![
        run(follower, 301, 0, 1, |c| count(c, 0))
            .earlier(201, off)
            .later(302, |c| total(c, 0)),
        run(follower, 302, 1, 0, |c| total(c, 0)).earlier(301, |c| count(c, 0)),
        run(follower, 302, 200_000, 3, |c| count(c, 200_000)).later(303, |c| total(c, 131_073)),
        run(follower, 303, 131_073, 131_072, |c| total(c, 131_073))
            .earlier(302, |c| count(c, 200_000))
            .later(401, magic),
        run(page, 304, 0, 1, |c| c.transfer = done(0))
            .earlier(201, off)
            .later(401, magic),
        run(page, 305, 131_073, 131_072, |c| c.transfer = done(131_073))
            .earlier(201, off)
            .later(401, magic),
    ]
}

fn rows_4_to_7() -> Vec<Run> {
    let first: Edit = |c| c.put(0, 0x0A32_4654);
    let second: Edit = |c| c.put(4, u32::MAX);
    let last: Edit = |c| c.put(508, 0);
    let container: Edit = |c| c.set(0x1000);
    let no_family: Edit = |c| c.clear(0x2000);
    vec![
        run(page, 401, 0x0A32_4654, 0x0A32_4655, first)
            .earlier(305, |c| c.transfer = done(u32::MAX))
            .later(402, second),
        run(page, 402, 0xFFFF_FFFF, 0x9E5D_5157, second)
            .earlier(401, first)
            .later(403, last),
        run(page, 403, 0, 0x0AB1_6F30, last)
            .earlier(402, second)
            .later(501, container),
        run(page, 501, 0x3000, 0x1000, container)
            .earlier(403, last)
            .later(701, no_family),
        run(page, 701, 0, 0x2000, no_family)
            .earlier(501, container)
            .later(802, |c| c.put(28, RP2040)),
    ]
}

/// Of two families one alone is a block's, so that the earlier one is row 7's and the later row 9's.
fn row_8() -> Vec<Run> {
    let shut: [(Base, u32, u32, Edit); 6] = [
        (page, 801, ABSOLUTE, |c| {
            c.settings.absolute = false;
            c.put(28, ABSOLUTE);
        }),
        (page, 802, RP2040, |c| c.put(28, RP2040)),
        (page, 803, ARM_S, |c| {
            let s = &mut c.settings;
            (s.arm, s.riscv, s.current) = (false, true, Arch::RiscV);
        }),
        (page, 804, RISCV, |c| c.put(28, RISCV)),
        (page, 805, USER, |c| c.put(28, USER)),
        (ram, 807, ABSOLUTE, |c| c.put(28, ABSOLUTE)),
    ];
    let mut runs: Vec<Run> = shut
        .into_iter()
        .map(|(base, cause, family, edit)| run(base, cause, family.into(), 0, edit))
        .collect();
    let marked: Edit = |c| {
        c.entry(2).link = Link::BOf(0);
        c.entry(2).data = true;
        c.put(28, DATA);
    };
    runs.push(run(table, 806, DATA.into(), 0, marked).marks(&[2, 2, 1, 2, 2, 2, 2, 2]));
    let beside = |r: Run| {
        r.earlier(701, |c| c.clear(0x2000))
            .later(901, |c| c.put(16, 255))
    };
    runs.into_iter().map(beside).collect()
}

fn rows_9_and_10() -> Vec<Run> {
    let size: Edit = |c| c.put(16, 255);
    let number: Edit = |c| c.put(20, 300);
    let many: Edit = |c| c.put(24, 257);
    let none: Edit = |c| c.put(24, 0);
    vec![
        run(page, 901, 255, 256, size)
            .earlier(802, |c| c.put(28, RP2040))
            .later(1001, none),
        run(page, 1001, 0, 0, none)
            .earlier(901, size)
            .later(1003, number),
        run(page, 1002, 65_792, 65_536, many)
            .earlier(901, size)
            .later(1003, number),
        run(page, 1003, 300, 3, number)
            .earlier(1002, many)
            .later(1102, |c| c.moved(1)),
        run(ram, 1002, 532_736, 532_480, |c| c.put(24, 2081))
            .earlier(901, size)
            .later(1104, |c| c.moved(MAIN_LEN as i32 - 255)),
    ]
}

/// An address in no window is told before the numbers: as below the window, or else before the row's other conditions.
fn row_11() -> Vec<Run> {
    let below: Edit = |c| c.moved(-256);
    let ragged: Edit = |c| c.moved(1);
    let past: Edit = |c| c.moved(LEN as i32);
    let beyond: Edit = |c| c.moved(0x0200_0000);
    let number: Edit = |c| c.put(20, 300);
    let finished: Edit = |c| c.transfer = done(9);
    vec![
        run(page, 1101, 0x0FFF_FF00, 0x1000_0000, below)
            .earlier(901, |c| c.put(16, 0))
            .later(1102, ragged),
        run(page, 1101, 0x0FFF_FF00, 0x1000_0000, below).later(1003, number),
        run(page, NO_WINDOW, 0x1200_0000, 0x1200_0000, beyond)
            .earlier(901, |c| c.put(16, 0))
            .later(1102, ragged),
        run(page, NO_WINDOW, 0x1200_0000, 0x1200_0000, beyond).later(1103, past),
        run(page, NO_WINDOW, 0x1200_0000, 0x1200_0000, beyond).later(1003, number),
        run(ram, NO_WINDOW, 0x2000_0000, 0x1200_0000, |c| {
            c.lent.main.clear()
        })
        .later(1003, number),
        run(page, 1102, 0x1000_0001, 256, ragged)
            .earlier(NO_WINDOW, beyond)
            .later(1103, past),
        run(page, 1103, 65_792, 65_536, past)
            .earlier(1102, ragged)
            .later(1201, finished),
        run(ram, 1104, 0x2008_2001, 0x2008_2000, |c| {
            c.moved(MAIN_LEN as i32 - 255)
        })
        .earlier(1003, number)
        .later(1201, finished),
    ]
}

fn rows_12_to_16() -> Vec<Run> {
    let marked: Edit = |c| c.lent.seen.fill(0xFF);
    let last: Edit = |c| count(c, 2);
    let comment: Edit = |c| c.set(1);
    vec![
        run(page, 1201, 1, 3, |c| c.transfer = done(9))
            .earlier(1103, |c| c.moved(LEN as i32))
            .later(1501, |c| {
                c.put(20, 0);
                c.put(24, 1);
            }),
        run(follower, 1301, 1, 3, marked)
            .earlier(1102, |c| c.moved(1))
            .later(1501, last),
        run(follower, 1501, 3, 3, last)
            .earlier(1301, marked)
            .later(1601, comment),
        run(kept, 1601, 2, 3, comment)
            .earlier(1501, last)
            .later(1401, |c| c.clear(0x4000)),
        // Another family's transfer is discarded, and the count is 1.
        run(kept, 1601, 1, 3, |c| {
            c.put(28, DATA);
            c.set(1);
        }),
    ]
}

fn rows_14_and_17() -> Vec<Run> {
    let no_flag: Edit = |c| c.clear(0x4000);
    let in_ram: Edit = |c| c.put(12, MAIN);
    let ragged: Edit = |c| c.put(484, c.field(484) + 1);
    let empty: Edit = |c| c.put(488, 0);
    let below: Edit = |c| c.put(484, FLASH - 4096);
    let apart: Edit = |c| c.moved(4096);
    let digest: Edit = |c| c.arrival[500] ^= 1;
    vec![
        run(kept, 1401, 2, 3, no_flag)
            .earlier(1601, |c| c.set(1))
            .later(1402, in_ram),
        run(kept, 1402, 1, 3, in_ram)
            .earlier(1401, no_flag)
            .later(1403, ragged),
        run(kept, 1403, 2, 3, ragged)
            .earlier(1402, in_ram)
            .later(1404, empty),
        run(kept, 1404, 2, 3, empty)
            .earlier(1403, ragged)
            .later(1405, below),
        run(kept, 1405, 2, 3, below)
            .earlier(1404, empty)
            .later(1406, apart),
        run(kept, 1406, 2, 3, apart)
            .earlier(1405, below)
            .later(1407, digest),
        run(kept, 1407, 2, 3, digest).earlier(1406, apart),
        run(other_digest, 1701, 2, 3, digest).earlier(1406, apart),
    ]
}

/// Nothing is before 101; after 1407 there is only 1701, which is that it does not fail, and after 1701 nothing.
#[test]
fn every_condition_beside_an_earlier_and_a_later() {
    let runs = [
        row_1(),
        row_2(),
        row_2_links_and_users(),
        row_3(),
        rows_4_to_7(),
        row_8(),
        rows_9_and_10(),
        row_11(),
        rows_12_to_16(),
        rows_14_and_17(),
    ];
    let (mut met, mut earlier, mut later) = (BTreeSet::new(), BTreeSet::new(), BTreeSet::new());
    for r in runs.iter().flatten() {
        r.check();
        met.insert(r.told.0);
        earlier.extend(r.earlier.map(|_| r.told.0));
        later.extend(r.later.map(|_| r.told.0));
    }
    let all = |but: &[u32]| -> BTreeSet<u32> {
        let kept = |cause: &u32| !but.contains(cause);
        CAUSES.into_iter().filter(kept).collect()
    };
    assert_eq!(met, all(&[]));
    assert_eq!(earlier, all(&[101]));
    assert_eq!(later, all(&[1407, 1701]));
}

/// Entries that each pass takes, the later pass's before: none, owned, no boot, boot. Without the last one used the next pass takes it.
fn passes() -> Settings {
    let mut s = arm_only();
    (s.riscv, s.auto_switch, s.count) = (true, true, 4);
    for (k, e) in s.table.iter_mut().enumerate().take(4) {
        (e.first, e.sectors) = (k as u32, 1);
        (e.arm_s, e.riscv, e.data) = (k > 0, k > 0, k > 0);
    }
    s.table[1].link = Link::OwnedBy(0);
    (s.table[2].not_bootable_arm, s.table[2].not_bootable_riscv) = (true, true);
    s
}

#[test]
fn places_by_each_pass() {
    let told = |s: &Settings, family| numbers(&place(s, LEN, family));
    let found = |pass, entry| (3, pass, 0, entry, 0, [0; 16]);
    let mut marks = [0; 16];
    marks[0] = 2;
    let mut s = passes();
    assert_eq!(told(&s, ARM_S), found(1, 3));
    assert_eq!(told(&s, RISCV), found(2, 3));
    assert_eq!(told(&s, DATA), found(3, 2));
    s.auto_switch = false;
    assert_eq!(told(&s, RISCV), found(3, 2));
    s.current = Arch::RiscV;
    assert_eq!(told(&s, RISCV), found(1, 3));
    assert_eq!(told(&s, ARM_S), found(3, 2));
    s.auto_switch = true;
    assert_eq!(told(&s, ARM_S), found(2, 3));
    for family in [ARM_S, RISCV, DATA] {
        s.count = 3;
        assert_eq!(told(&s, family), found(3, 2));
        s.count = 2;
        assert_eq!(told(&s, family), found(4, 1));
        s.count = 1;
        assert_eq!(told(&s, family), (806, family.into(), 0, 0, 0, marks));
    }
}

#[test]
fn places_by_the_rules_for_the_whole_flash() {
    let rule = |cause| (cause, 0, 0, 0, 0, [0; 16]);
    let mut s = passes();
    for count in [4, 0] {
        s.count = count;
        assert_eq!(numbers(&place(&s, LEN, ABSOLUTE)), rule(1));
    }
    for family in [ARM_S, RISCV, DATA] {
        assert_eq!(numbers(&place(&s, LEN, family)), rule(2));
    }
    // A refusal goes before a rule.
    for family in [ABSOLUTE, DATA] {
        assert_eq!(place(&s, 100, family).reason.cause, 102);
        let mut bad = s;
        bad.arm = false;
        assert_eq!(place(&bad, LEN, family).reason.cause, 201);
    }
}
