//! RAM windows: each edge of each, boards that lack one or both, families, comments; whole files of the three kinds, which end as the papers
//! say of their blocks, also after a stopped one; and, of a board without RAM, what has changed with them. COMPARE_ARRIVALS sets how many arrivals are compared.

use compare::{
    any_arrival, any_settings, any_transfer, arm_only, arrivals_asked, before_ram, join, page,
    window, Buffers, Fields, Pair, Ram, Random, BESIDE, EDGES, KINDS, USER, USER_OF_B,
    USER_OF_OWNED,
};
use reference::{
    Entry, Kind, Link, Settings, Transfer, ABSOLUTE, ARM_NS, ARM_S, DATA, RISCV, RP2040,
};

/// The sectors of the flash, and its pages.
const SECTORS: u64 = 16;
const PAGES: u64 = 16 * SECTORS;

fn field(a: &[u8], at: usize) -> u32 {
    u32::from_le_bytes([a[at], a[at + 1], a[at + 2], a[at + 3]])
}

fn put(a: &mut [u8], at: usize, x: u32) {
    a[at..at + 4].copy_from_slice(&x.to_le_bytes());
}

/// The only block of a file for arm-s, with its address.
fn at(address: u32) -> Vec<u8> {
    let mut a = page(ARM_S, 1, 0);
    put(&mut a, 12, address);
    a
}

fn board(r: &mut Random, ram: Ram) -> Buffers {
    Buffers::any(r, SECTORS, ram)
}

/// What both answer to an arrival alone, from Idle.
fn answer(r: &mut Random, settings: Settings, ram: Ram, a: &[u8]) -> u8 {
    Pair::new(settings, Transfer::Idle, board(r, ram)).take(a)
}

/// Addresses with what their only block is answered where the RAM is lent, and the kind it then is.
const NEAR: [(u32, u8, Kind); 20] = [
    (0x13ff_bf00, 11, Kind::XipRam),
    (0x13ff_bfff, 11, Kind::XipRam),
    (0x13ff_c000, 15, Kind::XipRam),
    (0x13ff_c001, 15, Kind::XipRam),
    (0x13ff_c0ff, 15, Kind::XipRam),
    (0x13ff_feff, 15, Kind::XipRam),
    (0x13ff_ff00, 15, Kind::XipRam),
    (0x13ff_ff01, 11, Kind::XipRam),
    (0x13ff_ffff, 11, Kind::XipRam),
    (0x1400_0000, 11, Kind::XipRam),
    (0x1fff_ff00, 11, Kind::MainRam),
    (0x1fff_ffff, 11, Kind::MainRam),
    (0x2000_0000, 15, Kind::MainRam),
    (0x2000_0001, 15, Kind::MainRam),
    (0x2000_00ff, 15, Kind::MainRam),
    (0x2008_1eff, 15, Kind::MainRam),
    (0x2008_1f00, 15, Kind::MainRam),
    (0x2008_1f01, 11, Kind::MainRam),
    (0x2008_1fff, 11, Kind::MainRam),
    (0x2008_2000, 11, Kind::MainRam),
];

#[test]
fn addresses_near_a_ram() {
    let mut r = Random(40);
    for ram in Ram::EVERY {
        for (address, wanted, kind) in NEAR {
            let wanted = if ram.has(kind) { wanted } else { 11 };
            let got = answer(&mut r, arm_only(), ram, &at(address));
            assert_eq!(got, wanted, "{address:x}, {ram:?}");
        }
    }
}

/// Both agree at each edge, of data and comments, with totals that row 10 refuses and such as it lets through, in each transfer.
#[test]
fn every_edge_agrees() {
    let mut r = Random(41);
    for ram in Ram::EVERY {
        let mut pair = Pair::new(arm_only(), Transfer::Idle, board(&mut r, ram));
        for (edge, beside) in EDGES.iter().flat_map(|&e| BESIDE.map(|b| (e, b))) {
            for (total, number) in [
                (0, 0),
                (3, 1),
                (3, 3),
                (64, 0),
                (65, 0),
                (2080, 0),
                (2081, 0),
            ] {
                for flags in [0x2000, 0x2001] {
                    let fields = Fields {
                        flags,
                        address: edge.wrapping_add_signed(beside),
                        size: 256,
                        number,
                        total,
                        family: ARM_S,
                    };
                    pair.take(&compare::arrival(fields, r.draw()));
                }
            }
        }
    }
}

/// A RAM has its window's length or is empty: any other is answered 1, before bad settings are.
#[test]
fn wrong_lengths_of_ram() {
    let mut r = Random(42);
    let bad = Settings {
        count: 17,
        ..arm_only()
    };
    for ram in Ram::EVERY {
        for len in [0, 1, 16_383, 16_384, 16_385, 532_479, 532_480, 532_481] {
            let mut main = board(&mut r, ram);
            main.main.resize(len, 7);
            let mut xip = board(&mut r, ram);
            xip.xip.resize(len, 7);
            for (buffers, right) in [(main, 532_480), (xip, 16_384)] {
                let good = len == 0 || len == right;
                for (settings, wanted) in [(arm_only(), 15), (bad, 2)] {
                    let mut pair = Pair::new(settings, Transfer::Idle, buffers.clone());
                    let wanted = if good { wanted } else { 1 };
                    assert_eq!(pair.take(&at(0x1000_0000)), wanted, "{len}, {ram:?}");
                }
            }
        }
    }
}

/// Entries that accept a user family each: one that is unowned, one that it owns and its B. A slot and an entry past the counts have one too.
fn with_users() -> Settings {
    let mut s = arm_only();
    for (k, user) in [USER, USER_OF_OWNED, USER_OF_B, 99].into_iter().enumerate() {
        s.table[k] = Entry {
            first: 4 + 2 * k as u32,
            sectors: 2,
            arm_s: k == 0,
            user_count: 1,
            users: [user, 98, 0, 0],
            ..Entry::EMPTY
        };
    }
    s.table[1].link = Link::OwnedBy(0);
    s.table[2].link = Link::BOf(0);
    s.count = 3;
    s
}

#[test]
fn families_in_ram() {
    let mut r = Random(43);
    for (family, no_table, table, flash) in [
        (RP2040, 8, 8, 8),
        (ABSOLUTE, 8, 8, 15),
        (DATA, 15, 15, 8),
        (ARM_S, 15, 15, 15),
        (RISCV, 15, 15, 8),
        (ARM_NS, 15, 15, 8),
        (ARM_NS + 1, 8, 8, 8),
        (USER, 8, 15, 15),
        (USER_OF_OWNED, 8, 15, 15),
        (USER_OF_B, 8, 15, 8),
        (98, 8, 8, 8),
        (99, 8, 8, 8),
    ] {
        let block = |address| {
            let mut a = at(address);
            put(&mut a, 28, family);
            a
        };
        for address in [0x2000_0123, 0x13ff_c123] {
            let got = answer(&mut r, arm_only(), Ram::BOTH, &block(address));
            assert_eq!(got, no_table, "{family:x}, no table");
            let got = answer(&mut r, with_users(), Ram::BOTH, &block(address));
            assert_eq!(got, table, "{family:x}, table");
        }
        // where the windows are none, flash's place is asked for
        let wanted = if flash == 15 { 11 } else { 8 };
        let got = answer(&mut r, with_users(), Ram::NONE, &block(0x2000_0123));
        assert_eq!(got, wanted, "{family:x}, no RAM");
        let got = answer(&mut r, with_users(), Ram::BOTH, &block(0x1000_0100));
        assert_eq!(got, flash, "{family:x}, flash");
    }
}

/// A comment goes with the running transfer of its family and total, unless that one's RAM is taken away: then it is one of flash.
#[test]
fn comments_in_ram() {
    let mut r = Random(44);
    for (kind, address) in [(Kind::MainRam, 0x2000_0001), (Kind::XipRam, 0x13ff_c001)] {
        for family in [ARM_S, ARM_NS] {
            let mut pair = Pair::new(arm_only(), Transfer::Idle, board(&mut r, Ram::BOTH));
            let mut data = page(family, 4, 0);
            put(&mut data, 12, address);
            let mut comment = |number, total| {
                let mut a = page(family, total, number);
                a[8] |= 1;
                put(&mut a, 12, r.draw() as u32);
                a
            };
            let (second, third, other) = (comment(1, 4), comment(2, 4), comment(2, 5));
            // arm-ns has no place in flash, where a comment goes that comes first
            let flash = if family == ARM_S { 16 } else { 8 };
            let mut first = Pair::new(arm_only(), Transfer::Idle, pair.ours.clone());
            assert_eq!(first.told(&second), (flash, false));
            assert_eq!(pair.told(&data), (14, false));
            assert_eq!(pair.told(&second), (16, false));
            assert_eq!(pair.told(&second), (13, false));
            let running = |count, kind| Transfer::Running {
                family,
                total: 4,
                count,
                kind,
            };
            assert_eq!(pair.transfer, running(2, kind));
            for (lacking, sent) in [(true, &third), (false, &other)] {
                let mut buffers = pair.ours.clone();
                if lacking {
                    buffers.of(kind).clear();
                }
                let mut taken_away = Pair::new(arm_only(), pair.transfer, buffers);
                assert_eq!(taken_away.told(sent), (flash, flash == 16));
                if flash == 8 {
                    assert_eq!(taken_away.transfer, pair.transfer);
                }
            }
            // the other RAM taken away changes nothing
            let mut buffers = pair.ours.clone();
            let another = match kind {
                Kind::MainRam => Kind::XipRam,
                _ => Kind::MainRam,
            };
            buffers.of(another).clear();
            let mut one = Pair::new(arm_only(), pair.transfer, buffers);
            assert_eq!(one.told(&third), (16, false));
            assert_eq!(one.transfer, running(3, kind));
        }
    }
}

/// A file of one kind, and where in the kind's buffer its place starts.
struct File {
    family: u32,
    kind: Kind,
    place: usize,
    blocks: Vec<Vec<u8>>,
}

impl File {
    fn total(&self) -> u32 {
        self.blocks.len() as u32
    }

    /// A valid file: data ranges that share no byte and, in flash, comments too.
    fn any(r: &mut Random, settings: &Settings, kind: Kind) -> File {
        let (family, place, pages) = match kind {
            Kind::Flash if settings.count == 0 => (r.of(&[ARM_S, DATA, ABSOLUTE]), 0, PAGES),
            Kind::Flash => (ARM_S, 4 * 4096, 32),
            _ if settings.count == 0 => (r.of(&[DATA, ARM_S, RISCV, ARM_NS]), 0, 0),
            _ => (r.of(&[ARM_S, ARM_NS, USER, USER_OF_OWNED, USER_OF_B]), 0, 0),
        };
        let (start, len) = window(kind, pages);
        let most = u64::from(len / 256);
        let n = if r.one_in(20) {
            most
        } else {
            1 + r.below(most.min(80))
        };
        let mut offsets = match kind {
            Kind::Flash => {
                let mut all: Vec<u32> = (0..len / 256).map(|k| 256 * k).collect();
                r.shuffle(&mut all);
                all
            }
            Kind::MainRam | Kind::XipRam => apart(r, len, n as u32),
        };
        offsets.truncate(n as usize);
        let block = |(number, &offset): (usize, &u32)| {
            let comment = kind == Kind::Flash && r.one_in(4);
            let fields = Fields {
                flags: 0x2000 | u32::from(comment),
                address: start + offset,
                size: 256,
                number: number as u32,
                total: n as u32,
                family,
            };
            compare::arrival(fields, r.draw())
        };
        File {
            family,
            kind,
            place,
            blocks: offsets.iter().enumerate().map(block).collect(),
        }
    }

    /// An arrival that is answered 4 to 11 and is no comment of the file's family and total.
    fn foreign(&self, r: &mut Random) -> Vec<u8> {
        let mut a = self.blocks[r.below(self.blocks.len() as u64) as usize].clone();
        let comment = a[8] & 1 != 0;
        match r.below(9) {
            0 => a[r.of(&[0, 7, 508])] ^= 4,
            1 => put(&mut a, 8, 0x3001),
            2 => put(&mut a, 8, r.of(&[0, 1, 0xC000])),
            3 => put(&mut a, 28, RP2040),
            4 if !comment => put(&mut a, 16, 255),
            5 => put(&mut a, 24, 131_073),
            6 => {
                put(&mut a, 8, 0x2001);
                put(&mut a, 24, 131_073);
            }
            7 if !comment => put(
                &mut a,
                12,
                r.of(&[0x2008_1f01, 0x13ff_ff01, 0x1200_0000, 0]),
            ),
            _ => {
                put(&mut a, 8, 0x2000);
                put(&mut a, 12, 0x1400_0000);
                put(&mut a, 24, 0);
            }
        }
        a
    }

    /// How a list ends that started with these buffers and Idle, by the blocks that it has had.
    fn end(&self, lent: &Buffers, had: &[bool]) -> (Transfer, Buffers) {
        let mut end = lent.clone();
        let (family, total, kind) = (self.family, self.total(), self.kind);
        let count = had.iter().filter(|&&h| h).count() as u32;
        if count == 0 {
            return (Transfer::Idle, end);
        }
        end.seen.fill(0);
        end.sectors.fill(0);
        let (start, _) = window(kind, 0);
        let seen = || self.blocks.iter().zip(had).filter(|(_, &h)| h);
        let stored = |a: &&Vec<u8>| a[8] & 1 == 0;
        let storage = |a: &[u8]| self.place + (field(a, 12) - start) as usize;
        if kind == Kind::Flash {
            for sector in seen()
                .map(|(a, _)| a)
                .filter(stored)
                .map(|a| storage(a) / 4096)
            {
                end.flash[4096 * sector..][..4096].fill(0xFF);
                end.sectors[sector / 8] |= 0x80 >> (sector % 8);
            }
        }
        for a in seen().map(|(a, _)| a) {
            let number = field(a, 20) as usize;
            end.seen[number / 8] |= 0x80 >> (number % 8);
            if stored(&a) {
                end.of(kind)[storage(a)..][..256].copy_from_slice(&a[32..288]);
            }
        }
        let transfer = if count == total {
            Transfer::Done {
                family,
                total,
                kind,
            }
        } else {
            Transfer::Running {
                family,
                total,
                count,
                kind,
            }
        };
        (transfer, end)
    }

    /// What a block of the file is answered, by the blocks that the list has had before it.
    fn reply(&self, had: &[bool], k: usize) -> u8 {
        let missing = had.iter().filter(|&&h| !h).count();
        match missing {
            0 => 12,
            _ if had[k] => 13,
            1 => 15,
            _ if self.blocks[k][8] & 1 == 0 => 14,
            _ => 16,
        }
    }
}

/// So many offsets of 256 bytes each in a buffer that share no byte, at any byte, in any order.
fn apart(r: &mut Random, len: u32, n: u32) -> Vec<u32> {
    let slack = u64::from(len - 256 * n);
    let mut gaps: Vec<u32> = (0..n).map(|_| r.below(slack + 1) as u32).collect();
    gaps.sort_unstable();
    let mut offsets: Vec<u32> = (0..n).zip(gaps).map(|(k, gap)| 256 * k + gap).collect();
    r.shuffle(&mut offsets);
    offsets
}

/// Files of the three kinds, in any order, with repeats, foreign arrivals between and cut anywhere: every answer, the transfer and each byte of
/// the five buffers are what the list of demand 3 says of the blocks that came.
#[test]
fn files_of_every_kind_end_as_sent() {
    let mut r = Random(45);
    let (mut whole, mut cut) = ([0; 3], [0; 3]);
    for _ in 0..450 {
        let settings = r.of(&[arm_only(), with_users()]);
        let kind = r.of(&KINDS);
        let ram = Ram {
            main: kind == Kind::MainRam || r.one_in(8),
            xip: kind == Kind::XipRam || r.one_in(2),
        };
        let file = File::any(&mut r, &settings, kind);
        let n = file.blocks.len();
        let mut order: Vec<usize> = (0..n)
            .chain((0..n).map(|_| r.below(n as u64) as usize))
            .collect();
        r.shuffle(&mut order);
        if r.one_in(3) {
            order.truncate(r.below(n as u64 + 1) as usize);
        }
        let lent = board(&mut r, ram);
        let mut pair = Pair::new(settings, Transfer::Idle, lent.clone());
        let mut had = vec![false; n];
        for k in order {
            if r.one_in(3) {
                let answer = pair.take(&file.foreign(&mut r));
                assert!((4..=11).contains(&answer), "foreign: {answer}");
            }
            assert_eq!(pair.told(&file.blocks[k]), (file.reply(&had, k), false));
            had[k] = true;
        }
        let (transfer, buffers) = file.end(&lent, &had);
        assert_eq!(pair.transfer, transfer);
        assert!(pair.ours == buffers, "{kind:?}");
        let met = match transfer {
            Transfer::Done { .. } => &mut whole,
            _ => &mut cut,
        };
        met[kind as usize] += 1;
    }
    assert!(
        whole.iter().chain(&cut).all(|&n| n > 20),
        "{whole:?} {cut:?}"
    );
}

/// A file stopped at a random block, both maps then overwritten with anything, and another file sent, of the three kinds each: what that one touches,
/// both maps and the transfer end as from Idle, and every other byte is as the stopped file left it.
#[test]
fn a_stopped_update_then_a_good_one() {
    let mut r = Random(46);
    let mut met = [[0; 3]; 3];
    for _ in 0..600 {
        let settings = r.of(&[arm_only(), with_users()]);
        let (first, second) = (r.of(&KINDS), r.of(&KINDS));
        let stopped = File::any(&mut r, &settings, first);
        let file = File::any(&mut r, &settings, second);
        let alike = stopped.family == file.family && stopped.total() == file.total();
        let comments = file.blocks.iter().any(|a| a[8] & 1 != 0);
        if stopped.total() == 1 || (alike && (first == second || comments)) {
            continue;
        }
        let mut pair = Pair::new(settings, Transfer::Idle, board(&mut r, Ram::BOTH));
        let mut order: Vec<usize> = (0..stopped.blocks.len()).collect();
        r.shuffle(&mut order);
        order.truncate(1 + r.below(order.len() as u64 - 1) as usize);
        for k in order {
            pair.take(&stopped.blocks[k]);
        }
        let mut lent = pair.ours.clone();
        r.fill(&mut lent.seen);
        r.fill(&mut lent.sectors);
        pair.lend(lent.clone());
        let n = file.blocks.len();
        let mut order: Vec<usize> = (0..n)
            .chain((0..n / 2).map(|_| r.below(n as u64) as usize))
            .collect();
        r.shuffle(&mut order);
        let mut had = vec![false; n];
        for k in order {
            if r.one_in(3) {
                let answer = pair.take(&file.foreign(&mut r));
                assert!((4..=11).contains(&answer), "foreign: {answer}");
            }
            let opens = !had.contains(&true);
            assert_eq!(pair.told(&file.blocks[k]), (file.reply(&had, k), opens));
            had[k] = true;
        }
        let (transfer, buffers) = file.end(&lent, &had);
        assert_eq!(pair.transfer, transfer);
        assert!(pair.ours == buffers, "{first:?}, then {second:?}");
        met[first as usize][second as usize] += 1;
    }
    assert!(met.iter().flatten().all(|&n| n > 20), "{met:?}");
}

/// A transfer as it was before there were kinds.
fn before(transfer: Transfer) -> before_ram::Transfer {
    match transfer {
        Transfer::Idle => before_ram::Transfer::Idle,
        Transfer::Running {
            family,
            total,
            count,
            ..
        } => before_ram::Transfer::Running {
            family,
            total,
            count,
        },
        Transfer::Done { family, total, .. } => before_ram::Transfer::Done { family, total },
    }
}

/// The transfer, of flash.
fn of_flash(mut transfer: Transfer) -> Transfer {
    if let Transfer::Running { kind, .. } | Transfer::Done { kind, .. } = &mut transfer {
        *kind = Kind::Flash;
    }
    transfer
}

/// A board without RAM, with a transfer that is idle or of flash, is answered as before, but for a data block whose address lies in no window
/// and whose numbers are bad: it was 10 and is 11. What is left is the same.
#[test]
fn without_ram_one_answer_changes() {
    let mut r = Random(46);
    let mut changed = 0;
    let lists = arrivals_asked() / 4 / 40;
    for _ in 0..lists {
        let sectors = r.of(&[1, 2, 5, 16]);
        let settings = any_settings(&mut r, sectors);
        let transfer = of_flash(any_transfer(&mut r, sectors * 16));
        let mut was = Buffers::any(&mut r, sectors, Ram::NONE);
        let mut old = before(transfer);
        let mut pair = Pair::new(settings, transfer, was.clone());
        for _ in 0..40 {
            let ram = r.of(&Ram::EVERY);
            let mut a = any_arrival(&mut r, sectors * 16, ram);
            if r.one_in(4) {
                join(&mut r, &mut a, pair.transfer);
            }
            let now = pair.told(&a);
            let Buffers {
                flash,
                seen,
                sectors,
                ..
            } = &mut was;
            let then = before_ram::take(&settings, old, &a, flash, seen, sectors);
            old = then.transfer;
            let stray = !(0x1000_0000..0x1200_0000).contains(&field(&a, 12));
            if then.answer == 10 && stray && a[8] & 1 == 0 {
                assert_eq!(now, (11, false));
                changed += 1;
            } else {
                assert_eq!(now, (then.answer, then.discarded));
            }
            assert_eq!(before(pair.transfer), old);
            assert!(pair.ours == was);
        }
    }
    assert!(changed > lists / 4, "{changed}");
}
