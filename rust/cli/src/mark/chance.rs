//! Random lists, the same for the same seed: SplitMix64, as `load --shuffle` has it.

use super::list::{put, text, Fields, List, Start};
use super::set::Set;
use proved::{family, Arch, Entry, Link, Settings, MAIN_RAM_BYTES, XIP_RAM_BYTES};

/// Numbers of SplitMix64.
pub struct Chance(u64);

impl Chance {
    /// Those of a seed and of a list's number.
    pub fn new(seed: u64, list: u64) -> Chance {
        let mut chance = Chance(seed ^ list.wrapping_mul(0xD1B5_4A32_D192_ED03));
        chance.next();
        chance
    }

    fn next(&mut self) -> u64 {
        self.0 = self.0.wrapping_add(0x9E37_79B9_7F4A_7C15);
        let mut x = self.0;
        x = (x ^ (x >> 30)).wrapping_mul(0xBF58_476D_1CE4_E5B9);
        x = (x ^ (x >> 27)).wrapping_mul(0x94D0_49BB_1331_11EB);
        x ^ (x >> 31)
    }

    /// A number below another.
    pub fn below(&mut self, n: u32) -> u32 {
        (self.next() % u64::from(n.max(1))) as u32
    }

    /// One of some things.
    pub fn one<T: Copy>(&mut self, things: &[T]) -> T {
        things[self.below(things.len() as u32) as usize]
    }

    fn yes(&mut self, of: u32) -> bool {
        self.below(of) == 0
    }
}

/// A list of a valid file and of foreign arrivals, for the board of document 01's program.
pub fn program(seed: u64, list: u64, set: Set) -> List {
    let mut chance = Chance::new(seed, list);
    let list = mixed(
        &mut chance,
        Start::program(),
        set,
        &[family::ARM_S, family::ARM_S, family::DATA, family::ABSOLUTE],
    );
    set.list(&list)
}

/// A list for a library: such a list on a board of chance, or one call from a state of chance.
pub fn library(seed: u64, list: u64, set: Set) -> List {
    let mut chance = Chance::new(seed, list);
    let start = start(&mut chance, set);
    let families = [
        family::ARM_S,
        family::ARM_S,
        family::DATA,
        family::ABSOLUTE,
        family::RISCV,
        family::ARM_NS,
        7,
    ];
    let list = match list % 2 {
        0 => mixed(&mut chance, start, set, &families),
        _ => one_call(&mut chance, start, set, &families),
    };
    set.list(&list)
}

/// A valid file of 1 to 40 blocks anywhere, in any order and number, with foreign arrivals between them.
fn mixed(chance: &mut Chance, start: Start, set: Set, families: &[u32]) -> List {
    let total = chance.one(&[1, 2, 3, 4, 5, 8, 17, 40]);
    let family = chance.one(families);
    let pages = (start.flash / 256) as u32;
    let mut order: Vec<u32> = (0..pages).collect();
    for k in 0..total.min(pages) {
        let other = k + chance.below(pages - k);
        order.swap(k as usize, other as usize);
    }
    let block = |number: u32| {
        let mut fields = Fields::usual(number, total);
        fields.address = 0x1000_0000 + 256 * order[number as usize % order.len()];
        fields.family = family;
        fields
    };
    let mut arrivals = Vec::new();
    for _ in 0..chance.below(2 * total + 4) {
        let number = chance.below(total);
        let mut fields = block(number);
        let word = match chance.below(10) {
            0..7 => "chance",
            7 => {
                fields.address = chance.one(&[0x1000_8000, 0x0FFF_FF00, 0xFFFF_FF00, 0x1000_0001]);
                "stray"
            }
            8 => {
                fields.family = chance.one(&[family::RISCV, family::RP2040, 7, family::ARM_NS]);
                "other"
            }
            _ => {
                foreign(chance, &mut fields, total, set);
                "odd"
            }
        };
        arrivals.push(fields.block(&text(word, number, total)));
    }
    List {
        arrivals,
        start,
        twin: false,
    }
}

/// A block that is refused for what it says; or, where the set has them, a comment.
fn foreign(chance: &mut Chance, fields: &mut Fields, total: u32, set: Set) {
    match chance.below(if set.l3 { 6 } else { 5 }) {
        0 => fields.m2 = 5,
        1 => fields.flags = 0x3000,
        2 => fields.number = total + 3,
        3 => fields.size = 12,
        4 => fields.flags = 0,
        _ => fields.flags |= 1,
    }
}

/// One arrival, from any state.
fn one_call(chance: &mut Chance, mut start: Start, set: Set, families: &[u32]) -> List {
    let total = 1 + chance.below(8);
    let head = (chance.one(families), total);
    start.transfer = transfer(chance, head, set);
    for k in 0..total {
        if chance.yes(2) {
            start.seen[k as usize / 8] |= 0x80 >> (k % 8);
        }
    }
    for k in 0..8 {
        if chance.yes(2) {
            start.sectors[0] |= 0x80 >> k;
        }
    }
    start.fill = chance.one(&[0xFF, 0xA5, 0]);
    let mut fields = Fields::usual(chance.below(total), total);
    fields.family = if chance.yes(4) {
        chance.one(families)
    } else {
        head.0
    };
    fields.address = match chance.below(8) {
        0 => chance.next() as u32,
        1 if set.l8 => chance.one(&[
            0x2000_0000,
            0x2008_1F00,
            0x2008_1F01,
            0x13FF_C000,
            0x13FF_FF00,
        ]),
        _ => 0x1000_0000 + 256 * chance.below(140),
    };
    match chance.below(12) {
        0 => fields.total = chance.one(&[0, 1, 128, 129, 1 << 24, u32::MAX]),
        1 => fields.number = chance.next() as u32,
        2 => fields.size = chance.one(&[0, 255, 257, 476]),
        3 => foreign(chance, &mut fields, total, set),
        4 => fields.flags = 0x2000 | (chance.next() as u32 & !0x5001),
        5 => fields.family = chance.next() as u32,
        _ => {}
    }
    let mut piece = fields.block(&text("chance", fields.number, fields.total));
    if set.l9 && chance.yes(8) {
        put(&mut piece, 8, fields.flags | 0x4000);
        put(&mut piece, 484, 0x1000_0000);
        put(&mut piece, 488, 4096);
        piece[492..508].copy_from_slice(&tools::md5(&[start.fill; 4096]));
    }
    lengths(chance, &mut start, &mut piece);
    List {
        arrivals: vec![piece],
        start,
        twin: false,
    }
}

/// Now and then a length that is wrong.
fn lengths(chance: &mut Chance, start: &mut Start, piece: &mut Vec<u8>) {
    match chance.below(60) {
        0 => piece.truncate(chance.below(512) as usize),
        1 => start.flash = chance.below(9000) as usize,
        2 => start.seen.truncate(chance.below(16_384) as usize),
        3 => start.sectors.truncate(chance.below(1024) as usize),
        4 => start.settings.truncate(chance.below(550) as usize),
        5 => start.transfer.truncate(chance.below(14) as usize),
        _ => {}
    }
}

/// A transfer, mostly one that a receiver makes.
fn transfer(chance: &mut Chance, (family, total): (u32, u32), set: Set) -> Vec<u8> {
    let state = if chance.yes(20) {
        3
    } else {
        chance.below(3) as u8
    };
    let family = if chance.yes(4) {
        family::ABSOLUTE
    } else {
        family
    };
    let total = if chance.yes(4) {
        chance.one(&[0, 1, 5, 131_072, 131_073])
    } else {
        total
    };
    let count = match state {
        2 => total,
        _ => chance.below(9),
    };
    let mut bytes = vec![state];
    for x in [family, total, count] {
        bytes.extend_from_slice(&x.to_le_bytes());
    }
    // the kind is of the requests, and idle ones have none
    bytes.push(if set.l8 && state != 0 && chance.yes(4) {
        chance.below(3) as u8
    } else {
        0
    });
    if state == 0 {
        bytes[1..].fill(0);
    }
    bytes
}

/// A board: no table, a good one by construction, or one in which a clause is broken.
fn start(chance: &mut Chance, set: Set) -> Start {
    let mut start = Start::program();
    start.flash = 4096 * (4 + chance.below(5)) as usize;
    if set.l8 && chance.yes(3) {
        start.main = MAIN_RAM_BYTES;
    }
    if set.l8 && chance.yes(2) {
        start.xip = XIP_RAM_BYTES;
    }
    let both = chance.yes(2);
    let current = if both && chance.yes(2) {
        Arch::RiscV
    } else {
        Arch::Arm
    };
    let mut settings = Settings {
        arm: true,
        riscv: both,
        current,
        auto_switch: chance.yes(2),
        absolute: chance.yes(2),
        ..Settings::ARM
    };
    settings.count = if chance.yes(2) {
        0
    } else {
        chance.below(4) as u8
    };
    for k in 0..settings.count {
        settings.table[usize::from(k)] = entry(chance, k, &settings);
    }
    if chance.yes(12) {
        broken(chance, &mut settings);
    }
    start.settings = settings.bytes().to_vec();
    start
}

fn entry(chance: &mut Chance, k: u8, settings: &Settings) -> Entry {
    let b_below = |j: u8| matches!(settings.table[usize::from(j)].link, Link::BOf(_));
    let to = chance.below(u32::from(k)) as u8;
    let link = match chance.below(3) {
        1 if k > 0 && !b_below(to) => Link::OwnedBy(to),
        2 if k > 0 && !b_below(to) => Link::BOf(to),
        _ => Link::Unlinked,
    };
    Entry {
        first: k.into(),
        sectors: 1,
        data: chance.yes(2),
        arm_s: chance.yes(2),
        riscv: chance.yes(2),
        arm_ns: chance.yes(2),
        user_count: if chance.yes(4) { 1 } else { 0 },
        users: [7, 0, 0, 0],
        not_bootable_arm: chance.yes(2),
        not_bootable_riscv: chance.yes(2),
        link,
        no_restart: false,
    }
}

/// One clause of document 01 broken.
fn broken(chance: &mut Chance, settings: &mut Settings) {
    if settings.count == 0 || chance.yes(4) {
        if chance.yes(2) {
            settings.count = 17;
        } else {
            settings.current = Arch::RiscV;
            settings.riscv = false;
        }
        return;
    }
    let k = chance.below(settings.count.into()) as usize;
    let entry = &mut settings.table[k];
    match chance.below(6) {
        0 => entry.sectors = 0,
        1 => entry.sectors = 9000,
        2 => entry.link = Link::OwnedBy(k as u8),
        3 => entry.user_count = 5,
        4 => (entry.user_count, entry.users[0]) = (1, family::RP2040 + chance.below(6)),
        _ => entry.first = u32::MAX,
    }
}
