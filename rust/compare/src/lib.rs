//! Inputs for both receivers, from a seed, and the settings of one as the other takes them.

pub mod adapter;
pub mod before_ram;
mod buffers;
pub mod fence;
pub mod files;
pub mod hex;
pub mod nor;
mod pair;
pub mod plain;
pub mod region;
pub mod report;
pub mod store;
pub mod tags;

pub use buffers::{Buffers, Ram};
pub use pair::Pair;

use reference::{Arch, Entry, Kind, Link, Settings, Transfer, MAIN_WINDOW, WINDOW, XIP_WINDOW};

/// A small generator (splitmix64): the same numbers on every machine.
pub struct Random(pub u64);

impl Random {
    pub fn draw(&mut self) -> u64 {
        self.0 = self.0.wrapping_add(0x9E37_79B9_7F4A_7C15);
        let mut z = self.0;
        z = (z ^ (z >> 30)).wrapping_mul(0xBF58_476D_1CE4_E5B9);
        z = (z ^ (z >> 27)).wrapping_mul(0x94D0_49BB_1331_11EB);
        z ^ (z >> 31)
    }

    pub fn below(&mut self, n: u64) -> u64 {
        self.draw() % n
    }

    pub fn one_in(&mut self, n: u64) -> bool {
        self.below(n) == 0
    }

    pub fn of<T: Copy>(&mut self, choices: &[T]) -> T {
        choices[self.below(choices.len() as u64) as usize]
    }

    pub fn fill(&mut self, bytes: &mut [u8]) {
        for part in bytes.chunks_mut(8) {
            part.copy_from_slice(&self.draw().to_le_bytes()[..part.len()]);
        }
    }

    pub fn shuffle<T>(&mut self, items: &mut [T]) {
        for i in (1..items.len()).rev() {
            items.swap(i, self.below(i as u64 + 1) as usize);
        }
    }
}

/// How many arrivals a test compares: COMPARE_ARRIVALS, or a million.
pub fn arrivals_asked() -> usize {
    let asked = std::env::var("COMPARE_ARRIVALS").ok();
    asked.and_then(|n| n.parse().ok()).unwrap_or(1_000_000)
}

pub fn proved_settings(s: &Settings) -> proved::Settings {
    let arch = match s.current {
        Arch::Arm => proved::Arch::Arm,
        Arch::RiscV => proved::Arch::RiscV,
    };
    proved::Settings {
        arm: s.arm,
        riscv: s.riscv,
        current: arch,
        auto_switch: s.auto_switch,
        absolute: s.absolute,
        count: s.count,
        table: s.table.map(|e| proved_entry(&e)),
    }
}

pub fn proved_entry(e: &Entry) -> proved::Entry {
    proved::Entry {
        first: e.first,
        sectors: e.sectors,
        data: e.data,
        arm_s: e.arm_s,
        riscv: e.riscv,
        arm_ns: e.arm_ns,
        user_count: e.user_count,
        users: e.users,
        not_bootable_arm: e.not_bootable_arm,
        not_bootable_riscv: e.not_bootable_riscv,
        link: match e.link {
            Link::None => proved::Link::Unlinked,
            Link::OwnedBy(k) => proved::Link::OwnedBy(k),
            Link::BOf(k) => proved::Link::BOf(k),
        },
        // no answer depends on it: some entries have it wherever the two are compared
        no_restart: e.data,
    }
}

pub fn proved_kind(kind: Kind) -> proved::Kind {
    match kind {
        Kind::Flash => proved::Kind::Flash,
        Kind::MainRam => proved::Kind::MainRam,
        Kind::XipRam => proved::Kind::XipRam,
    }
}

pub fn proved_transfer(t: Transfer) -> proved::Transfer {
    match t {
        Transfer::Idle => proved::Transfer::Idle,
        Transfer::Running {
            family,
            total,
            count,
            kind,
        } => proved::Transfer::Running {
            family,
            total,
            count,
            kind: proved_kind(kind),
        },
        Transfer::Done {
            family,
            total,
            kind,
        } => proved::Transfer::Done {
            family,
            total,
            kind: proved_kind(kind),
        },
    }
}

/// Arm alone, absolute allowed, no table: the program's settings.
pub fn arm_only() -> Settings {
    Settings {
        arm: true,
        riscv: false,
        current: Arch::Arm,
        auto_switch: false,
        absolute: true,
        count: 0,
        table: [Entry::EMPTY; 16],
    }
}

/// Settings of any kind: most of them good, some bad in one way or another.
pub fn any_settings(r: &mut Random, flash_sectors: u64) -> Settings {
    let mut s = Settings {
        arm: !r.one_in(6),
        riscv: !r.one_in(3),
        current: r.of(&[Arch::Arm, Arch::Arm, Arch::RiscV]),
        auto_switch: r.one_in(2),
        absolute: r.one_in(2),
        count: 0,
        table: [Entry::EMPTY; 16],
    };
    let used: u64 = r.of(&[0, 0, 1, 2, 3, 8, 16]).min(flash_sectors);
    s.count = used as u8;
    let mut from = 0;
    for k in 0..used {
        let room = (flash_sectors / used).max(1);
        let sectors = 1 + r.below(room);
        s.table[k as usize] = any_entry(r, k, from, sectors);
        from += sectors;
    }
    if r.one_in(4) {
        spoil(r, &mut s);
    }
    s
}

fn any_entry(r: &mut Random, k: u64, from: u64, sectors: u64) -> Entry {
    let (link, user) = match r.below(6) {
        0 if k > 0 => (Link::OwnedBy(r.below(k) as u8), USER_OF_OWNED),
        1 if k > 0 => (Link::BOf(r.below(k) as u8), USER_OF_B),
        _ => (Link::None, USER),
    };
    Entry {
        first: from as u32,
        sectors: sectors as u32,
        data: r.one_in(3),
        arm_s: !r.one_in(3),
        riscv: r.one_in(2),
        arm_ns: r.one_in(3),
        user_count: r.below(5) as u8,
        users: [user, r.draw() as u32 % 8, 0xe48b_ff55, 0xe48b_ff5c],
        not_bootable_arm: r.one_in(3),
        not_bootable_riscv: r.one_in(3),
        link,
    }
}

/// One field of the settings gets a value at or past its bound.
fn spoil(r: &mut Random, s: &mut Settings) {
    let k = r.below(16) as usize;
    let e = &mut s.table[k];
    match r.below(9) {
        0 => e.sectors = 0,
        1 => e.sectors = u32::MAX,
        2 => e.first = r.of(&[u32::MAX, u32::MAX - 1, 0, 1 << 20]),
        3 => e.link = Link::BOf(k as u8),
        4 => e.link = Link::OwnedBy(r.below(256) as u8),
        5 => e.user_count = r.of(&[4, 5, 255]),
        6 => e.users[0] = r.of(&[0xe48b_ff55, 0xe48b_ff56, 0xe48b_ff5b, 0xe48b_ff5c]),
        7 => s.count = r.of(&[15, 16, 17, 255]),
        _ => s.arm = !s.arm,
    }
}

/// A user family that some entries accept, and one each that only owned entries and only B entries do.
pub const USER: u32 = 0x1234_5678;
pub const USER_OF_OWNED: u32 = 0x1234_5679;
pub const USER_OF_B: u32 = 0x1234_567a;

pub const FAMILIES: [u32; 11] = [
    reference::ARM_S,
    reference::ARM_S,
    reference::ABSOLUTE,
    reference::DATA,
    reference::RISCV,
    reference::ARM_NS,
    reference::RP2040,
    USER,
    USER_OF_OWNED,
    USER_OF_B,
    3,
];

pub const KINDS: [Kind; 3] = [Kind::Flash, Kind::MainRam, Kind::XipRam];

/// A transfer of any state and kind, most of them good.
pub fn any_transfer(r: &mut Random, pages: u64) -> Transfer {
    let (mut family, mut total) = (reference::ARM_S, r.of(&[2, 3, 16]));
    if r.one_in(2) {
        family = r.of(&FAMILIES);
        total = r.of(&[0, 1, 2, pages as u32, 131_072, 131_073]);
    }
    let kind = r.of(&KINDS);
    let right = 1 + r.below(u64::from(total).max(2) - 1) as u32;
    match r.below(8) {
        0..=2 => Transfer::Idle,
        3 => Transfer::Done {
            family,
            total,
            kind,
        },
        4 => Transfer::Running {
            family,
            total,
            count: r.of(&[0, 1, total.wrapping_sub(1), total, u32::MAX]),
            kind,
        },
        _ => Transfer::Running {
            family,
            total,
            count: right,
            kind,
        },
    }
}

/// A block's fields; the payload is filled from the seed.
#[derive(Clone, Copy)]
pub struct Fields {
    pub flags: u32,
    pub address: u32,
    pub size: u32,
    pub number: u32,
    pub total: u32,
    pub family: u32,
}

pub fn arrival(f: Fields, seed: u64) -> Vec<u8> {
    let mut a = vec![0; 512];
    let mut put = |at: usize, v: u32| a[at..at + 4].copy_from_slice(&v.to_le_bytes());
    put(0, 0x0A32_4655);
    put(4, 0x9E5D_5157);
    put(8, f.flags);
    put(12, f.address);
    put(16, f.size);
    put(20, f.number);
    put(24, f.total);
    put(28, f.family);
    put(508, 0x0AB1_6F30);
    let mut r = Random(seed);
    for b in &mut a[32..508] {
        *b = r.draw() as u8;
    }
    a
}

/// Block k of a file of consecutive pages.
pub fn page(family: u32, total: u32, k: u32) -> Vec<u8> {
    let fields = Fields {
        flags: 0x2000,
        address: 0x1000_0000 + 256 * k,
        size: 256,
        number: k,
        total,
        family,
    };
    arrival(fields, u64::from(k) + 1)
}

/// Start and length of a kind's window: addresses of flash that so many pages hold, or all of a RAM's.
pub fn window(kind: Kind, pages: u64) -> (u32, u32) {
    match kind {
        Kind::Flash => (WINDOW, 256 * pages as u32),
        Kind::MainRam => (MAIN_WINDOW, reference::MAIN_LEN as u32),
        Kind::XipRam => (XIP_WINDOW, reference::XIP_LEN as u32),
    }
}

/// A block that passes wherever its family has a place of so many pages, or may go to a RAM that is lent.
fn right_arrival(r: &mut Random, pages: u64, ram: Ram) -> Vec<u8> {
    let drawn = r.of(&KINDS);
    let kind = if ram.has(drawn) { drawn } else { Kind::Flash };
    let (start, len) = window(kind, pages);
    let offset = r.below(u64::from(len) - 255) as u32;
    let total = r.of(&[1, 2, 3, 16, len / 256]);
    let family = r.of(&[reference::ARM_S, reference::ARM_S, reference::DATA, USER]);
    let fields = Fields {
        flags: r.of(&[0x2000, 0x2000, 0xE000]),
        address: match kind {
            Kind::Flash => start + offset / 256 * 256,
            Kind::MainRam | Kind::XipRam => start + offset,
        },
        size: 256,
        number: r.below(u64::from(total)) as u32,
        total,
        family: match kind {
            Kind::MainRam | Kind::XipRam if r.one_in(3) => r.of(&FAMILIES),
            _ => family,
        },
    };
    arrival(fields, r.draw())
}

/// An arrival of any kind: right for a flash of so many pages or for a RAM, near a bound, or damaged; a quarter of them with flag 0x1.
pub fn any_arrival(r: &mut Random, pages: u64, ram: Ram) -> Vec<u8> {
    let mut a = if r.one_in(2) {
        right_arrival(r, pages, ram)
    } else {
        near_arrival(r, pages)
    };
    // the lowest byte of the flags
    a[8] = a[8] & !1 | u8::from(r.one_in(4));
    a
}

/// The arrival as a block of the running transfer's family and total, of any number.
pub fn join(r: &mut Random, a: &mut [u8], transfer: Transfer) {
    if let Transfer::Running { family, total, .. } = transfer {
        let number = r.below(u64::from(total).max(1)) as u32;
        a[20..32].copy_from_slice([number, total, family].map(u32::to_le_bytes).as_flattened());
    }
}

/// The first address of each window, and the first one past it.
pub const EDGES: [u32; 6] = [
    0x1000_0000,
    0x1200_0000,
    0x13ff_c000,
    0x1400_0000,
    0x2000_0000,
    0x2008_2000,
];

/// What is added to an edge: a block, and a byte, to either side of it and of where the last block begins.
pub const BESIDE: [i32; 9] = [-512, -257, -256, -255, -1, 0, 1, 255, 256];

/// An arrival with fields at their bounds, and now and then a wrong magic number.
fn near_arrival(r: &mut Random, pages: u64) -> Vec<u8> {
    let pages = pages as u32;
    let total = match r.below(4) {
        0 => r.of(&[64, 65, 2080, 2081]),
        _ => r.of(&[1, 2, 3, 16, pages, pages + 1, 0, 0x0100_0000]),
    };
    let number = match r.below(4) {
        0 => total,
        1 => total.wrapping_sub(1),
        _ => r.below(u64::from(total).max(1)) as u32,
    };
    let inside = 0x1000_0000 + 256 * r.below(pages.into()) as u32;
    let edge = r.of(&EDGES).wrapping_add_signed(r.of(&BESIDE));
    let fields = Fields {
        flags: r.of(&[
            0x2000,
            0x2000,
            0x2000,
            0xE000,
            0x6000,
            0,
            0x2001,
            0x3000,
            0x3001,
            0xFFFF_FFFF,
        ]),
        address: r.of(&[
            inside,
            inside,
            edge,
            edge,
            0x1000_0000 + 256 * (pages - 1),
            0x1000_0000 + 256 * pages,
            0xFFFF_FF00,
            0xFFFF_FFFF,
        ]),
        size: r.of(&[256, 256, 256, 256, 255, 476, 0]),
        number,
        total,
        family: r.of(&FAMILIES),
    };
    let mut a = arrival(fields, r.draw());
    if r.one_in(12) {
        let at = r.of(&[0, 3, 4, 7, 508, 511]);
        a[at] ^= 1 << r.below(8);
    }
    a
}
