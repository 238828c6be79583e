//! Settings, transfer and buffers of a board from an input, as bytes for the calls and as the reference has them.

use reference::store::{StoredEntry, StoredSettings};
use reference::why::NoLinks;
use reference::{Arch, Entry, Kind, Link, Settings, Transfer};

use crate::fence::Fence;
use crate::input::Input;

pub const SETTINGS: usize = 550;
pub const TRANSFER: usize = 14;
const ENTRY: usize = 34;
const TABLE: usize = 6;

pub fn word_at(bytes: &[u8], at: usize) -> u32 {
    u32::from_le_bytes([bytes[at], bytes[at + 1], bytes[at + 2], bytes[at + 3]])
}

pub fn put(bytes: &mut [u8], at: usize, word: u32) {
    bytes[at..at + 4].copy_from_slice(&word.to_le_bytes());
}

// ---- settings

/// Arm alone, absolute allowed, no table: what the program `receive` has.
pub fn plain_settings() -> Vec<u8> {
    let mut bytes = vec![0; SETTINGS];
    (bytes[0], bytes[4]) = (1, 1);
    bytes
}

/// Settings of any kind: good tables first, then bytes of any value at any place, then any length.
pub fn settings(input: &mut Input) -> Vec<u8> {
    let mut bytes = plain_settings();
    let switches = input.byte();
    for (at, bit) in [(0, 1), (1, 2), (2, 4), (3, 8), (4, 16)] {
        bytes[at] = u8::from(switches & bit != 0);
    }
    // most boards can start what they are
    if switches < 224 {
        let current = usize::from(bytes[2]);
        bytes[current] = 1;
    }
    let count = input.byte();
    bytes[5] = if count >= 250 { count - 235 } else { count % 6 };
    let mut from = 0;
    for k in 0..usize::from(bytes[5].min(16)) {
        from = entry(
            input,
            &mut bytes[TABLE + ENTRY * k..][..ENTRY],
            k as u8,
            from,
        );
    }
    for _ in 0..input.byte().saturating_sub(251) {
        let at = usize::from(input.word16()) % SETTINGS;
        bytes[at] = input.byte();
    }
    let length = input.length(SETTINGS, 2 * SETTINGS);
    bytes.resize(length, 1);
    bytes
}

/// An entry from a sector on, mostly good; the sector after it.
fn entry(input: &mut Input, bytes: &mut [u8], index: u8, from: u32) -> u32 {
    let shape = input.byte();
    let sectors = 1 + u32::from(shape & 1);
    let (first, sectors) = match shape >> 4 {
        15 => (input.word(), input.word()),
        14 => (from, input.of(&[0, 8191, 8192, u32::MAX])),
        13 => (from.saturating_sub(1), sectors),
        12 => (from + 1, sectors),
        _ => (from, sectors),
    };
    put(bytes, 0, first);
    put(bytes, 4, sectors);
    let accepts = input.byte();
    for (i, byte) in bytes[24..28].iter_mut().enumerate() {
        *byte = accepts >> i & 1;
    }
    bytes[29] = accepts >> 4 & 1;
    bytes[30] = accepts >> 5 & 1;
    bytes[33] = accepts >> 6 & 1;
    bytes[28] = if accepts & 128 != 0 {
        input.byte() % 6
    } else {
        0
    };
    for slot in 0..bytes[28].min(4) {
        put(bytes, 8 + 4 * usize::from(slot), input.family());
    }
    // a link to an earlier entry, or any
    match shape >> 1 & 7 {
        1 if index > 0 => (bytes[31], bytes[32]) = (1, input.byte() % index),
        2 if index > 0 => (bytes[31], bytes[32]) = (2, input.byte() % index),
        3 => (bytes[31], bytes[32]) = (input.byte(), input.byte()),
        _ => {}
    }
    first.saturating_add(sectors).min(1 << 24)
}

fn entry_of(bytes: &[u8]) -> StoredEntry {
    let flag = |at: usize| bytes[at] != 0;
    let link = match bytes[31] {
        0 => Link::None,
        1 => Link::OwnedBy(bytes[32]),
        2 => Link::BOf(bytes[32]),
        // no link: as bad as one to an entry that no table has
        _ => Link::OwnedBy(255),
    };
    let entry = Entry {
        first: word_at(bytes, 0),
        sectors: word_at(bytes, 4),
        data: flag(24),
        arm_s: flag(25),
        riscv: flag(26),
        arm_ns: flag(27),
        user_count: bytes[28],
        users: [8, 12, 16, 20].map(|at| word_at(bytes, at)),
        not_bootable_arm: flag(29),
        not_bootable_riscv: flag(30),
        link,
    };
    let no_restart = flag(33);
    StoredEntry { entry, no_restart }
}

/// The settings that bytes are; what is none is bad for every flash.
pub fn stored_of(bytes: &[u8]) -> StoredSettings {
    let none = bytes.len() != SETTINGS;
    let bytes = if none { &[0; SETTINGS][..] } else { bytes };
    let flag = |at: usize| bytes[at] != 0;
    StoredSettings {
        arm: flag(0),
        riscv: flag(1),
        current: if flag(2) { Arch::RiscV } else { Arch::Arm },
        auto_switch: flag(3),
        absolute: flag(4),
        count: bytes[5],
        table: std::array::from_fn(|k| entry_of(&bytes[TABLE + ENTRY * k..][..ENTRY])),
    }
}

pub fn settings_of(bytes: &[u8]) -> Settings {
    stored_of(bytes).settings()
}

/// The links that are none.
pub fn no_links(bytes: &[u8]) -> NoLinks {
    std::array::from_fn(|k| {
        let link = *bytes.get(TABLE + ENTRY * k + 31)?;
        (bytes.len() == SETTINGS && link > 2).then_some(link)
    })
}

/// What a store's reader writes.
pub fn bytes_of_stored(s: &StoredSettings) -> [u8; SETTINGS] {
    let mut bytes = [0; SETTINGS];
    let current = s.current == Arch::RiscV;
    let flags = [s.arm, s.riscv, current, s.auto_switch, s.absolute].map(u8::from);
    bytes[..5].copy_from_slice(&flags);
    bytes[5] = s.count;
    for (k, stored) in s.table.iter().enumerate().take(s.count.into()) {
        let (entry, bytes) = (&stored.entry, &mut bytes[TABLE + ENTRY * k..][..ENTRY]);
        put(bytes, 0, entry.first);
        put(bytes, 4, entry.sectors);
        for (slot, &user) in entry.users.iter().enumerate().take(entry.user_count.into()) {
            put(bytes, 8 + 4 * slot, user);
        }
        let accepts = [entry.data, entry.arm_s, entry.riscv, entry.arm_ns].map(u8::from);
        bytes[24..28].copy_from_slice(&accepts);
        bytes[28] = entry.user_count;
        bytes[29] = entry.not_bootable_arm.into();
        bytes[30] = entry.not_bootable_riscv.into();
        (bytes[31], bytes[32]) = match entry.link {
            Link::None => (0, 0),
            Link::OwnedBy(k) => (1, k),
            Link::BOf(k) => (2, k),
        };
        bytes[33] = stored.no_restart.into();
    }
    bytes
}

// ---- transfers

/// A transfer of any state, mostly one that a receiver has met.
pub fn transfer(input: &mut Input) -> Vec<u8> {
    let mut bytes = vec![0; TRANSFER];
    let state = input.byte();
    bytes[0] = match state {
        0..=99 => return bytes,
        100..=199 => 1,
        200..=239 => 2,
        _ => input.byte(),
    };
    put(&mut bytes, 1, input.family());
    let total = input.word_of(&[2, 3, 4, 8, 16, 2, 1, 131_072, 131_073, 0, 64, 2080, 128]);
    put(&mut bytes, 5, total);
    let near = total.wrapping_sub(1);
    put(&mut bytes, 9, input.word_of(&[1, near, 1, 2, total, 0]));
    bytes[13] = input.of(&[0, 0, 0, 1, 2, 0, 1, 3]);
    let length = input.length(TRANSFER, 64);
    bytes.resize(length, 0);
    bytes
}

fn kind_of(byte: u8) -> Option<Kind> {
    [Kind::Flash, Kind::MainRam, Kind::XipRam]
        .get(usize::from(byte))
        .copied()
}

/// The transfer that bytes are.
pub fn transfer_of(bytes: &[u8]) -> Option<Transfer> {
    let bytes = <&[u8; TRANSFER]>::try_from(bytes).ok()?;
    let [family, total, count] = [1, 5, 9].map(|at| word_at(bytes, at));
    match bytes[0] {
        0 => Some(Transfer::Idle),
        1 => Some(Transfer::Running {
            family,
            total,
            count,
            kind: kind_of(bytes[13])?,
        }),
        2 => Some(Transfer::Done {
            family,
            total,
            kind: kind_of(bytes[13])?,
        }),
        _ => None,
    }
}

/// Numbers that fit no transfer, as the bytes do that are none.
pub const NO_TRANSFER: Transfer = Transfer::Running {
    family: 0,
    total: 0,
    count: 0,
    kind: Kind::Flash,
};

pub fn bytes_of_transfer(t: Transfer) -> [u8; TRANSFER] {
    let (state, family, total, count, kind) = match t {
        Transfer::Idle => (0, 0, 0, 0, Kind::Flash),
        Transfer::Running {
            family,
            total,
            count,
            kind,
        } => (1, family, total, count, kind),
        Transfer::Done {
            family,
            total,
            kind,
        } => (2, family, total, total, kind),
    };
    let mut bytes = [0; TRANSFER];
    bytes[0] = state;
    put(&mut bytes, 1, family);
    put(&mut bytes, 5, total);
    put(&mut bytes, 9, count);
    bytes[13] = kind as u8;
    bytes
}

// ---- buffers

pub const NAMES: [&str; 5] = ["flash", "seen map", "sector map", "main RAM", "XIP RAM"];
const MOST_FLASH: usize = 8 * 4096;
const ROOM: [usize; 5] = [
    MOST_FLASH + 4096,
    2 * reference::SEEN_LEN,
    2 * reference::SECTORS_LEN,
    reference::MAIN_LEN + 1,
    2 * reference::XIP_LEN,
];
const MAIN: usize = 3;
/// What main RAM has where nothing was stored.
const MAIN_BYTE: u8 = 0x3C;

/// Flash, maps and RAMs twice: for the call beside fences, and for the reference.
pub struct Buffers {
    pub ours: [Fence; 5],
    pub theirs: [Vec<u8>; 5],
    /// The reference's main RAM, while a board has none.
    spare: Vec<u8>,
}

impl Buffers {
    pub fn new() -> Buffers {
        let mut ours = ROOM.map(Fence::new);
        ours[MAIN] = Fence::kept(ROOM[MAIN]);
        ours[MAIN].fill(reference::MAIN_LEN + 1, MAIN_BYTE);
        Buffers {
            ours,
            theirs: std::array::from_fn(|_| Vec::new()),
            spare: vec![MAIN_BYTE; reference::MAIN_LEN],
        }
    }

    /// Lengths and contents: a flash of some sectors, maps of some marks, each RAM or none; now and then a length that is wrong.
    pub fn set(&mut self, input: &mut Input) {
        let shape = input.byte();
        let sectors = [1, 2, 3, 5, 2, 4, 8, 1][usize::from(shape & 7)];
        let mut lens = [
            4096 * sectors,
            reference::SEEN_LEN,
            reference::SECTORS_LEN,
            if shape & 24 == 24 {
                reference::MAIN_LEN
            } else {
                0
            },
            if shape & 32 != 0 {
                reference::XIP_LEN
            } else {
                0
            },
        ];
        if shape >= 240 {
            let which = usize::from(input.byte() % 5);
            let right = lens[which];
            lens[which] = input.length(right, ROOM[which]);
            lens[which] = match input.byte() {
                255 if which == MAIN => reference::MAIN_LEN - 1,
                254 if which == MAIN => reference::MAIN_LEN + 1,
                253 => right,
                _ => lens[which],
            };
        }
        let (flash, seen, erased) = (input.byte(), input.byte(), input.byte());
        self.fill(lens, [flash, seen, erased, MAIN_BYTE, flash ^ 1]);
        self.sprinkle(input);
    }

    /// The board of the program `receive`.
    pub fn set_plain(&mut self) {
        let lens = [32_768, reference::SEEN_LEN, reference::SECTORS_LEN, 0, 0];
        self.fill(lens, [0xFF, 0, 0, MAIN_BYTE, 0]);
    }

    fn fill(&mut self, lens: [usize; 5], bytes: [u8; 5]) {
        for (i, (&len, &byte)) in lens.iter().zip(&bytes).enumerate() {
            let theirs = &mut self.theirs[i];
            if i == MAIN {
                // it is large: what was stored is put back after a call
                self.ours[MAIN].of_len(len);
                if (len > 0) == (self.spare.len() > theirs.len()) {
                    std::mem::swap(theirs, &mut self.spare);
                }
            } else {
                self.ours[i].fill(len, byte);
                theirs.clear();
            }
            theirs.resize(len, byte);
        }
    }

    /// Some bytes of flash and of the first marks of both maps.
    fn sprinkle(&mut self, input: &mut Input) {
        for _ in 0..input.byte() & 3 {
            let (which, at, byte) = (input.byte() % 3, input.byte(), input.byte());
            let buffer = &mut self.theirs[usize::from(which)];
            let at = usize::from(at) * if which == 0 { 256 } else { 1 };
            if at < buffer.len() {
                buffer[at] = byte;
                self.ours[usize::from(which)].bytes()[at] = byte;
            }
        }
    }

    /// Puts main RAM back where arrivals may have stored. They lie in pieces of 512 bytes, or, as records of a trace, of 513.
    fn put_back(&mut self, sent: &[u8], piece: usize) {
        let (ours, theirs) = (self.ours[MAIN].bytes(), &mut self.theirs[MAIN]);
        let address = 12 + piece - 512;
        for arrival in sent.chunks_exact(piece) {
            let at = word_at(arrival, address).wrapping_sub(reference::MAIN_WINDOW) as usize;
            let end = at.saturating_add(256).min(theirs.len());
            if at < end {
                ours[at..end].fill(MAIN_BYTE);
                theirs[at..end].fill(MAIN_BYTE);
            }
        }
    }

    /// The reference's buffers but main RAM.
    pub fn small(&self) -> [Vec<u8>; 4] {
        [0, 1, 2, 4].map(|i| self.theirs[i].clone())
    }

    /// The reference's buffers as they were, after arrivals.
    pub fn restore(&mut self, before: [Vec<u8>; 4], sent: &[u8]) {
        for (i, bytes) in [0, 1, 2, 4].into_iter().zip(before) {
            self.theirs[i] = bytes;
        }
        self.put_back(sent, 512);
    }

    /// Each buffer of the call is as the reference's; main RAM, which is large, at the end alone.
    pub fn agree(&mut self) {
        for (i, name) in NAMES.iter().enumerate().filter(|&(i, _)| i != MAIN) {
            let (ours, theirs) = (&mut self.ours[i], &self.theirs[i]);
            ours.holds(theirs, name);
        }
    }

    /// The same of every buffer, at the end of what was sent in pieces of 512 or 513 bytes.
    pub fn agree_at_the_end(&mut self, sent: &[u8], piece: usize) {
        self.agree();
        self.ours[MAIN].holds(&self.theirs[MAIN], NAMES[MAIN]);
        self.put_back(sent, piece);
    }
}
