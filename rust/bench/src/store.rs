//! Settings of 16 entries written to their packed store, and read from it: from settings as bytes and to them, `uf2_store_write` and
//! `uf2_store_read` beside plain Rust that shifts its fields through a number of 64 bits. What it makes is held to the reference's.

use std::hint::black_box;

use compare::store::{proved_stored, stored};
use compare::Random;
use reference::store::{write_store, StoredEntry, StoredSettings};
use reference::{settings_good, Arch, Entry, Link, Settings, MAX_FLASH_LEN, SECTOR_LEN};

use crate::{pair, read, timed, Work, FLASH};

const CALLS: usize = 20_000;
const SETTINGS: usize = proved::SETTINGS_BYTES;
const STORE: usize = proved::store::MAX_BYTES;

struct Packer<'a> {
    out: &'a mut [u8],
    at: usize,
    bits: u64,
    held: u32,
}

impl Packer<'_> {
    fn put(&mut self, width: u32, value: u32) {
        self.bits = self.bits << width | u64::from(value);
        self.held += width;
        if self.held >= 32 {
            self.held -= 32;
            let word = (self.bits >> self.held) as u32;
            self.out[self.at..self.at + 4].copy_from_slice(&word.to_be_bytes());
            self.at += 4;
        }
    }

    /// Writes what is held, whole bytes.
    fn end(mut self) {
        while self.held >= 8 {
            self.held -= 8;
            self.out[self.at] = (self.bits >> self.held) as u8;
            self.at += 1;
        }
    }
}

struct Unpacker<'a> {
    bytes: &'a [u8],
    at: usize,
    bits: u64,
    held: u32,
}

impl Unpacker<'_> {
    fn take(&mut self, width: u32) -> u32 {
        if self.held < width {
            self.fill();
        }
        self.held -= width;
        (self.bits >> self.held & ((1 << width) - 1)) as u32
    }

    /// Four bytes more, or those that are left.
    fn fill(&mut self) {
        if let Some(&word) = self.bytes[self.at..].first_chunk() {
            self.bits = self.bits << 32 | u64::from(u32::from_be_bytes(word));
            self.at += 4;
            self.held += 32;
            return;
        }
        for &byte in &self.bytes[self.at..] {
            self.bits = self.bits << 8 | u64::from(byte);
            self.held += 8;
        }
        self.at = self.bytes.len();
    }
}

fn flash_good(len: usize) -> bool {
    len.is_multiple_of(SECTOR_LEN) && (SECTOR_LEN..=MAX_FLASH_LEN).contains(&len)
}

/// The settings that bytes are, with "don't restart".
fn from_bytes(bytes: &[u8]) -> StoredSettings {
    let s = read(bytes);
    let mut all = with(&s);
    for (entry, part) in all.table.iter_mut().zip(bytes[6..].chunks_exact(34)) {
        entry.no_restart = part[33] != 0;
    }
    all
}

fn with(s: &Settings) -> StoredSettings {
    StoredSettings {
        arm: s.arm,
        riscv: s.riscv,
        current: s.current,
        auto_switch: s.auto_switch,
        absolute: s.absolute,
        count: s.count,
        table: s.table.map(|entry| StoredEntry {
            entry,
            no_restart: false,
        }),
    }
}

fn to_bytes(s: &StoredSettings, bytes: &mut [u8]) {
    let riscv = s.current == Arch::RiscV;
    let switches = [s.arm, s.riscv, riscv, s.auto_switch, s.absolute].map(u8::from);
    bytes[..5].copy_from_slice(&switches);
    bytes[5] = s.count;
    for (part, stored) in bytes[6..].chunks_exact_mut(34).zip(&s.table) {
        let e = &stored.entry;
        let [a, b, c, d] = e.users;
        for (at, x) in part
            .chunks_exact_mut(4)
            .zip([e.first, e.sectors, a, b, c, d])
        {
            at.copy_from_slice(&x.to_le_bytes());
        }
        let (kind, index) = kind_of(e.link);
        part[24..].copy_from_slice(&[
            e.data.into(),
            e.arm_s.into(),
            e.riscv.into(),
            e.arm_ns.into(),
            e.user_count,
            e.not_bootable_arm.into(),
            e.not_bootable_riscv.into(),
            kind,
            index,
            stored.no_restart.into(),
        ]);
    }
}

fn kind_of(link: Link) -> (u8, u8) {
    match link {
        Link::None => (0, 0),
        Link::OwnedBy(k) => (1, k),
        Link::BOf(k) => (2, k),
    }
}

fn plain_write(s: &StoredSettings, flash_len: usize, out: &mut [u8]) -> Result<usize, u32> {
    if !flash_good(flash_len) {
        return Err(1);
    }
    if !settings_good(&s.settings(), flash_len) {
        return Err(2);
    }
    let used = &s.table[..usize::from(s.count)];
    let len = 2 + 22 * used.len();
    let out = out.get_mut(..len).ok_or(41u32)?;
    let version = 1 + u32::from(used.iter().any(|e| e.no_restart));
    let mut p = Packer {
        out,
        at: 0,
        bits: 0,
        held: 0,
    };
    p.put(4, version);
    p.put(5, s.count.into());
    let riscv = s.current == Arch::RiscV;
    for on in [s.auto_switch, s.absolute, s.arm, s.riscv, riscv] {
        p.put(1, on.into());
    }
    p.put(2, 0);
    for stored in used {
        let e = &stored.entry;
        let (kind, index) = kind_of(e.link);
        p.put(13, e.first);
        p.put(14, e.sectors);
        p.put(2, kind.into());
        p.put(4, index.into());
        let flags = [e.data, e.arm_s, e.riscv, e.arm_ns];
        for on in flags {
            p.put(1, on.into());
        }
        p.put(1, e.not_bootable_arm.into());
        p.put(1, e.not_bootable_riscv.into());
        p.put(3, e.user_count.into());
        for (i, &family) in e.users.iter().enumerate() {
            let used = i < usize::from(e.user_count);
            p.put(32, if used { family } else { 0 });
        }
        p.put(1, stored.no_restart.into());
        p.put(5, 0);
    }
    p.end();
    Ok(len)
}

fn plain_entry(p: &mut Unpacker) -> Option<StoredEntry> {
    let (first, sectors) = (p.take(13), p.take(14));
    let link = match (p.take(2), p.take(4) as u8) {
        (0, 0) => Link::None,
        (1, k) => Link::OwnedBy(k),
        (2, k) => Link::BOf(k),
        _ => return None,
    };
    let flags: [bool; 6] = std::array::from_fn(|_| p.take(1) == 1);
    let user_count = p.take(3) as u8;
    let users: [u32; 4] = std::array::from_fn(|_| p.take(32));
    let no_restart = p.take(1) == 1;
    let stray = p.take(5);
    let unused = users.get(usize::from(user_count)..)?;
    if stray != 0 || unused.iter().any(|&family| family != 0) {
        return None;
    }
    let [data, arm_s, riscv, arm_ns, not_bootable_arm, not_bootable_riscv] = flags;
    let entry = Entry {
        first,
        sectors,
        data,
        arm_s,
        riscv,
        arm_ns,
        user_count,
        users,
        not_bootable_arm,
        not_bootable_riscv,
        link,
    };
    Some(StoredEntry { entry, no_restart })
}

fn plain_read(bytes: &[u8], flash_len: usize) -> Result<StoredSettings, u32> {
    if !flash_good(flash_len) {
        return Err(1);
    }
    if bytes.len() < 2 {
        return Err(41);
    }
    let mut p = Unpacker {
        bytes,
        at: 0,
        bits: 0,
        held: 0,
    };
    let version = p.take(4);
    if version != 1 && version != 2 {
        return Err(40);
    }
    let count = p.take(5) as u8;
    if count > 16 {
        return Err(42);
    }
    if bytes.len() != 2 + 22 * usize::from(count) {
        return Err(41);
    }
    let [auto_switch, absolute, arm, riscv, current] = std::array::from_fn(|_| p.take(1) == 1);
    let stray = p.take(2);
    let mut s = StoredSettings {
        arm,
        riscv,
        current: if current { Arch::RiscV } else { Arch::Arm },
        auto_switch,
        absolute,
        count,
        table: [StoredEntry::EMPTY; 16],
    };
    for stored in &mut s.table[..usize::from(count)] {
        *stored = plain_entry(&mut p).ok_or(42u32)?;
    }
    let used = &s.table[..usize::from(count)];
    let wanted = 1 + u32::from(used.iter().any(|e| e.no_restart));
    if stray != 0 || version != wanted {
        return Err(42);
    }
    if !settings_good(&s.settings(), flash_len) {
        return Err(2);
    }
    Ok(s)
}

fn sum(bytes: &[u8]) -> u64 {
    bytes.iter().map(|&b| u64::from(b)).sum()
}

fn work() -> Work {
    Work {
        rounds: crate::CALLS,
        calls: CALLS,
        bytes: None,
    }
}

pub fn rows(sixteen: &Settings) {
    let s = stored(&mut Random(1), sixteen, 4);
    let settings = proved_stored(&s).bytes();
    let mut store = [0; STORE];
    assert_eq!(write_store(&s, FLASH, &mut store), Ok(STORE));
    let mut again = [0; STORE];
    assert_eq!(plain_write(&s, FLASH, &mut again), Ok(STORE));
    assert_eq!(again, store, "the plain store is the reference's");
    assert_eq!(plain_read(&store, FLASH), Ok(s));
    let mut out = [0; STORE];
    let mut plain_out = [0; STORE];
    pair(
        "a store of 16 entries written",
        work(),
        || {
            timed(|| {
                for _ in 0..CALLS {
                    proved::store::bytes::write(black_box(&settings), FLASH, &mut out);
                }
                sum(&out)
            })
        },
        || {
            timed(|| {
                for _ in 0..CALLS {
                    let s = from_bytes(black_box(&settings));
                    plain_write(&s, FLASH, &mut plain_out).expect("a store");
                    black_box(&mut plain_out);
                }
                sum(&plain_out)
            })
        },
    );
    let mut read = [0; SETTINGS];
    let mut plain_settings = [0; SETTINGS];
    pair(
        "a store of 16 entries read",
        work(),
        || {
            timed(|| {
                for _ in 0..CALLS {
                    proved::store::bytes::read(black_box(&store), FLASH, &mut read);
                }
                sum(&read)
            })
        },
        || {
            timed(|| {
                for _ in 0..CALLS {
                    let s = plain_read(black_box(&store), FLASH).expect("settings");
                    to_bytes(&s, &mut plain_settings);
                    black_box(&mut plain_settings);
                }
                sum(&plain_settings)
            })
        },
    );
}
