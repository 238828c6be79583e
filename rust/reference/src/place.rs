//! The settings, and the place in flash that they give a family.

use crate::{flash_len_good, BAD_BUFFERS, BAD_SETTINGS, NO_PLACE, SECTOR_LEN};

pub const MAX_ENTRIES: usize = 16;
pub const MAX_USERS: usize = 4;

pub const RP2040: u32 = 0xe48b_ff56;
pub const ABSOLUTE: u32 = 0xe48b_ff57;
pub const DATA: u32 = 0xe48b_ff58;
pub const ARM_S: u32 = 0xe48b_ff59;
pub const RISCV: u32 = 0xe48b_ff5a;
pub const ARM_NS: u32 = 0xe48b_ff5b;

/// How an entry hangs on an earlier one, named by its index.
#[derive(Clone, Copy, PartialEq, Eq, Debug)]
pub enum Link {
    None,
    OwnedBy(u8),
    BOf(u8),
}

#[derive(Clone, Copy, PartialEq, Eq, Debug)]
pub enum Arch {
    Arm,
    RiscV,
}

/// One partition. Of `users` only the first `user_count` are meant.
#[derive(Clone, Copy, PartialEq, Eq, Debug)]
pub struct Entry {
    pub first: u32,
    pub sectors: u32,
    pub data: bool,
    pub arm_s: bool,
    pub riscv: bool,
    pub arm_ns: bool,
    pub user_count: u8,
    pub users: [u32; 4],
    pub not_bootable_arm: bool,
    pub not_bootable_riscv: bool,
    pub link: Link,
}

/// The device's settings. Of `table` only the first `count` entries are used;
/// a count of 0 is no table.
#[derive(Clone, Copy, PartialEq, Eq, Debug)]
pub struct Settings {
    pub arm: bool,
    pub riscv: bool,
    pub current: Arch,
    pub auto_switch: bool,
    pub absolute: bool,
    pub count: u8,
    pub table: [Entry; 16],
}

impl Entry {
    /// An entry to fill in: it has no sectors and accepts no family.
    pub const EMPTY: Entry = Entry {
        first: 0,
        sectors: 0,
        data: false,
        arm_s: false,
        riscv: false,
        arm_ns: false,
        user_count: 0,
        users: [0; MAX_USERS],
        not_bootable_arm: false,
        not_bootable_riscv: false,
        link: Link::None,
    };

    /// The sector after its last; 64 bits hold it whatever the fields say.
    fn end(&self) -> u64 {
        u64::from(self.first) + u64::from(self.sectors)
    }

    pub(crate) fn shares_sector(&self, other: &Entry) -> bool {
        u64::from(self.first) < other.end() && u64::from(other.first) < self.end()
    }

    /// Cut at the array's end, as bad settings may claim more.
    pub(crate) fn users(&self) -> &[u32] {
        &self.users[..MAX_USERS.min(self.user_count.into())]
    }

    pub(crate) fn is_b(&self) -> bool {
        matches!(self.link, Link::BOf(_))
    }

    pub(crate) fn accepts(&self, family: u32) -> bool {
        match family {
            DATA => self.data,
            ARM_S => self.arm_s,
            RISCV => self.riscv,
            ARM_NS => self.arm_ns,
            _ => self.users().contains(&family),
        }
    }

    fn not_bootable(&self, arch: Arch) -> bool {
        match arch {
            Arch::Arm => self.not_bootable_arm,
            Arch::RiscV => self.not_bootable_riscv,
        }
    }
}

impl Settings {
    pub(crate) fn enabled(&self, arch: Arch) -> bool {
        match arch {
            Arch::Arm => self.arm,
            Arch::RiscV => self.riscv,
        }
    }

    /// Cut at the table's end, as bad settings may claim more.
    pub(crate) fn used(&self) -> &[Entry] {
        &self.table[..MAX_ENTRIES.min(self.count.into())]
    }
}

/// Whether none of document 01's reasons for bad settings holds.
pub fn settings_good(s: &Settings, flash_len: usize) -> bool {
    if !s.enabled(s.current) || usize::from(s.count) > MAX_ENTRIES {
        return false;
    }
    let used = s.used();
    let flash_sectors = (flash_len / SECTOR_LEN) as u64;
    used.iter().enumerate().all(|(i, entry)| {
        let earlier = &used[..i];
        entry.sectors != 0
            && entry.end() <= flash_sectors
            && link_good(entry.link, earlier)
            && users_good(entry)
            && !earlier.iter().any(|other| other.shares_sector(entry))
    })
}

fn link_good(link: Link, earlier: &[Entry]) -> bool {
    match link {
        Link::None => true,
        Link::OwnedBy(k) | Link::BOf(k) => earlier
            .get(usize::from(k))
            .is_some_and(|target| !target.is_b()),
    }
}

fn users_good(entry: &Entry) -> bool {
    usize::from(entry.user_count) <= MAX_USERS
        && !entry
            .users()
            .iter()
            .any(|family| (RP2040..=ARM_NS).contains(family))
}

/// Start and length in bytes of the family's place, for good settings.
pub fn place_of(s: &Settings, flash_len: usize, family: u32) -> Option<(usize, usize)> {
    let whole = Some((0, flash_len));
    match family {
        ABSOLUTE if s.absolute => whole,
        ABSOLUTE | RP2040 => None,
        _ if s.count == 0 => match family {
            DATA => whole,
            ARM_S if s.arm => whole,
            RISCV if s.riscv => whole,
            _ => None,
        },
        _ => partition_of(s, family).map(|entry| (bytes(entry.first), bytes(entry.sectors))),
    }
}

/// Whether the family may go to RAM: one of 004's reserved range, or a user
/// family of a used entry. That the entry is "B of" another, or that an
/// architecture is off, doesn't matter.
pub fn ram_accepts(s: &Settings, family: u32) -> bool {
    (DATA..=ARM_NS).contains(&family)
        || s.used().iter().any(|entry| entry.users().contains(&family))
}

/// Good settings stay far below saturation, even where `usize` has 32 bits.
fn bytes(sectors: u32) -> usize {
    (sectors as usize).saturating_mul(SECTOR_LEN)
}

/// The four passes of the targeting rules (001).
fn partition_of(s: &Settings, family: u32) -> Option<&Entry> {
    let (image, other) = (image_of(family), other(s.current));
    let accepting = || {
        s.used()
            .iter()
            .filter(move |entry| !entry.is_b() && entry.accepts(family))
    };
    let unowned = || accepting().filter(|entry| entry.link == Link::None);
    let bootable = |arch: Arch| unowned().find(|entry| !entry.not_bootable(arch));

    let for_current = image == Some(s.current);
    let for_other = s.auto_switch && s.enabled(other) && image == Some(other);
    let pass_1 = || for_current.then(|| bootable(s.current)).flatten();
    let pass_2 = || for_other.then(|| bootable(other)).flatten();
    let pass_3 = || unowned().next();
    let pass_4 = || accepting().next();
    pass_1().or_else(pass_2).or_else(pass_3).or_else(pass_4)
}

/// The architecture that boots the family; arm-ns is booted by none.
fn image_of(family: u32) -> Option<Arch> {
    match family {
        ARM_S => Some(Arch::Arm),
        RISCV => Some(Arch::RiscV),
        _ => None,
    }
}

fn other(arch: Arch) -> Arch {
    match arch {
        Arch::Arm => Arch::RiscV,
        Arch::RiscV => Arch::Arm,
    }
}

/// The family's place asked for alone: refused by 1, 2 or 8, in that order.
pub fn ask_place(s: &Settings, flash_len: usize, family: u32) -> Result<(usize, usize), u8> {
    if !flash_len_good(flash_len) {
        Err(BAD_BUFFERS)
    } else if !settings_good(s, flash_len) {
        Err(BAD_SETTINGS)
    } else {
        place_of(s, flash_len, family).ok_or(NO_PLACE)
    }
}
