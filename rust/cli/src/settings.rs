//! A board's settings as a text that a person can write: a small part of TOML.
//!
//! ```toml
//! # switches are false where they are not said; the current architecture is always said
//! arm = true
//! riscv = true
//! current = "arm"            # "arm" or "riscv"
//! auto-switch = false
//! absolute = false
//!
//! [[partition]]              # partition 0; at most 16, in the order of the table
//! first = 2                  # the first sector, of 4,096 bytes
//! sectors = 64
//! accepts = ["arm-s", "data", 0x12345678]   # data, arm-s, riscv, arm-ns, and up to 4 user families by number
//!
//! [[partition]]              # partition 1
//! first = 66
//! sectors = 64
//! accepts = ["arm-s"]
//! b-of = 0                   # the B partition of partition 0; or owned-by = 0
//! not-bootable = ["riscv"]   # "arm", "riscv"
//! dont-restart = true
//! ```

mod build;
pub mod command;
mod lex;
mod show;

pub use build::{parse, Parsed};
pub use show::{need, show};

use std::fmt;

/// Settings as the text has them.
#[derive(Clone, PartialEq, Eq, Debug)]
pub struct Settings {
    /// Arm is enabled.
    pub arm: bool,
    /// RISC-V is enabled.
    pub riscv: bool,
    /// The current architecture.
    pub current: Arch,
    /// The board switches to the other architecture by itself.
    pub auto_switch: bool,
    /// The family absolute is allowed.
    pub absolute: bool,
    /// The partitions, at most 16.
    pub partitions: Vec<Partition>,
}

/// An architecture.
#[derive(Clone, Copy, PartialEq, Eq, Debug)]
pub enum Arch {
    /// Arm.
    Arm,
    /// RISC-V.
    RiscV,
}

/// A partition.
#[derive(Clone, PartialEq, Eq, Debug, Default)]
pub struct Partition {
    /// The first sector.
    pub first: u32,
    /// How many sectors.
    pub sectors: u32,
    /// The families with names that it accepts, in the order of [`ACCEPTED`].
    pub accepts: [bool; 4],
    /// The user families that it accepts, at most 4.
    pub users: Vec<u32>,
    /// Not bootable on Arm.
    pub not_bootable_arm: bool,
    /// Not bootable on RISC-V.
    pub not_bootable_riscv: bool,
    /// How it is linked to another.
    pub link: Link,
    /// Don't restart.
    pub dont_restart: bool,
}

/// The families that a partition accepts by name.
pub const ACCEPTED: [&str; 4] = ["data", "arm-s", "riscv", "arm-ns"];
/// The most partitions.
pub const PARTITIONS: usize = 16;
/// The most user families of a partition.
pub const USERS: usize = 4;

/// How a partition is linked to another.
#[derive(Clone, Copy, PartialEq, Eq, Debug, Default)]
pub enum Link {
    /// To none.
    #[default]
    Unlinked,
    /// Owned by another.
    OwnedBy(u8),
    /// The B partition of another.
    BOf(u8),
}

/// What is wrong with a text, and in which line, counted from 1.
#[derive(Clone, PartialEq, Eq, Debug)]
pub struct Fault {
    /// The line.
    pub line: usize,
    /// What is wrong.
    pub why: String,
}

impl fmt::Display for Fault {
    fn fmt(&self, f: &mut fmt::Formatter) -> fmt::Result {
        write!(f, "line {}: {}", self.line, self.why)
    }
}

impl Settings {
    /// The settings as the library takes them.
    pub fn proved(&self) -> proved::Settings {
        let mut table = [proved::Entry::BLANK; proved::ENTRIES];
        for (entry, partition) in table.iter_mut().zip(&self.partitions) {
            *entry = partition.proved();
        }
        proved::Settings {
            arm: self.arm,
            riscv: self.riscv,
            current: match self.current {
                Arch::Arm => proved::Arch::Arm,
                Arch::RiscV => proved::Arch::RiscV,
            },
            auto_switch: self.auto_switch,
            absolute: self.absolute,
            count: self.partitions.len() as u8,
            table,
        }
    }

    /// The settings that the library hands back; entries past the count, and user families past theirs, are left out.
    pub fn from_proved(settings: &proved::Settings) -> Settings {
        let used = settings.table.iter().take(settings.count.into());
        Settings {
            arm: settings.arm,
            riscv: settings.riscv,
            current: match settings.current {
                proved::Arch::Arm => Arch::Arm,
                proved::Arch::RiscV => Arch::RiscV,
            },
            auto_switch: settings.auto_switch,
            absolute: settings.absolute,
            partitions: used.map(Partition::from_proved).collect(),
        }
    }
}

impl Partition {
    fn proved(&self) -> proved::Entry {
        let mut users = [0; USERS];
        for (slot, user) in users.iter_mut().zip(&self.users) {
            *slot = *user;
        }
        let [data, arm_s, riscv, arm_ns] = self.accepts;
        proved::Entry {
            first: self.first,
            sectors: self.sectors,
            data,
            arm_s,
            riscv,
            arm_ns,
            user_count: self.users.len() as u8,
            users,
            not_bootable_arm: self.not_bootable_arm,
            not_bootable_riscv: self.not_bootable_riscv,
            link: match self.link {
                Link::Unlinked => proved::Link::Unlinked,
                Link::OwnedBy(k) => proved::Link::OwnedBy(k),
                Link::BOf(k) => proved::Link::BOf(k),
            },
            no_restart: self.dont_restart,
        }
    }

    fn from_proved(entry: &proved::Entry) -> Partition {
        let users = entry.users.iter().take(entry.user_count.into());
        Partition {
            first: entry.first,
            sectors: entry.sectors,
            accepts: [entry.data, entry.arm_s, entry.riscv, entry.arm_ns],
            users: users.copied().collect(),
            not_bootable_arm: entry.not_bootable_arm,
            not_bootable_riscv: entry.not_bootable_riscv,
            link: match entry.link {
                proved::Link::Unlinked => Link::Unlinked,
                proved::Link::OwnedBy(k) => Link::OwnedBy(k),
                proved::Link::BOf(k) => Link::BOf(k),
            },
            dont_restart: entry.no_restart,
        }
    }
}

#[cfg(test)]
mod tests;
