//! Settings, and their bytes.

/// The entries of a partition table, used or not.
pub const ENTRIES: usize = 16;
const HEAD_BYTES: usize = 6;
const ENTRY_BYTES: usize = 34;

/// The bytes of settings, as the C interface takes them.
pub const SETTINGS_BYTES: usize = HEAD_BYTES + ENTRIES * ENTRY_BYTES;

/// How an entry is linked to another. An entry is an A partition unless it is "B of".
#[derive(Clone, Copy, PartialEq, Eq, Debug)]
pub enum Link {
    /// Linked to none, and unowned.
    Unlinked,
    /// Owned by the entry of this index, which is below its own.
    OwnedBy(u8),
    /// The B partition of the entry of this index, which is below its own.
    BOf(u8),
}

/// An architecture.
#[derive(Clone, Copy, PartialEq, Eq, Debug)]
pub enum Arch {
    /// Arm.
    Arm,
    /// RISC-V.
    RiscV,
}

/// An entry of the partition table.
#[derive(Clone, Copy, PartialEq, Eq, Debug)]
pub struct Entry {
    /// The first sector.
    pub first: u32,
    /// How many sectors; a used entry has at least one, and shares none with another.
    pub sectors: u32,
    /// Accepts the family data.
    pub data: bool,
    /// Accepts the family arm-s.
    pub arm_s: bool,
    /// Accepts the family riscv.
    pub riscv: bool,
    /// Accepts the family arm-ns.
    pub arm_ns: bool,
    /// How many of `users` it accepts, at most 4.
    pub user_count: u8,
    /// User families; those past the count are not looked at.
    pub users: [u32; 4],
    /// Not bootable on Arm.
    pub not_bootable_arm: bool,
    /// Not bootable on RISC-V.
    pub not_bootable_riscv: bool,
    /// How it is linked to another entry.
    pub link: Link,
    /// Don't restart: kept for the board, and no answer depends on it.
    pub no_restart: bool,
}

/// What decides where a family's blocks go. Bad settings are answered `BadSettings`.
#[derive(Clone, PartialEq, Eq, Debug)]
pub struct Settings {
    /// Arm is enabled.
    pub arm: bool,
    /// RISC-V is enabled.
    pub riscv: bool,
    /// The current architecture, which must be enabled.
    pub current: Arch,
    /// The board switches to the other architecture by itself.
    pub auto_switch: bool,
    /// The family absolute is allowed.
    pub absolute: bool,
    /// The used entries of the table; 0 is no table.
    pub count: u8,
    /// The partition table; entries past the count are not looked at.
    pub table: [Entry; ENTRIES],
}

impl Entry {
    /// No sectors, and nothing that it accepts.
    pub const BLANK: Entry = Entry {
        first: 0,
        sectors: 0,
        data: false,
        arm_s: false,
        riscv: false,
        arm_ns: false,
        user_count: 0,
        users: [0; 4],
        not_bootable_arm: false,
        not_bootable_riscv: false,
        link: Link::Unlinked,
        no_restart: false,
    };

    fn bytes(&self) -> [u8; ENTRY_BYTES] {
        let (kind, index) = match self.link {
            Link::Unlinked => (0, 0),
            Link::OwnedBy(k) => (1, k),
            Link::BOf(k) => (2, k),
        };
        let mut bytes = [0; ENTRY_BYTES];
        let [a, b, c, d] = self.users;
        for (part, field) in bytes
            .chunks_exact_mut(4)
            .zip([self.first, self.sectors, a, b, c, d])
        {
            part.copy_from_slice(&field.to_le_bytes());
        }
        bytes[24..].copy_from_slice(&[
            self.data.into(),
            self.arm_s.into(),
            self.riscv.into(),
            self.arm_ns.into(),
            self.user_count,
            self.not_bootable_arm.into(),
            self.not_bootable_riscv.into(),
            kind,
            index,
            self.no_restart.into(),
        ]);
        bytes
    }

    /// The entry of such bytes, unless its link is none.
    fn from_bytes(bytes: &[u8; ENTRY_BYTES]) -> Option<Entry> {
        let field = |at: usize| {
            let [a, b, c, d] = [bytes[at], bytes[at + 1], bytes[at + 2], bytes[at + 3]];
            u32::from_le_bytes([a, b, c, d])
        };
        Some(Entry {
            first: field(0),
            sectors: field(4),
            data: bytes[24] != 0,
            arm_s: bytes[25] != 0,
            riscv: bytes[26] != 0,
            arm_ns: bytes[27] != 0,
            user_count: bytes[28],
            users: [field(8), field(12), field(16), field(20)],
            not_bootable_arm: bytes[29] != 0,
            not_bootable_riscv: bytes[30] != 0,
            link: match (bytes[31], bytes[32]) {
                (0, _) => Link::Unlinked,
                (1, k) => Link::OwnedBy(k),
                (2, k) => Link::BOf(k),
                _ => return None,
            },
            no_restart: bytes[33] != 0,
        })
    }
}

impl Settings {
    /// Arm alone, no table, the family absolute not allowed.
    pub const ARM: Settings = Settings {
        arm: true,
        riscv: false,
        current: Arch::Arm,
        auto_switch: false,
        absolute: false,
        count: 0,
        table: [Entry::BLANK; ENTRIES],
    };

    /// The bytes of the settings, as the C interface has them.
    pub fn bytes(&self) -> [u8; SETTINGS_BYTES] {
        let mut bytes = [0; SETTINGS_BYTES];
        bytes[..HEAD_BYTES].copy_from_slice(&[
            self.arm.into(),
            self.riscv.into(),
            (self.current == Arch::RiscV).into(),
            self.auto_switch.into(),
            self.absolute.into(),
            self.count,
        ]);
        for (part, entry) in bytes[HEAD_BYTES..]
            .chunks_exact_mut(ENTRY_BYTES)
            .zip(&self.table)
        {
            part.copy_from_slice(&entry.bytes());
        }
        bytes
    }

    /// The settings of such bytes, every entry of the table as its bytes have it; `None` where one has a link that is none.
    pub fn from_bytes(bytes: &[u8; SETTINGS_BYTES]) -> Option<Settings> {
        let mut table = [Entry::BLANK; ENTRIES];
        for (entry, part) in table
            .iter_mut()
            .zip(bytes[HEAD_BYTES..].chunks_exact(ENTRY_BYTES))
        {
            *entry = Entry::from_bytes(part.try_into().ok()?)?;
        }
        Some(Settings {
            arm: bytes[0] != 0,
            riscv: bytes[1] != 0,
            current: if bytes[2] == 0 {
                Arch::Arm
            } else {
                Arch::RiscV
            },
            auto_switch: bytes[3] != 0,
            absolute: bytes[4] != 0,
            count: bytes[5],
            table,
        })
    }
}
