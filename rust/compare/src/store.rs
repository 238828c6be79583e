//! Settings with "don't restart" for both, and their stores, from a seed.

use reference::store::{StoredEntry, StoredSettings};
use reference::{Arch, Entry, Link, Settings};

use crate::{any_settings, proved_entry, proved_settings, Random};

/// The settings of the proved receiver as those of the reference's store.
pub fn proved_stored(s: &StoredSettings) -> proved::Settings {
    let mut settings = proved_settings(&s.settings());
    for (entry, stored) in settings.table.iter_mut().zip(&s.table) {
        *entry = proved::Entry {
            no_restart: stored.no_restart,
            ..proved_entry(&stored.entry)
        };
    }
    settings
}

/// Settings with such entries, of which one in so many has the field.
pub fn stored(r: &mut Random, s: &Settings, one_in: u64) -> StoredSettings {
    StoredSettings {
        arm: s.arm,
        riscv: s.riscv,
        current: s.current,
        auto_switch: s.auto_switch,
        absolute: s.absolute,
        count: s.count,
        table: s.table.map(|entry| StoredEntry {
            entry,
            no_restart: r.one_in(one_in),
        }),
    }
}

/// Settings of any kind, most of them good, and the length of a flash for them.
pub fn any_stored(r: &mut Random) -> (StoredSettings, usize) {
    let sectors = r.of(&[1, 2, 16, 40, 8192]);
    let s = any_settings(r, sectors);
    let one_in = r.of(&[1, 3, 16, 1 << 40]);
    let mut s = stored(r, &s, one_in);
    if r.one_in(3) {
        // what is not used is of any content
        for stored in &mut s.table[usize::from(s.count.min(16))..] {
            stored.entry.users = [r.draw() as u32; 4];
            stored.entry.sectors = r.draw() as u32;
        }
        for stored in &mut s.table {
            let used = usize::from(stored.entry.user_count).min(4);
            stored.entry.users[used..].fill(r.draw() as u32);
        }
    }
    let len = match r.below(12) {
        0 => r.of(&[0, 1, 4095, 4097, 33_554_432 + 4096, usize::MAX]),
        _ => sectors as usize * 4096,
    };
    (s, len)
}

/// Arm alone, absolute allowed, no table.
const ARM: StoredSettings = StoredSettings {
    arm: true,
    riscv: false,
    current: Arch::Arm,
    auto_switch: false,
    absolute: true,
    count: 0,
    table: [StoredEntry::EMPTY; 16],
};

/// The stores that are worked out by hand from the text: settings, the flash's length, and bytes up to the zeros and after them.
pub fn vectors() -> Vec<(StoredSettings, usize, Vec<u8>)> {
    let zeros = |n: usize| vec![0; n];
    let mut both = StoredSettings {
        riscv: true,
        current: Arch::RiscV,
        auto_switch: true,
        absolute: false,
        count: 1,
        ..ARM
    };
    both.table[0].entry = Entry {
        first: 4,
        sectors: 2,
        arm_s: true,
        ..Entry::EMPTY
    };
    let first = [&[0, 0x20, 0, 0x40, 0x20][..], &zeros(17)].concat();
    let mut two = both;
    two.count = 2;
    two.table[1] = StoredEntry {
        entry: Entry {
            first: 8191,
            sectors: 1,
            link: Link::BOf(0),
            data: true,
            user_count: 1,
            users: [0x1234_5678, 0, 0, 0],
            ..Entry::EMPTY
        },
        no_restart: true,
    };
    let second = [0xff, 0xf8, 0, 0x30, 0x40, 0x44, 0x8d, 0x15, 0x9e];
    let second = [&second[..], &zeros(12), &[0x20]].concat();
    let mut whole = ARM;
    whole.count = 1;
    whole.table[0].entry = Entry {
        first: 0,
        sectors: 8192,
        data: true,
        ..Entry::EMPTY
    };
    let large = [&[0, 4, 0, 0, 0x40][..], &zeros(17)].concat();
    let mut bare = whole;
    bare.absolute = false;
    vec![
        (ARM, 32_768, vec![0x10, 0x30]),
        (both, 32_768, [&[0x10, 0xdc][..], &first].concat()),
        (
            two,
            33_554_432,
            [&[0x21, 0x5c][..], &first, &second].concat(),
        ),
        (whole, 33_554_432, [&[0x10, 0xb0][..], &large].concat()),
        (bare, 33_554_432, [&[0x10, 0x90][..], &large].concat()),
    ]
}
