//! Bad settings and the place of a family.

use super::*;

const LEN: usize = 65_536;
const USER: u32 = 0x1234_5678;

fn good(entries: &[Entry]) -> bool {
    settings_good(&with_table(entries), LEN)
}

/// The first sector of the place, to name the partition chosen.
fn chosen(s: &Settings, family: u32) -> Option<usize> {
    assert!(settings_good(s, LEN));
    place_of(s, LEN, family).map(|(start, _)| start / SECTOR_LEN)
}

#[test]
fn current_architecture_must_be_enabled() {
    for (arm, riscv, current, expected) in [
        (true, false, Arch::Arm, true),
        (true, false, Arch::RiscV, false),
        (false, true, Arch::Arm, false),
        (false, true, Arch::RiscV, true),
        (true, true, Arch::Arm, true),
        (true, true, Arch::RiscV, true),
        (false, false, Arch::Arm, false),
        (false, false, Arch::RiscV, false),
    ] {
        let mut s = NO_TABLE;
        (s.arm, s.riscv, s.current) = (arm, riscv, current);
        assert_eq!(settings_good(&s, LEN), expected);
    }
}

#[test]
fn count_is_at_most_16() {
    let mut s = NO_TABLE;
    for (i, entry) in s.table.iter_mut().enumerate() {
        *entry = arm_s(i as u32, 1);
    }
    for count in 0..=u8::MAX {
        s.count = count;
        assert_eq!(settings_good(&s, LEN), count <= 16);
    }
}

#[test]
fn unused_entries_do_not_count() {
    let mut s = with_table(&[arm_s(0, 1)]);
    s.table[1] = Entry {
        user_count: 9,
        link: Link::BOf(200),
        ..arm_s(0, u32::MAX)
    };
    assert!(settings_good(&s, LEN));
    s.count = 2;
    assert!(!settings_good(&s, LEN));
}

#[test]
fn entry_has_sectors_within_the_flash() {
    assert!(!good(&[arm_s(0, 0)]));
    assert!(!good(&[arm_s(4, 0)]));
    assert!(good(&[arm_s(0, 16)]));
    assert!(!good(&[arm_s(0, 17)]));
    assert!(good(&[arm_s(15, 1)]));
    assert!(!good(&[arm_s(15, 2)]));
    assert!(!good(&[arm_s(16, 1)]));
    // Sums that a 32-bit addition would wrap to something small.
    assert!(!good(&[arm_s(u32::MAX, 1)]));
    assert!(!good(&[arm_s(1, u32::MAX)]));
    assert!(!good(&[arm_s(u32::MAX, u32::MAX)]));
    // Byte sizes that 32 bits would wrap to 0 or to one sector.
    assert!(!good(&[arm_s(0x10_0000, 1)]));
    assert!(!good(&[arm_s(0, 0x10_0001)]));
}

#[test]
fn entries_share_no_sector() {
    assert!(good(&[arm_s(4, 2), arm_s(6, 2)]));
    assert!(good(&[arm_s(6, 2), arm_s(4, 2)]));
    assert!(!good(&[arm_s(4, 2), arm_s(5, 2)]));
    assert!(!good(&[arm_s(5, 2), arm_s(4, 2)]));
    assert!(!good(&[arm_s(4, 2), arm_s(4, 2)]));
    assert!(!good(&[arm_s(4, 4), arm_s(5, 1)]));
    assert!(!good(&[arm_s(5, 1), arm_s(4, 4)]));
    assert!(!good(&[arm_s(0, 1), arm_s(4, 2), arm_s(8, 1), arm_s(5, 1)]));
}

#[test]
fn links_point_back_to_an_a_entry() {
    let linked = |i: u32, link| Entry {
        link,
        ..arm_s(i, 1)
    };
    for make in [Link::OwnedBy, Link::BOf] {
        assert!(!good(&[linked(0, make(0))]));
        assert!(good(&[arm_s(0, 1), linked(1, make(0))]));
        assert!(!good(&[arm_s(0, 1), linked(1, make(1))]));
        assert!(!good(&[arm_s(0, 1), linked(1, make(2)), arm_s(2, 1)]));
        assert!(!good(&[arm_s(0, 1), linked(1, make(255))]));
        let owned = linked(1, Link::OwnedBy(0));
        assert!(good(&[arm_s(0, 1), owned, linked(2, make(1))]));
        let b = linked(1, Link::BOf(0));
        assert!(!good(&[arm_s(0, 1), b, linked(2, make(1))]));
        assert!(good(&[arm_s(0, 1), b, linked(2, make(0))]));
    }
}

#[test]
fn user_families_are_at_most_4_and_not_reserved() {
    let users = |user_count, users| Entry {
        user_count,
        users,
        ..arm_s(0, 1)
    };
    for count in 0..=u8::MAX {
        assert_eq!(good(&[users(count, [USER; 4])]), count <= 4);
    }
    for family in 0xe48b_ff55..=0xe48b_ff5c {
        let reserved = (0xe48b_ff56..=0xe48b_ff5b).contains(&family);
        for place in 0..4 {
            let mut list = [USER; 4];
            list[place] = family;
            assert_eq!(good(&[users(4, list)]), !reserved);
            // Beyond the count a family isn't one of the entry's.
            assert!(good(&[users(place as u8, list)]));
        }
    }
    for family in [0, u32::MAX] {
        assert!(good(&[users(1, [family, 0, 0, 0])]));
    }
}

#[test]
fn without_a_table() {
    let whole = Some((0, LEN));
    for (arm, riscv) in [(true, false), (false, true), (true, true)] {
        let current = if arm { Arch::Arm } else { Arch::RiscV };
        let mut s = NO_TABLE;
        (s.arm, s.riscv, s.current) = (arm, riscv, current);
        assert_eq!(place_of(&s, LEN, DATA), whole);
        assert_eq!(place_of(&s, LEN, ARM_S), whole.filter(|_| arm));
        assert_eq!(place_of(&s, LEN, RISCV), whole.filter(|_| riscv));
        for family in [ARM_NS, RP2040, USER, 0, u32::MAX] {
            assert_eq!(place_of(&s, LEN, family), None);
        }
    }
}

#[test]
fn absolute_ignores_the_table_and_rp2040_has_no_place() {
    for entries in [&[] as &[Entry], &[arm_s(4, 2)]] {
        let mut s = with_table(entries);
        assert_eq!(place_of(&s, LEN, ABSOLUTE), Some((0, LEN)));
        assert_eq!(place_of(&s, LEN, RP2040), None);
        s.absolute = false;
        assert_eq!(place_of(&s, LEN, ABSOLUTE), None);
        assert_eq!(place_of(&s, LEN, RP2040), None);
    }
}

#[test]
fn each_family_has_its_accepts_flag() {
    let accepts = |n: u32| Entry {
        first: n,
        sectors: 1,
        data: n == 0,
        arm_s: n == 1,
        riscv: n == 2,
        arm_ns: n == 3,
        user_count: if n == 4 { 4 } else { 3 },
        users: [n, n + 10, n + 20, USER],
        ..Entry::EMPTY
    };
    let s = with_table(&[accepts(0), accepts(1), accepts(2), accepts(3), accepts(4)]);
    for (family, place) in [(DATA, 0), (ARM_S, 1), (RISCV, 2), (ARM_NS, 3), (USER, 4)] {
        assert_eq!(chosen(&s, family), Some(place));
    }
    for n in 0..5 {
        assert_eq!(chosen(&s, n + 20), Some(n as usize));
    }
    assert_eq!(chosen(&s, 99), None);
}

#[test]
fn with_a_table_an_architecture_off_is_still_accepted() {
    let riscv = Entry {
        riscv: true,
        ..arm_s(3, 1)
    };
    assert_eq!(chosen(&with_table(&[riscv]), RISCV), Some(3));
}

fn unbootable(first: u32) -> Entry {
    Entry {
        not_bootable_arm: true,
        ..arm_s(first, 1)
    }
}

#[test]
fn example_not_bootable_entry() {
    let both = with_table(&[unbootable(0), arm_s(1, 1)]);
    assert_eq!(chosen(&both, ARM_S), Some(1));
    let alone = with_table(&[unbootable(0)]);
    assert_eq!(chosen(&alone, ARM_S), Some(0));
}

#[test]
fn pass_1_skips_owned_entries_and_only_its_own_mark() {
    let for_riscv = Entry {
        not_bootable_riscv: true,
        ..arm_s(0, 1)
    };
    let s = with_table(&[for_riscv, arm_s(1, 1)]);
    assert_eq!(chosen(&s, ARM_S), Some(0));
    let owned = Entry {
        link: Link::OwnedBy(0),
        ..arm_s(1, 1)
    };
    let s = with_table(&[unbootable(0), owned, arm_s(2, 1)]);
    assert_eq!(chosen(&s, ARM_S), Some(2));
    // Pass 3 comes before pass 4: unbootable but unowned before owned.
    let s = with_table(&[unbootable(0), owned]);
    assert_eq!(chosen(&s, ARM_S), Some(0));
}

#[test]
fn pass_1_with_riscv_current() {
    let entry = |first, not_bootable_arm, not_bootable_riscv| Entry {
        riscv: true,
        not_bootable_arm,
        not_bootable_riscv,
        ..arm_s(first, 1)
    };
    let mut s = with_table(&[entry(0, false, true), entry(1, true, false)]);
    (s.arm, s.riscv, s.current) = (false, true, Arch::RiscV);
    assert_eq!(chosen(&s, RISCV), Some(1));
    // Arm isn't current and there is no switch, so its mark isn't read.
    s.table[0].not_bootable_arm = true;
    s.table[1].not_bootable_arm = false;
    assert_eq!(chosen(&s, ARM_S), Some(0));
}

#[test]
fn pass_2_needs_the_switch_and_the_other_architecture() {
    let entry = |first, not_bootable_riscv| Entry {
        riscv: true,
        arm_ns: true,
        data: true,
        not_bootable_riscv,
        ..arm_s(first, 1)
    };
    let mut s = with_table(&[entry(0, true), entry(1, false)]);
    for (auto_switch, riscv, place) in [
        (false, false, 0),
        (false, true, 0),
        (true, false, 0),
        (true, true, 1),
    ] {
        (s.auto_switch, s.riscv) = (auto_switch, riscv);
        assert_eq!(chosen(&s, RISCV), Some(place));
        for family in [ARM_S, ARM_NS, DATA] {
            assert_eq!(chosen(&s, family), Some(0));
        }
    }
    // The mirrored case: RISC-V runs, Arm is the other one.
    s.current = Arch::RiscV;
    s.table[0].not_bootable_arm = true;
    assert_eq!(chosen(&s, ARM_S), Some(1));
    s.arm = false;
    assert_eq!(chosen(&s, ARM_S), Some(0));
}

#[test]
fn marks_do_not_matter_to_families_that_are_no_image() {
    let entry = |first, marked| Entry {
        data: true,
        arm_ns: true,
        user_count: 1,
        users: [USER, 0, 0, 0],
        not_bootable_arm: marked,
        not_bootable_riscv: marked,
        ..arm_s(first, 1)
    };
    let mut s = with_table(&[entry(0, true), entry(1, false)]);
    (s.riscv, s.auto_switch) = (true, true);
    for family in [DATA, ARM_NS, USER] {
        assert_eq!(chosen(&s, family), Some(0));
    }
    assert_eq!(chosen(&s, ARM_S), Some(1));
}

#[test]
fn passes_3_and_4_put_unowned_before_owned_and_never_take_b() {
    let data = |first, link| Entry {
        data: true,
        link,
        ..arm_s(first, 1)
    };
    let top = Entry {
        first: 0,
        sectors: 1,
        ..Entry::EMPTY
    };
    let (owned, b) = (Link::OwnedBy(0), Link::BOf(0));
    let s = with_table(&[top, data(1, b), data(2, owned), data(3, Link::None)]);
    assert_eq!(chosen(&s, DATA), Some(3));
    let s = with_table(&[top, data(1, b), data(2, owned), data(3, owned)]);
    assert_eq!(chosen(&s, DATA), Some(2));
    assert_eq!(chosen(&s, ARM_S), Some(2));
    let s = with_table(&[top, data(1, b), data(2, b)]);
    assert_eq!(chosen(&s, DATA), None);
    assert_eq!(chosen(&s, ARM_S), None);
}

#[test]
fn ask_place_is_refused_in_order() {
    let mut bad = with_table(&[arm_s(4, 2)]);
    bad.arm = false;
    for len in [0, 1, 4095, 4097, 33_554_432 + 4096, usize::MAX] {
        assert_eq!(ask_place(&bad, len, RP2040), Err(1));
    }
    for len in [4096, 33_554_432] {
        assert_eq!(ask_place(&bad, len, RP2040), Err(2));
        assert_eq!(ask_place(&NO_TABLE, len, RP2040), Err(8));
        assert_eq!(ask_place(&NO_TABLE, len, ARM_S), Ok((0, len)));
    }
    let s = with_table(&[arm_s(4, 2)]);
    assert_eq!(ask_place(&s, LEN, ARM_S), Ok((16_384, 8192)));
    assert_eq!(ask_place(&s, 6 * 4096, ARM_S), Ok((16_384, 8192)));
    assert_eq!(ask_place(&s, 5 * 4096, ARM_S), Err(2));
}

fn any_entry(random: &mut Random, sectors: &[u32]) -> Entry {
    Entry {
        first: random.pick(sectors),
        sectors: random.pick(sectors),
        data: random.yes(),
        arm_s: random.yes(),
        riscv: random.yes(),
        arm_ns: random.yes(),
        user_count: random.pick(&[0, 1, 4, 4, 5, 255]),
        users: [0; 4].map(|_| random.pick(&[USER, 0, u32::MAX, RP2040, ABSOLUTE])),
        not_bootable_arm: random.yes(),
        not_bootable_riscv: random.yes(),
        link: match random.below(3) {
            0 => Link::None,
            1 => Link::OwnedBy(random.pick(&[0, 1, 2, 15, 16, 255])),
            _ => Link::BOf(random.pick(&[0, 1, 2, 15, 16, 255])),
        },
    }
}

pub fn any_settings(random: &mut Random, sectors: &[u32]) -> Settings {
    Settings {
        arm: random.yes(),
        riscv: random.yes(),
        current: random.pick(&[Arch::Arm, Arch::RiscV]),
        auto_switch: random.yes(),
        absolute: random.yes(),
        count: random.pick(&[0, 1, 2, 3, 15, 16, 17, 255]),
        table: [Entry::EMPTY; 16].map(|_| any_entry(random, sectors)),
    }
}

#[test]
fn any_settings_get_an_answer() {
    let extremes = [0, 1, 7, 8, 0xF_FFFF, 0x10_0000, 1 << 31, u32::MAX];
    let mut random = Random(7);
    for _ in 0..50_000 {
        let s = any_settings(&mut random, &extremes);
        let len = random.pick(&[0, 4096, 32_768, 33_554_432, usize::MAX]);
        let family = random.pick(&[DATA, ARM_S, RISCV, ARM_NS, RP2040, ABSOLUTE, USER]);
        settings_good(&s, len);
        place_of(&s, len, family);
        assert!(matches!(ask_place(&s, len, family), Ok(_) | Err(1 | 2 | 8)));
    }
}

#[test]
fn with_a_table_no_place_exactly_if_no_a_entry_accepts() {
    let mut random = Random(11);
    let mut judged = [0; 2];
    for _ in 0..50_000 {
        let mut s = any_settings(&mut random, &[1]);
        s.count = 1 + random.below(6) as u8;
        for (i, entry) in s.table.iter_mut().enumerate() {
            entry.first = i as u32;
            entry.user_count %= 2;
            entry.users[0] = USER;
            entry.arm_ns &= i == 1;
            if let Link::OwnedBy(k) | Link::BOf(k) = &mut entry.link {
                *k = 0;
            }
        }
        s.table[0].link = Link::None;
        if !settings_good(&s, LEN) {
            continue;
        }
        let family = random.pick(&[DATA, ARM_S, RISCV, ARM_NS, USER]);
        let takes = |e: &Entry| match family {
            DATA => e.data,
            ARM_S => e.arm_s,
            RISCV => e.riscv,
            ARM_NS => e.arm_ns,
            _ => e.user_count == 1,
        };
        let some = s.table[..s.count as usize]
            .iter()
            .any(|e| takes(e) && !matches!(e.link, Link::BOf(_)));
        assert_eq!(chosen(&s, family).is_some(), some);
        judged[usize::from(some)] += 1;
    }
    assert!(judged.into_iter().all(|n| n > 1000));
}
