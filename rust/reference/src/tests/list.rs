//! Whole lists of arrivals (demand 3), against document 01's description of
//! where a list ends, which doesn't follow the arrivals one by one.

use super::*;

const LEN: usize = 65_536;

#[test]
fn example_three_blocks() {
    let mut bench = Bench::new(NO_TABLE, LEN);
    let answers = [2, 0, 2, 1, 0].map(|number| bench.answer(page(number, 3)));
    assert_eq!(answers, [14, 14, 13, 15, 12]);
    let done = Transfer::Done {
        family: ARM_S,
        total: 3,
        kind: Kind::Flash,
    };
    assert_eq!(bench.transfer, done);
    assert_eq!(marks(&bench.seen), [0, 1, 2]);
}

/// Where a file goes: its kind, the window, the place and the settings for it.
#[derive(Clone, Copy)]
struct Target {
    kind: Kind,
    window: u32,
    start: usize,
    len: usize,
    settings: Settings,
}

/// Offsets of disjoint ranges of 256 bytes, in any order: in flash whole pages,
/// in RAM at any byte.
fn any_offsets(random: &mut Random, target: Target) -> Vec<u32> {
    let most = (target.len / 256).min(24);
    let mut n = 1 + random.below(most);
    let mut offsets = vec![];
    let mut tries = 0;
    while offsets.len() < n {
        let mut at = random.below(target.len - 255);
        if target.kind == Kind::Flash {
            at -= at % 256;
        }
        tries += 1;
        if offsets
            .iter()
            .all(|&other: &usize| other.abs_diff(at) >= 256)
        {
            offsets.push(at);
        } else if tries > 200 {
            n = offsets.len();
        }
    }
    offsets.into_iter().map(|at| at as u32).collect()
}

/// A valid file; some blocks of one for flash are comments, of which size and
/// address say nothing.
fn any_file(random: &mut Random, target: Target) -> Vec<Fields> {
    let offsets = any_offsets(random, target);
    let comments = match target.kind {
        Kind::Flash => random.pick(&[0, 0, 3, 1]),
        _ => 0,
    };
    let block = |(number, offset): (usize, &u32)| {
        let data = Fields {
            number: number as u32,
            total: offsets.len() as u32,
            address: target.window + offset,
            fill: random.next() as u8,
            ..ONLY
        };
        if comments == 0 || random.below(comments) != 0 {
            return data;
        }
        Fields {
            flags: 0x2001,
            size: random.pick(&[0, 256, 476, u32::MAX]),
            address: random.pick(&[0, 0x1000_0000, 0x2000_0000, u32::MAX]),
            ..data
        }
    };
    offsets.iter().enumerate().map(block).collect()
}

fn comment(f: &Fields) -> bool {
    f.flags & 1 == 1
}

/// An arrival that earns one of 4, 5 or 7 to 11 whatever the transfer.
fn foreign(random: &mut Random, near: Fields) -> ([u8; 512], u8) {
    let mut block = near;
    let all = [4, 5, 7, 8, 10, 9, 11];
    // A comment is never refused by 9 or 11.
    let answers = if comment(&near) { &all[..5] } else { &all };
    let answer = random.pick(answers);
    match answer {
        5 => block.flags |= 0x1000,
        7 => block.flags = 0x8000,
        8 => block.family = random.pick(&[RP2040, 0x68ed_2b88]),
        9 => block.size = 255,
        10 => block.total = random.pick(&[0, block.number, u32::MAX]),
        11 => {
            block.address = random.pick(&[
                0,
                0x0FFF_FF00,
                0x1000_0001,
                0x1200_0000,
                0x13FF_FF01,
                0x1400_0000,
                0x2008_1F01,
                0x2008_2000,
                0xFFFF_FF00,
            ])
        }
        _ => {}
    }
    let mut bytes = arrival(block);
    if answer == 4 {
        bytes[random.pick(&[0, 7, 508])] ^= 1 << random.below(8);
    }
    (bytes, answer)
}

/// Where the list ends, told from the start and the set of blocks seen.
fn expected(start: &Bench, file: &[Fields], set: &[bool], target: Target) -> Bench {
    let seen = || file.iter().zip(set).filter(|(_, &s)| s).map(|(f, _)| f);
    let mut end = start.clone();
    let (family, total, kind) = (ARM_S, file.len() as u32, target.kind);
    let count = seen().count() as u32;
    if count == 0 {
        return end;
    }
    end.transfer = match count < total {
        true => Transfer::Running {
            family,
            total,
            count,
            kind,
        },
        false => Transfer::Done {
            family,
            total,
            kind,
        },
    };
    end.seen.fill(0);
    end.sectors.fill(0);
    let storage = |f: &Fields| target.start + (f.address - target.window) as usize;
    for f in seen() {
        let number = f.number as usize;
        end.seen[number / 8] |= 128 >> (number % 8);
    }
    let data = || seen().filter(|f| !comment(f));
    if kind == Kind::Flash {
        for sector in data().map(|f| storage(f) / 4096) {
            end.sectors[sector / 8] |= 128 >> (sector % 8);
            end.flash[sector * 4096..(sector + 1) * 4096].fill(0xFF);
        }
    }
    let buffer = match kind {
        Kind::Flash => &mut end.flash,
        Kind::MainRam => &mut end.main,
        Kind::XipRam => &mut end.xip,
    };
    for f in data() {
        buffer[storage(f)..storage(f) + 256].fill(f.fill);
    }
    end
}

fn play_a_list(random: &mut Random, target: Target) {
    let file = any_file(random, target);
    let mut start = Bench::new(target.settings, LEN);
    if target.kind != Kind::Flash || random.yes() {
        start = Bench::with_ram(target.settings, LEN);
    }
    start.flash.fill_with(|| random.next() as u8);
    start.seen.fill_with(|| random.next() as u8);
    start.sectors.fill_with(|| random.next() as u8);
    let mut bench = start.clone();
    let mut set = vec![false; file.len()];
    for _ in 0..random.below(3 * file.len() + 2) {
        let block = random.pick(&file);
        if random.below(4) == 0 {
            let (bytes, answer) = foreign(random, block);
            assert_eq!(bench.send(&bytes), (answer, false));
            continue;
        }
        let answer = bench.answer(block);
        let whole_before = set.iter().all(|&s| s);
        let repeat = std::mem::replace(&mut set[block.number as usize], true);
        let whole = set.iter().all(|&s| s);
        let right = match (whole_before, repeat, whole) {
            (true, _, _) => 12,
            (_, true, _) => 13,
            (_, _, false) if comment(&block) => 16,
            (_, _, false) => 14,
            (_, _, true) => 15,
        };
        assert_eq!(answer, right);
    }
    assert!(bench == expected(&start, &file, &set, target));
}

const WHOLE_FLASH: Target = Target {
    kind: Kind::Flash,
    window: 0x1000_0000,
    start: 0,
    len: LEN,
    settings: NO_TABLE,
};

fn targets() -> [Target; 4] {
    let mut settings = with_table(&[arm_s(4, 2)]);
    settings.table[0].not_bootable_arm = true;
    let partition = Target {
        start: 16_384,
        len: 8192,
        settings,
        ..WHOLE_FLASH
    };
    let main = Target {
        kind: Kind::MainRam,
        window: 0x2000_0000,
        len: MAIN_LEN,
        ..WHOLE_FLASH
    };
    let xip = Target {
        kind: Kind::XipRam,
        window: 0x13ff_c000,
        len: XIP_LEN,
        ..WHOLE_FLASH
    };
    [WHOLE_FLASH, partition, main, xip]
}

#[test]
fn lists_end_where_the_set_seen_says() {
    let mut random = Random(2024);
    for _ in 0..100 {
        for target in targets() {
            play_a_list(&mut random, target);
        }
    }
}

/// A stopped update, then a good one (02, L13): a whole file of another family,
/// total or kind ends as from Idle, whatever was Running.
#[test]
fn a_whole_file_after_a_stopped_one() {
    let mut random = Random(1313);
    for round in 0..240 {
        let target = targets()[round % 4];
        let file = any_file(&mut random, target);
        let total = file.len() as u32;
        let has_comments = file.iter().any(comment);
        let kinds = [Kind::Flash, Kind::MainRam, Kind::XipRam];
        let other = random.pick(&kinds.map(|kind| (kind, kind != target.kind)));
        let (family, stopped_total, kind) = match random.below(3) {
            0 => (DATA, total.max(2), other.0),
            1 => (ARM_S, total + 1 + random.below(9) as u32, other.0),
            // A file that differs in kind alone holds no comments.
            _ if other.1 && !has_comments && total > 1 => (ARM_S, total, other.0),
            _ => (ARM_NS, 131_072, other.0),
        };
        let mut stopped = Bench::with_ram(target.settings, LEN);
        stopped.flash.fill_with(|| random.next() as u8);
        stopped.seen.fill_with(|| random.next() as u8);
        stopped.sectors.fill_with(|| random.next() as u8);
        stopped.transfer = Transfer::Running {
            family,
            total: stopped_total,
            count: 1 + random.below(stopped_total as usize - 1) as u32,
            kind,
        };
        let whole = vec![true; file.len()];
        let end = expected(&stopped, &file, &whole, target);
        let mut arrivals = file.clone();
        for _ in 0..random.below(5) {
            arrivals.push(random.pick(&file));
        }
        for i in (1..arrivals.len()).rev() {
            arrivals.swap(i, random.below(i + 1));
        }
        for (k, &block) in arrivals.iter().enumerate() {
            let (answer, discarded) = stopped.send(&arrival(block));
            assert_eq!(discarded, k == 0);
            assert!((12..=16).contains(&answer));
        }
        assert!(stopped == end);
    }
}

#[test]
fn the_empty_list_leaves_all_as_lent() {
    let start = Bench::new(NO_TABLE, LEN);
    assert!(expected(&start, &[ONLY], &[false], WHOLE_FLASH) == start);
}

#[test]
fn count_marks_and_accepted_numbers_agree() {
    let mut random = Random(5);
    for _ in 0..200 {
        let mut bench = Bench::new(NO_TABLE, LEN);
        let mut accepted = std::collections::BTreeSet::new();
        for _ in 0..40 {
            let number = random.below(6) as u32;
            let block = Fields {
                flags: random.pick(&[0x2000, 0x2000, 0x2001]),
                family: random.pick(&[ARM_S, ARM_S, ARM_S, ARM_S, DATA]),
                ..page(number, random.pick(&[6, 6, 6, 6, 6, 7]))
            };
            let (answer, discarded) = bench.send(&arrival(block));
            if discarded {
                accepted.clear();
            }
            if answer >= 14 {
                accepted.insert(number as usize);
            }
            let count = match bench.transfer {
                Transfer::Idle => 0,
                Transfer::Running { count, .. } => count,
                Transfer::Done { total, .. } => total,
            };
            if count > 0 {
                assert_eq!(count as usize, accepted.len());
                assert!(marks(&bench.seen).iter().eq(&accepted));
            }
        }
    }
}
