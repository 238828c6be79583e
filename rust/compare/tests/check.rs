//! Files checked before they are sent, beside the reference: random small files with faults put in, what becomes of files that are sent,
//! and the edges of windows and ranges. COMPARE_FILES sets how many files are compared.

use compare::adapter::check;
use compare::files::{any_case, distinct, field, put, spoil, Boards, Case};
use compare::{arm_only, arrival, proved_settings, Buffers, Fields, Ram, Random};
use reference::check::Found;
use reference::{Settings, ARM_S};
use tools::check::{check_bytes, Lens, CELLS_BYTES, NUMBERS_BYTES, OFFSETS_BYTES, TOLD_BYTES};

/// How many files are compared: COMPARE_FILES, or 100,000.
fn files_asked() -> usize {
    let asked = std::env::var("COMPARE_FILES").ok();
    asked.and_then(|n| n.parse().ok()).unwrap_or(100_000)
}

/// What both find.
fn both(s: &Settings, file: &[u8], lens: [usize; 3]) -> Found {
    let [flash, main, xip] = lens;
    let wanted = reference::check::check(s, file, flash, main, xip);
    let got = check(s, file, lens);
    assert_eq!(got, wanted, "{s:?} {lens:?}");
    wanted
}

/// Boards to send to, of any content.
fn boards(r: &mut Random, case: &Case) -> Boards {
    Boards::new(case.settings, Buffers::any(r, case.sectors, case.ram))
}

/// A valid file, in any order and with repeats: Done, with every page.
fn ends_done(r: &mut Random, case: &Case) {
    let mut sent = case.pieces.clone();
    for _ in 0..r.below(5) {
        sent.push(case.pieces[r.below(case.pieces.len() as u64) as usize].clone());
    }
    r.shuffle(&mut sent);
    let mut two = boards(r, case);
    two.send(&sent);
    assert!(two.whole(&case.pieces), "a valid file lost a page");
}

/// Whether some order of the pieces, with these two first, loses a page or never ends.
fn loses(r: &mut Random, case: &Case, first: [usize; 2]) -> bool {
    let [i, j] = first;
    [[i, j], [j, i]].into_iter().any(|order| {
        let mut two = boards(r, case);
        two.send(order.iter().map(|&k| &case.pieces[k]));
        let rest = (0..case.pieces.len()).filter(|k| !order.contains(k));
        two.send(rest.map(|k| &case.pieces[k]));
        !two.whole(&case.pieces)
    })
}

#[test]
fn files_agree() {
    let mut r = Random(80);
    let mut met = [0u64; 89];
    let mut comments = 0;
    for _ in 0..files_asked() {
        let mut case = any_case(&mut r);
        for _ in 0..r.of(&[0, 1, 1, 1, 2, 2]) {
            spoil(&mut r, &mut case);
        }
        distinct(&mut case.pieces);
        let (mut file, mut lens) = (case.file(), case.lens());
        match r.below(60) {
            0 => file.truncate(r.below(file.len() as u64 + 1) as usize),
            1 => file.extend([0; 3]),
            2 => lens[r.below(3) as usize] = r.of(&[1, 4095, 4097, 16_383, 532_481, usize::MAX]),
            _ => {}
        }
        let found = both(&case.settings, &file, lens);
        met[usize::from(found.number())] += 1;
        match found {
            // a file that was cut between two pieces is another than the case's
            Found::Valid if file == case.file() => ends_done(&mut r, &case),
            Found::SameNumber { piece, other } | Found::Overlap { piece, other }
                if file == case.file() =>
            {
                // two comments with one number: neither has a page that could be lost
                let two = [piece, other];
                let noted = two.iter().all(|&k| field(&case.pieces[k], 8) & 1 != 0);
                let lost = loses(&mut r, &case, two);
                assert!(lost || noted, "{found:?} lost nothing");
                comments += u64::from(!lost);
            }
            _ => {}
        }
    }
    let told = [0, 1, 2, 4, 5, 7, 8, 9, 10, 11].into_iter().chain(80..=88);
    let least = files_asked() as u64 / 1_000;
    for number in told {
        assert!(met[number] >= least, "{number}: {met:?}");
    }
    assert!(comments * 20 < met[85], "{comments} of {}", met[85]);
}

/// The pages of a file at these addresses.
fn pages(addresses: &[u32]) -> Vec<Vec<u8>> {
    let total = addresses.len() as u32;
    let mut pieces = Vec::new();
    for (number, &address) in (0..total).zip(addresses) {
        let fields = Fields {
            flags: 0x2000,
            address,
            size: 256,
            number,
            total,
            family: ARM_S,
        };
        pieces.push(arrival(fields, u64::from(number) + 1));
    }
    pieces
}

fn board(addresses: &[u32]) -> Case {
    let mut pieces = pages(addresses);
    distinct(&mut pieces);
    Case {
        settings: arm_only(),
        sectors: 16,
        ram: Ram::BOTH,
        pieces,
    }
}

/// Ranges at every distance from each other near 256, and pages around the end of each window.
#[test]
fn edges_of_ranges_and_windows() {
    let mut r = Random(81);
    // flash ends with its length, a RAM with its window
    for (start, end, step) in [
        (0x1000_0000_u32, 0x1001_0000_u32, 256),
        (0x2000_0000, 0x2008_2000, 1),
        (0x13ff_c000, 0x1400_0000, 1),
    ] {
        for base in [start, start + step, start + 777 / step * step, end - 1024] {
            for gap in [0, 1, 128, 254, 255, 256, 257, 258, 512] {
                for [a, b] in [[base, base + gap], [base + gap, base]] {
                    let case = board(&[a, b]);
                    let found = both(&case.settings, &case.file(), case.lens());
                    let wanted = match gap {
                        _ if gap % step != 0 => 11,
                        0..256 => 86,
                        _ => 0,
                    };
                    assert_eq!(found.number(), wanted, "{a:x} {b:x}");
                    match wanted {
                        0 => ends_done(&mut r, &case),
                        86 => assert!(loses(&mut r, &case, [0, 1])),
                        _ => {}
                    }
                }
            }
        }
        for (last, wanted) in [
            (end - 512, 0),
            (end - 257, if step == 1 { 0 } else { 11 }),
            (end - 256, 0),
            (end - 255, 11),
            (end - 1, 11),
            (end, 11),
            (start.wrapping_sub(1), 11),
            (start.wrapping_sub(256), 11),
        ] {
            let case = board(&[start, last]);
            let found = both(&case.settings, &case.file(), case.lens());
            assert_eq!(found.number(), wanted, "{last:x}");
            if wanted == 0 {
                ends_done(&mut r, &case);
            }
        }
    }
}

/// Where a board lacks a RAM its addresses are in no window; where a length is wrong that is told before all else.
#[test]
fn every_ram_and_length() {
    let lens = |main, xip| [65_536, main, xip];
    for (address, index) in [(0x2000_0001, 1), (0x13ff_c001, 2)] {
        let file = pages(&[address]).concat();
        for main in [0, 1, 16_384, 532_479, 532_480, 532_481] {
            for xip in [0, 1, 16_383, 16_384, 16_385, 532_480] {
                let found = both(&arm_only(), &file, lens(main, xip));
                let right = matches!(main, 0 | 532_480) && matches!(xip, 0 | 16_384);
                let there = [0, main, xip][index] != 0;
                let wanted = match (right, there) {
                    (false, _) => 1,
                    (true, true) => 0,
                    (true, false) => 11,
                };
                assert_eq!(found.number(), wanted);
            }
        }
    }
    let file = pages(&[0x1000_0000]).concat();
    for flash in [
        0,
        1,
        4095,
        4096,
        4097,
        8192,
        33_554_432,
        33_558_528,
        usize::MAX,
    ] {
        let found = both(&arm_only(), &file, [flash, 0, 0]);
        let right = matches!(flash, 4096 | 8192 | 33_554_432);
        assert_eq!(found.number(), u8::from(!right), "{flash}");
    }
    for len in 0..=1_100 {
        let file = [pages(&[0x1000_0000, 0x1000_0100]).concat(), vec![0; 76]].concat();
        let found = both(&arm_only(), &file[..len], lens(0, 0));
        let wanted = match len {
            0 => 81,
            512 => 87,
            1024 => 0,
            _ => 80,
        };
        assert_eq!(found.number(), wanted, "{len}");
    }
}

/// Files as large as a flash, whole, with a piece less, and with a number or an address used twice far apart.
#[test]
fn large_files() {
    let s = arm_only();
    let lens = [1 << 20, 0, 0];
    let addresses: Vec<u32> = (0..4096).map(|k| 0x1000_0000 + 256 * k).collect();
    let mut pieces = pages(&addresses);
    assert_eq!(both(&s, &pieces.concat(), lens), Found::Valid);
    let mut r = Random(82);
    r.shuffle(&mut pieces);
    assert_eq!(both(&s, &pieces.concat(), lens), Found::Valid);
    let lost = field(&pieces[2000], 20);
    let less = [&pieces[..2000], &pieces[2001..]].concat();
    assert_eq!(
        both(&s, &less.concat(), lens),
        Found::Missing { number: lost }
    );
    let mut twice = pieces.clone();
    let (number, address) = (field(&twice[1], 20), field(&twice[1], 12));
    put(&mut twice[4095], 12, address);
    let overlap = Found::Overlap {
        piece: 4095,
        other: 1,
    };
    assert_eq!(both(&s, &twice.concat(), lens), overlap);
    put(&mut twice[4095], 20, number);
    let same = Found::SameNumber {
        piece: 4095,
        other: 1,
    };
    assert_eq!(both(&s, &twice.concat(), lens), same);
    put(&mut twice[4095], 24, 4097);
    let refused = Found::Refused {
        piece: 4095,
        answer: 10,
    };
    assert_eq!(both(&s, &twice.concat(), lens), refused);
}

/// A file as it is made is valid where it fits the place; with regions it is guarded from its first piece on.
#[test]
fn made_files() {
    let mut r = Random(83);
    let mut met = [0; 3];
    for _ in 0..1_000 {
        let sectors = r.of(&[1, 2, 16]);
        let pages = 1 + r.below(40) as usize;
        let start = 0x1000_0000 + 256 * r.below(16 * sectors) as u32;
        let mut image = vec![0; 256 * pages];
        r.fill(&mut image);
        let mut file = vec![0; 512 * pages];
        let made = tools::make(&image, ARM_S, start, &mut file);
        assert_eq!(made, Ok(pages));
        let lens = [4096 * sectors as usize, 0, 0];
        let fits = (start - 0x1000_0000) as usize + image.len() <= lens[0];
        let found = both(&arm_only(), &file, lens);
        assert_eq!(found == Found::Valid, fits, "{found:?}");
        let made = reference::make::make_regions(&image, ARM_S, start, &mut file);
        assert_eq!(made, Ok(pages));
        let guarded = both(&arm_only(), &file, lens);
        let wanted = if fits {
            Found::Guarded { piece: 0 }
        } else {
            found
        };
        assert_eq!(guarded, wanted);
        met[match found.number() {
            0 => 0,
            10 => 1,
            11 => 2,
            number => panic!("{number}"),
        }] += 1;
    }
    assert!(met.iter().all(|&n| n > 50), "{met:?}");
}

/// Maps that come with any content are left all zero, whatever the answer, and what they held changes nothing; what is told is written whole.
#[test]
fn maps_of_any_content() {
    let mut r = Random(84);
    let mut met = std::collections::BTreeSet::new();
    for _ in 0..5_000 {
        let mut case = any_case(&mut r);
        for _ in 0..r.below(3) {
            spoil(&mut r, &mut case);
        }
        let [flash, main, xip] = case.lens();
        let wanted = both(&case.settings, &case.file(), case.lens());
        let mut maps = [NUMBERS_BYTES, CELLS_BYTES, OFFSETS_BYTES].map(|len| vec![0; len]);
        maps.iter_mut().for_each(|map| r.fill(map));
        let mut told = [0xA5; TOLD_BYTES];
        let settings = proved_settings(&case.settings).bytes();
        let lens = Lens { flash, main, xip };
        let [a, b, c] = &mut maps;
        let number = check_bytes(&settings, &case.file(), lens, [a, b, c], &mut told);
        assert_eq!(number, wanted.number().into());
        assert!(maps.concat().iter().all(|&byte| byte == 0), "{wanted:?}");
        let (piece, other) = match wanted {
            Found::Refused { piece, .. }
            | Found::OtherFamily { piece }
            | Found::OtherTotal { piece }
            | Found::OtherKind { piece }
            | Found::Guarded { piece } => (piece, 0),
            Found::SameNumber { piece, other } | Found::Overlap { piece, other } => (piece, other),
            Found::Missing { number } => (number as usize, 0),
            _ => (0, 0),
        };
        let words = [piece, other].map(|n| (n as u64).to_le_bytes());
        assert_eq!(told, *words.as_flattened());
        met.insert(number);
    }
    assert!(met.len() > 12, "{met:?}");
}

/// Maps, and what is told, of another length: 1, and what is told stays where its own length is another.
#[test]
fn maps_of_any_length() {
    let settings = proved_settings(&arm_only()).bytes();
    let lens = Lens {
        flash: 65_536,
        main: 0,
        xip: 0,
    };
    let right = [NUMBERS_BYTES, CELLS_BYTES, OFFSETS_BYTES, TOLD_BYTES];
    for which in 0..4 {
        for len in [0, 1, right[which] - 1, right[which], right[which] + 1] {
            let mut sizes = right;
            sizes[which] = len;
            let [mut a, mut b, mut c, mut told] = sizes.map(|len| vec![0xA5; len]);
            // the numbers of 1 go before those of the file
            for (file, answer) in [(pages(&[0x1000_0000]).concat(), 0), (vec![0; 511], 80)] {
                let number =
                    check_bytes(&settings, &file, lens, [&mut a, &mut b, &mut c], &mut told);
                let good = len == right[which];
                assert_eq!(number, if good { answer } else { 1 }, "{which} {len}");
                assert!(which != 3 || good || told == vec![0xA5; len]);
                assert!([&a, &b, &c]
                    .iter()
                    .all(|map| map.iter().all(|&byte| byte == 0)));
            }
        }
    }
}
