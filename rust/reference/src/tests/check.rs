//! Files checked before they are sent.

use super::*;
use crate::check::{check, Found};
use crate::md5::md5;

const LEN: usize = 65_536;
const FLASH: u32 = 0x1000_0000;
const MAIN: u32 = 0x2000_0000;
const XIP: u32 = 0x13ff_c000;

fn file(blocks: &[Fields]) -> Vec<u8> {
    blocks.iter().flat_map(|&f| arrival(f)).collect()
}

/// On a board with flash of 65,536 bytes and both RAMs.
fn found_with(s: Settings, blocks: &[Fields]) -> Found {
    check(&s, &file(blocks), LEN, MAIN_LEN, XIP_LEN)
}

fn found(blocks: &[Fields]) -> Found {
    found_with(NO_TABLE, blocks)
}

/// The pages of a file of `total`, from the start of the place.
fn pages(total: u32) -> Vec<Fields> {
    (0..total).map(|k| page(k, total)).collect()
}

fn comment(number: u32, total: u32) -> Fields {
    Fields {
        flags: 0x2001,
        ..page(number, total)
    }
}

fn at(address: u32, number: u32, total: u32) -> Fields {
    Fields {
        address,
        ..page(number, total)
    }
}

fn refused(piece: usize, answer: u8) -> Found {
    Found::Refused { piece, answer }
}

#[test]
fn valid_files() {
    for total in [1, 2, 3, 100, 256] {
        assert_eq!(found(&pages(total)), Found::Valid);
        let mut reversed = pages(total);
        reversed.reverse();
        assert_eq!(found(&reversed), Found::Valid);
    }
    assert_eq!(Found::Valid.number(), 0);
    // A comment has no address, and comments alone are a file.
    assert_eq!(found(&[page(0, 2), comment(1, 2)]), Found::Valid);
    assert_eq!(found(&[comment(1, 2), page(0, 2)]), Found::Valid);
    assert_eq!(found(&[comment(0, 2), comment(1, 2)]), Found::Valid);
    let odd = Fields {
        size: 7,
        ..Fields {
            address: 3,
            ..comment(0, 2)
        }
    };
    assert_eq!(found(&[odd, page(1, 2)]), Found::Valid);
    // Pages may leave gaps, and go up to the ends of what there is.
    let last = FLASH + LEN as u32 - 256;
    assert_eq!(found(&[at(last, 0, 2), at(FLASH, 1, 2)]), Found::Valid);
    for end in [0x2008_2000, 0x1400_0000] {
        assert_eq!(found(&[at(end - 256, 0, 1)]), Found::Valid);
        assert_eq!(found(&[at(end - 255, 0, 1)]), refused(0, 11));
        let two = [at(end - 513, 0, 2), at(end - 257, 1, 2)];
        assert_eq!(found(&two), Found::Valid);
    }
}

#[test]
fn lengths_and_settings() {
    let good = file(&pages(2));
    for (flash, main, xip) in [
        (0, 0, 0),
        (4095, 0, 0),
        (4097, 0, 0),
        (33_558_528, 0, 0),
        (LEN, 1, 0),
        (LEN, 532_479, 0),
        (LEN, 532_481, 0),
        (LEN, 16_384, 0),
        (LEN, 0, 1),
        (LEN, 0, 16_383),
        (LEN, 0, 532_480),
        (usize::MAX, 0, 0),
    ] {
        // 1 goes before all.
        for s in [NO_TABLE, with_table(&[arm_s(0, 0)])] {
            for file in [&good[..], &good[1..], &[]] {
                assert_eq!(check(&s, file, flash, main, xip), Found::BadBuffers);
            }
        }
    }
    for (flash, main, xip) in [
        (4096, 0, 0),
        (33_554_432, 0, 0),
        (LEN, 532_480, 0),
        (LEN, 0, 16_384),
        (LEN, 532_480, 16_384),
    ] {
        assert_eq!(check(&NO_TABLE, &good, flash, main, xip), Found::Valid);
        let bad = with_table(&[arm_s(0, 0)]);
        for file in [&good[..], &good[1..], &[]] {
            assert_eq!(check(&bad, file, flash, main, xip), Found::BadSettings);
        }
    }
    // An entry that runs past a flash of this length.
    let s = with_table(&[arm_s(4, 2)]);
    assert_eq!(check(&s, &good, 5 * 4096, 0, 0), Found::BadSettings);
    assert_eq!(check(&s, &good, 6 * 4096, 0, 0), Found::Valid);
}

#[test]
fn ragged_and_empty() {
    assert_eq!(found(&[]), Found::Empty);
    let good = file(&pages(2));
    for len in [1, 511, 513, 1023] {
        let found = check(&NO_TABLE, &good[..len], LEN, 0, 0);
        assert_eq!(found, Found::Ragged);
    }
    // It goes before what any piece is.
    assert_eq!(check(&NO_TABLE, &[0; 513], LEN, 0, 0), Found::Ragged);
    assert_eq!(check(&NO_TABLE, &[0; 512], LEN, 0, 0), refused(0, 4));
    assert_eq!((Found::Ragged.number(), Found::Empty.number()), (80, 81));
}

/// Document 01's examples of rows 10 and 11, each as the third piece.
#[test]
fn refused_as_01_says() {
    let third = |f: Fields| found(&[page(0, 256), page(1, 256), f]);
    assert_eq!(third(page(2, 257)), refused(2, 10));
    assert_eq!(third(at(0x1001_0000, 2, 256)), refused(2, 11));
    assert_eq!(third(page(256, 256)), refused(2, 10));
    assert_eq!(third(at(0x1000_FF00, 2, 256)), Found::Missing { number: 3 });
    let s = with_table(&[arm_s(4, 2)]);
    let third = |f: Fields| found_with(s, &[page(0, 32), page(1, 32), f]);
    assert_eq!(third(at(0x1000_1F00, 2, 32)), Found::Missing { number: 3 });
    assert_eq!(third(at(0x1000_2000, 2, 32)), refused(2, 11));
    assert_eq!(third(page(2, 33)), refused(2, 10));
    assert_eq!(
        third(Fields {
            family: DATA,
            ..page(2, 32)
        }),
        refused(2, 8)
    );
}

#[test]
fn every_row_from_4_to_11() {
    let with = |f: Fields| found(&[page(0, 3), f, page(2, 3)]);
    let one = page(1, 3);
    assert_eq!(
        with(Fields {
            flags: 0x3000,
            ..one
        }),
        refused(1, 5)
    );
    assert_eq!(
        with(Fields {
            flags: 0x3001,
            ..one
        }),
        refused(1, 5)
    );
    assert_eq!(with(Fields { flags: 0, ..one }), refused(1, 7));
    assert_eq!(with(Fields { flags: 1, ..one }), refused(1, 7));
    assert_eq!(
        with(Fields {
            family: RISCV,
            ..one
        }),
        refused(1, 8)
    );
    assert_eq!(with(Fields { size: 255, ..one }), refused(1, 9));
    assert_eq!(with(Fields { total: 0, ..one }), refused(1, 10));
    assert_eq!(with(at(FLASH + 257, 1, 3)), refused(1, 11));
    assert_eq!(with(at(0xFFFF_FF00, 1, 3)), refused(1, 11));
    // In no window 11 goes before 10.
    let none = Fields {
        total: 0,
        ..at(0x1200_0000, 1, 3)
    };
    assert_eq!(with(none), refused(1, 11));
    for (byte, at) in [(0, 0), (1, 4), (2, 508), (3, 511)] {
        let mut bytes = file(&pages(3));
        bytes[512 + at] ^= 1 << byte;
        let found = check(&NO_TABLE, &bytes, LEN, 0, 0);
        assert_eq!(found, refused(1, 4));
        assert_eq!(found.number(), 4);
    }
    // Where the board has no RAM, its addresses are in no window.
    let ram = file(&[at(MAIN, 0, 1)]);
    assert_eq!(check(&NO_TABLE, &ram, LEN, 0, XIP_LEN), refused(0, 11));
    assert_eq!(check(&NO_TABLE, &ram, LEN, MAIN_LEN, 0), Found::Valid);
    // The board is Idle: a comment's place is flash's, whatever came before.
    let user = 0x1234_5678;
    let mut s = with_table(&[Entry {
        user_count: 1,
        users: [user, 0, 0, 0],
        ..arm_s(4, 2)
    }]);
    s.table[0].arm_s = false;
    let blocks = [at(MAIN, 0, 2), comment(1, 2)];
    assert_eq!(found_with(s, &blocks), refused(1, 8));
    let blocks = blocks.map(|f| Fields { family: user, ..f });
    assert_eq!(found_with(s, &blocks), Found::OtherKind { piece: 1 });
}

#[test]
fn others_than_the_first() {
    let mut blocks = pages(4);
    blocks[2].family = DATA;
    assert_eq!(found(&blocks), Found::OtherFamily { piece: 2 });
    blocks[2].total = 5;
    assert_eq!(found(&blocks), Found::OtherFamily { piece: 2 });
    blocks[2].family = ARM_S;
    assert_eq!(found(&blocks), Found::OtherTotal { piece: 2 });
    blocks[2].address = MAIN;
    assert_eq!(found(&blocks), Found::OtherTotal { piece: 2 });
    blocks[2].total = 4;
    assert_eq!(found(&blocks), Found::OtherKind { piece: 2 });
    blocks[2].number = 1;
    assert_eq!(found(&blocks), Found::OtherKind { piece: 2 });
    blocks[2].address = FLASH + 256;
    let same = Found::SameNumber { piece: 2, other: 1 };
    assert_eq!(found(&blocks), same);
    blocks[2].number = 2;
    let overlap = Found::Overlap { piece: 2, other: 1 };
    assert_eq!(found(&blocks), overlap);
    // The first piece at which one fails, not the first condition.
    blocks[3].family = DATA;
    assert_eq!(found(&blocks), overlap);
    blocks[1].family = DATA;
    assert_eq!(found(&blocks), Found::OtherFamily { piece: 1 });
    let numbers = [
        Found::OtherFamily { piece: 0 },
        Found::OtherTotal { piece: 0 },
        Found::OtherKind { piece: 0 },
        same,
        overlap,
        Found::Missing { number: 0 },
        Found::Guarded { piece: 0 },
    ];
    assert_eq!(numbers.map(Found::number), [82, 83, 84, 85, 86, 87, 88]);
}

#[test]
fn kinds() {
    let other = Found::OtherKind { piece: 1 };
    assert_eq!(found(&[at(MAIN, 0, 2), at(XIP, 1, 2)]), other);
    assert_eq!(found(&[at(XIP, 0, 2), at(MAIN, 1, 2)]), other);
    assert_eq!(found(&[at(MAIN, 0, 2), page(1, 2)]), other);
    // A comment's is flash, so that no RAM file holds one.
    assert_eq!(found(&[at(MAIN, 0, 2), comment(1, 2)]), other);
    assert_eq!(found(&[comment(0, 2), at(XIP, 1, 2)]), other);
    let named = Fields {
        address: MAIN,
        ..comment(1, 2)
    };
    assert_eq!(found(&[page(0, 2), named]), Found::Valid);
}

#[test]
fn the_same_number() {
    let same = |piece, other| Found::SameNumber { piece, other };
    assert_eq!(found(&[page(0, 2), page(0, 2)]), same(1, 0));
    assert_eq!(found(&[page(0, 1), page(0, 1)]), same(1, 0));
    assert_eq!(found(&[comment(0, 2), comment(0, 2)]), same(1, 0));
    // With the same number as a data block, the first to come stands (L3).
    assert_eq!(found(&[page(0, 2), comment(0, 2)]), same(1, 0));
    assert_eq!(found(&[comment(0, 2), page(0, 2)]), same(1, 0));
    let mut blocks = pages(5);
    blocks.push(at(FLASH + 0x1000, 3, 5));
    assert_eq!(found(&blocks), same(5, 3));
}

#[test]
fn ranges_that_share_a_byte() {
    for window in [MAIN, XIP] {
        for base in [0, 1, 255, 256, 777] {
            let two = |a: u32, b: u32| found(&[at(window + a, 0, 2), at(window + b, 1, 2)]);
            for (gap, expected) in [
                (0, Found::Overlap { piece: 1, other: 0 }),
                (1, Found::Overlap { piece: 1, other: 0 }),
                (255, Found::Overlap { piece: 1, other: 0 }),
                (256, Found::Valid),
                (257, Found::Valid),
            ] {
                assert_eq!(two(base, base + gap), expected);
                assert_eq!(two(base + gap, base), expected);
            }
        }
        // One that shares bytes with two is told with the first in the file.
        let among = |low, high| {
            found(&[
                at(window + low, 0, 3),
                at(window + high, 1, 3),
                at(window + 128, 2, 3),
            ])
        };
        let overlap = |other| Found::Overlap { piece: 2, other };
        assert_eq!(among(0, 256), overlap(0));
        assert_eq!(among(256, 0), overlap(0));
        assert_eq!(among(1024, 256), overlap(1));
        assert_eq!(among(1024, 0), overlap(1));
    }
    // A comment has none, whatever its address.
    let there = Fields {
        flags: 0x2001,
        ..at(FLASH, 1, 2)
    };
    assert_eq!(found(&[page(0, 2), there]), Found::Valid);
}

#[test]
fn missing_numbers() {
    for (numbers, number) in [
        (&[0][..], 1),
        (&[1], 0),
        (&[3, 1, 0], 2),
        (&[0, 1, 2], 3),
        (&[3, 2, 1], 0),
    ] {
        let blocks: Vec<Fields> = numbers.iter().map(|&k| page(k, 4)).collect();
        assert_eq!(found(&blocks), Found::Missing { number });
    }
    // A fault of a later piece goes before it.
    assert_eq!(
        found(&[page(0, 9), page(1, 8)]),
        Found::OtherTotal { piece: 1 }
    );
}

/// The file with this piece naming a region, whose digest doesn't matter.
fn guarding(f: Fields, start: u32, len: u32) -> Vec<u8> {
    let mut bytes = file(&[page(0, 3), f, page(2, 3)]);
    let block = &mut bytes[512..1024];
    block[9] |= 0x40;
    block[484..488].copy_from_slice(&start.to_le_bytes());
    block[488..492].copy_from_slice(&len.to_le_bytes());
    block[492..508].copy_from_slice(&md5(b"any"));
    bytes
}

#[test]
fn regions_that_count() {
    let s = with_table(&[arm_s(4, 3)]);
    let one = at(FLASH + 0x1100, 1, 3);
    let found = |f, start, len| check(&s, &guarding(f, start, len), LEN, MAIN_LEN, 0);
    for (start, len) in [
        (FLASH + 0x1000, 0x1000),
        (FLASH, 0x2000),
        (FLASH, 0x3000),
        (FLASH + 0x1000, 0x2000),
    ] {
        assert_eq!(found(one, start, len), Found::Guarded { piece: 1 });
    }
    for (start, len) in [
        (FLASH + 0x1000, 0),
        (FLASH + 0x1000, 0x1001),
        (FLASH + 0x1001, 0x1000),
        (FLASH + 0x1100, 0x1000),
        (FLASH, 0x1000),
        (FLASH + 0x2000, 0x1000),
        // Past the place, though not past the flash.
        (FLASH, 0x4000),
        (FLASH + 0x1000, 0x3000),
        (FLASH - 0x1000, 0x3000),
        (0, 0x2000),
        (FLASH + 0x1000, 0xFFFF_F000),
        (0xFFFF_F000, 0x2000),
    ] {
        assert_eq!(found(one, start, len), Found::Valid, "{start:x} {len:x}");
    }
    // The first of several is told.
    let bytes = guarding(one, FLASH, 0x2000);
    let mut last = guarding(at(FLASH + 0x200, 2, 3), FLASH, 0x1000);
    let two = [&bytes[..1024], &last[512..1024]].concat();
    assert_eq!(check(&s, &two, LEN, 0, 0), Found::Guarded { piece: 1 });
    last.copy_within(512..1024, 0);
    let turned = [&last[..512], &bytes[..1024]].concat();
    assert_eq!(check(&s, &turned, LEN, 0, 0), Found::Guarded { piece: 0 });
    // Of a comment it says nothing.
    let comment = Fields {
        flags: 0x2001,
        ..one
    };
    assert_eq!(found(comment, FLASH + 0x1000, 0x1000), Found::Valid);
    // Nor without the flag, nor of a RAM page, nor of a file that isn't valid.
    let mut bytes = guarding(one, FLASH, 0x2000);
    assert_eq!(
        check(&s, &bytes[..1024], LEN, 0, 0),
        Found::Missing { number: 2 }
    );
    bytes[512 + 9] = 0x20;
    assert_eq!(check(&s, &bytes, LEN, 0, 0), Found::Valid);
    let mut ram = guarding(at(MAIN, 0, 1), MAIN, 0x1000)[512..1024].to_vec();
    assert_eq!(check(&s, &ram, LEN, MAIN_LEN, 0), Found::Valid);
    ram[484..488].copy_from_slice(&FLASH.to_le_bytes());
    assert_eq!(check(&s, &ram, LEN, MAIN_LEN, 0), Found::Valid);
}

/// A board of any content that the file is sent to, whole, in this order.
fn sent(random: &mut Random, s: Settings, blocks: &[[u8; 512]]) -> Bench {
    let mut bench = Bench::with_ram(s, LEN);
    for buffer in [&mut bench.flash, &mut bench.xip, &mut bench.seen] {
        buffer.fill_with(|| random.next() as u8);
    }
    for block in blocks {
        bench.take(block);
    }
    bench
}

/// Whether the update is whole: Done, and every page of the file at its place.
fn stands(bench: &Bench, place: usize, blocks: &[[u8; 512]]) -> bool {
    let page = |block: &[u8; 512]| {
        let address = u32::from_le_bytes(block[12..16].try_into().unwrap());
        let (buffer, at) = match address {
            0x2000_0000.. => (&bench.main, address - MAIN),
            XIP.. => (&bench.xip, address - XIP),
            _ => (&bench.flash, address - FLASH + place as u32),
        };
        block[8] & 1 != 0 || buffer[at as usize..][..256] == block[32..288]
    };
    matches!(bench.transfer, Transfer::Done { .. }) && blocks.iter().all(page)
}

/// Addresses of different pages in one window, many of them neighbours.
fn addresses(random: &mut Random, place_len: usize, total: u32) -> Vec<u32> {
    let (window, len, step) = random.pick(&[
        (FLASH, place_len, 256),
        (MAIN, MAIN_LEN, 1),
        (XIP, XIP_LEN, 1),
    ]);
    let mut found: Vec<u32> = vec![];
    while found.len() < total as usize {
        let near = found
            .last()
            .map(|&last| last.wrapping_add(random.pick(&[256, 257, 512])));
        let any = window + (random.below((len - 256) / step + 1) * step) as u32;
        let last = window + (len - 256) as u32;
        let address =
            random.pick(&[near.unwrap_or(any), any, any, last]) / step as u32 * step as u32;
        let inside = (window..=last).contains(&address);
        if inside && found.iter().all(|&other| other.abs_diff(address) >= 256) {
            found.push(address);
        }
    }
    found
}

/// Valid files end Done with every page, in any order and with repeats; with a
/// number used twice or ranges that share a byte, some order loses a page.
#[test]
fn what_becomes_of_files_that_are_sent() {
    let mut random = Random(80);
    let table = with_table(&[arm_s(4, 3)]);
    let mut met = [0; 89];
    for i in 0..4_000 {
        let (s, place, place_len) = random.pick(&[(NO_TABLE, 0, LEN), (table, 16_384, 12_288)]);
        let total = 1 + random.below(6) as u32;
        let mut blocks: Vec<Fields> = addresses(&mut random, place_len, total)
            .into_iter()
            .zip(0..)
            .map(|(address, number)| at(address, number, total))
            .collect();
        if blocks[0].address < XIP && random.below(4) == 0 {
            blocks[random.below(total as usize)].flags |= 1;
        }
        let k = random.below(total as usize);
        let fault = random.below(4);
        match fault {
            0 => blocks[k].number = random.below(total as usize) as u32,
            1 => {
                let of = blocks[random.below(total as usize)].address;
                blocks[k].address = of.wrapping_add(random.pick(&[0, 255, 256, 257]));
            }
            2 => blocks.push(Fields {
                number: random.below(total as usize) as u32,
                ..blocks[k]
            }),
            _ => {}
        }
        // No two pieces agree in any byte of their payloads.
        for (block, fill) in blocks.iter_mut().zip(1..) {
            block.fill = fill;
        }
        let mut pieces: Vec<[u8; 512]> = blocks.into_iter().map(arrival).collect();
        let found = check(&s, pieces.as_flattened(), LEN, MAIN_LEN, XIP_LEN);
        met[usize::from(found.number())] += 1;
        let file = pieces.clone();
        match found {
            Found::Valid => {
                pieces.extend((0..3).map(|_| random.pick(&file)));
                for k in (1..pieces.len()).rev() {
                    pieces.swap(k, random.below(k + 1));
                }
                assert!(stands(&sent(&mut random, s, &pieces), place, &file), "{i}");
            }
            Found::SameNumber { piece, other } | Found::Overlap { piece, other } => {
                let mut lost = false;
                for order in [[piece, other], [other, piece]] {
                    let rest = (0..file.len()).filter(|k| !order.contains(k));
                    let order: Vec<usize> = order.into_iter().chain(rest).collect();
                    let list: Vec<[u8; 512]> = order.iter().map(|&k| file[k]).collect();
                    lost |= !stands(&sent(&mut random, s, &list), place, &file);
                }
                let comments = file[piece][8] & file[other][8] & 1 != 0;
                assert!(lost || comments, "{i} {found:?}");
            }
            _ => {}
        }
    }
    assert!([0, 11, 85, 86].iter().all(|&k| met[k] > 100), "{met:?}");
}
