//! Made files, delivered (02, L1).

use super::*;
use crate::check::{check, Found};
use crate::make::{make, make_regions};

const LEN: usize = 65_536;

/// The blocks of an image of random bytes.
fn any_made(random: &mut Random, pages: usize, start: u32) -> (Vec<u8>, Vec<[u8; 512]>) {
    let image: Vec<u8> = (0..pages * 256).map(|_| random.next() as u8).collect();
    let mut output = vec![0; pages * 512];
    assert_eq!(make(&image, ARM_S, start, &mut output), Ok(pages));
    let blocks = output.as_chunks().0.to_vec();
    (image, blocks)
}

#[test]
fn delivered_in_any_order() {
    let mut random = Random(256);
    let table = with_table(&[arm_s(4, 3)]);
    for (s, place, len) in [(NO_TABLE, 0, LEN), (table, 16_384, 12_288)] {
        for _ in 0..100 {
            let pages = 1 + random.below(len / 256);
            let first = random.below(len / 256 - pages + 1);
            let start = 0x1000_0000 + 256 * first as u32;
            let (image, mut blocks) = any_made(&mut random, pages, start);
            for i in (1..pages).rev() {
                blocks.swap(i, random.below(i + 1));
            }
            let mut bench = Bench::new(s, LEN);
            for (k, block) in blocks.iter().enumerate() {
                let answer = if k + 1 < pages { 14 } else { 15 };
                assert_eq!(bench.send(block), (answer, false));
            }
            let done = Transfer::Done {
                family: ARM_S,
                total: pages as u32,
                kind: Kind::Flash,
            };
            assert_eq!(bench.transfer, done);
            let at = place + 256 * first;
            assert!(bench.flash[at..at + image.len()] == image);
        }
    }
}

/// What a made block says by its other fields: it is no comment, and has no
/// tags and no region.
#[test]
fn flags() {
    let (_, blocks) = any_made(&mut Random(1), 3, 0x1000_0000);
    for block in blocks {
        use crate::tags::{first_place, tag_at, Found};
        assert_eq!(first_place(&block), 288);
        assert_eq!(tag_at(&block, 288), Found::End);
    }
}

/// A file with regions is one that flash decides: on a board that lacks it every
/// page is stored, and on one that has it nothing is.
#[test]
fn regions_delivered_twice() {
    let mut random = Random(94);
    let table = with_table(&[arm_s(4, 3)]);
    for (s, place, len) in [(NO_TABLE, 0, LEN), (table, 16_384, 12_288)] {
        for _ in 0..100 {
            let pages = 1 + random.below(len / 256);
            let first = random.below(len / 256 - pages + 1);
            let start = 0x1000_0000 + 256 * first as u32;
            let image: Vec<u8> = (0..pages * 256).map(|_| random.next() as u8).collect();
            let mut output = vec![0; pages * 512];
            assert_eq!(make_regions(&image, ARM_S, start, &mut output), Ok(pages));
            let guarded = Found::Guarded { piece: 0 };
            assert_eq!(check(&s, &output, LEN, 0, 0), guarded);

            let mut blocks: Vec<[u8; 512]> = output.as_chunks().0.to_vec();
            let mut bench = Bench::new(s, LEN);
            let before = bench.flash.clone();
            for stored in [true, false] {
                for i in (1..pages).rev() {
                    blocks.swap(i, random.below(i + 1));
                }
                bench.transfer = Transfer::Idle;
                for (k, block) in blocks.iter().enumerate() {
                    let answer = match (k + 1 < pages, stored) {
                        (false, _) => 15,
                        (true, true) => 14,
                        (true, false) => 17,
                    };
                    assert_eq!(bench.send(block), (answer, false));
                }
                let mut expected = before.clone();
                let at = place + 256 * first;
                expected[at / 4096 * 4096..(at + image.len()).div_ceil(4096) * 4096].fill(0xFF);
                expected[at..at + image.len()].copy_from_slice(&image);
                assert!(bench.flash == expected);
                assert_eq!(marks(&bench.sectors).is_empty(), !stored);
            }
        }
    }
}
