//! Regions that flash has already (02, L9).

use super::*;
use crate::md5::md5;

const LEN: usize = 65_536;
const FLASH: u32 = 0x1000_0000;

/// A block with that region and digest in the last 24 bytes of its data.
fn with_region(f: Fields, start: u32, len: u32, digest: [u8; 16]) -> [u8; 512] {
    let mut bytes = arrival(Fields {
        flags: f.flags | 0x4000,
        ..f
    });
    bytes[484..488].copy_from_slice(&start.to_le_bytes());
    bytes[488..492].copy_from_slice(&len.to_le_bytes());
    bytes[492..508].copy_from_slice(&digest);
    bytes
}

/// Old content that differs from byte to byte.
fn bench(s: Settings) -> Bench {
    let mut bench = Bench::with_ram(s, LEN);
    let mut random = Random(31);
    bench.flash.fill_with(|| random.next() as u8);
    bench
}

/// Block 1 of 3, at page 17 of its place, which begins in flash at `place`.
fn in_region(bench: &Bench, place: usize, start: u32, len: u32) -> [u8; 512] {
    let from = place + (start - FLASH) as usize;
    let digest = bench
        .flash
        .get(from..from + len as usize)
        .map_or([0; 16], md5);
    let block = Fields {
        address: FLASH + 17 * 256,
        ..page(1, 3)
    };
    with_region(block, start, len, digest)
}

/// A block that is kept, with all that it may change.
fn keeps(bench: &mut Bench, bytes: &[u8], answer: u8, discarded: bool) {
    let before = bench.clone();
    assert_eq!(bench.send(bytes), (answer, discarded));
    assert!(bench.flash == before.flash);
    assert!(bench.main == before.main && bench.xip == before.xip);
}

#[test]
fn kept() {
    for (start, len) in [
        (FLASH + 4096, 4096),
        (FLASH, 8192),
        (FLASH + 4096, 8192),
        (FLASH, 65_536),
    ] {
        let mut bench = bench(NO_TABLE);
        let bytes = in_region(&bench, 0, start, len);
        keeps(&mut bench, &bytes, 17, false);
        let running = Transfer::Running {
            family: ARM_S,
            total: 3,
            count: 1,
            kind: Kind::Flash,
        };
        assert_eq!(bench.transfer, running);
        assert_eq!(marks(&bench.seen), [1]);
        assert_eq!(marks(&bench.sectors), []);
        keeps(&mut bench, &bytes, 13, false);
    }
}

#[test]
fn kept_as_the_last_or_after_another_transfer() {
    let mut bench = bench(NO_TABLE);
    let bytes = in_region(&bench, 0, FLASH + 4096, 4096);
    assert_eq!(bench.answer(page(0, 3)), 14);
    assert_eq!(bench.answer(page(2, 3)), 14);
    assert_eq!(marks(&bench.sectors), [0]);
    keeps(&mut bench, &bytes, 15, false);
    assert_eq!(marks(&bench.seen), [0, 1, 2]);
    assert_eq!(marks(&bench.sectors), [0]);
    keeps(&mut bench, &bytes, 12, false);

    bench.transfer = Transfer::Idle;
    assert_eq!(bench.answer(page(0, 4)), 14);
    keeps(&mut bench, &bytes, 17, true);
    assert_eq!(marks(&bench.seen), [1]);
    assert_eq!(marks(&bench.sectors), []);
}

/// In every other case the block is stored as ever.
fn stored(bench: &Bench, bytes: &[u8]) {
    let mut plain = bytes.to_vec();
    plain[9] &= !0x40;
    let mut twin = bench.clone();
    let mut bench = bench.clone();
    assert_eq!(bench.send(bytes), (14, false));
    assert_eq!(twin.send(&plain), (14, false));
    assert!(bench == twin);
}

#[test]
fn each_condition() {
    let bench = bench(NO_TABLE);
    for (start, len) in [
        // No whole sectors.
        (FLASH + 256, 8192),
        (FLASH + 4095, 8192),
        (FLASH, 8191),
        (FLASH, 8192 + 256),
        (FLASH + 4096, 256),
        // Empty.
        (FLASH + 4096, 0),
        (FLASH, 0),
        // Not within the place.
        (FLASH, 65_536 + 4096),
        (FLASH + 4096, 65_536),
        (FLASH + 4096, 0xFFFF_F000),
        (FLASH, 0xF000_0000),
        // Not around the block.
        (FLASH, 4096),
        (FLASH + 8192, 4096),
        (FLASH + 8192, 8192),
    ] {
        stored(&bench, &in_region(&bench, 0, start, len));
    }
    let block = Fields {
        address: FLASH + 17 * 256,
        ..page(1, 3)
    };
    let digest = md5(&bench.flash[..8192]);
    for start in [0, FLASH - 4096, 4096, 0xFFFF_F000, 0x2000_0000] {
        for len in [4096, 8192, 12_288, 0xF000_0000, 0xFFFF_F000] {
            stored(&bench, &with_region(block, start, len, digest));
        }
    }
    // Another digest, by any bit.
    for bit in 0..128 {
        let mut digest = digest;
        digest[bit / 8] ^= 1 << (bit % 8);
        stored(&bench, &with_region(block, FLASH, 8192, digest));
    }
    // Any byte of the region counts, and none beside it.
    let bytes = with_region(block, FLASH, 8192, digest);
    for (at, answer) in [(0, 14), (4096, 14), (4352, 14), (8191, 14), (8192, 17)] {
        let mut changed = bench.clone();
        changed.flash[at] ^= 1;
        assert_eq!(changed.send(&bytes), (answer, false));
    }
    // Without the flag the bytes mean nothing.
    let mut plain = bytes;
    plain[9] &= !0x40;
    assert_eq!(bench.clone().send(&plain), (14, false));
    assert_eq!(bench.clone().send(&bytes), (17, false));
}

/// "A window address": it counts from the place's start, as the block's does.
#[test]
fn in_a_partition() {
    let bench = bench(with_table(&[arm_s(4, 2), arm_s(8, 4)]));
    let kept = in_region(&bench, 16_384, FLASH + 4096, 4096);
    keeps(&mut bench.clone(), &kept, 17, false);
    let kept = in_region(&bench, 16_384, FLASH, 8192);
    keeps(&mut bench.clone(), &kept, 17, false);
    // Sectors past the place are not within it, though flash has them.
    stored(&bench, &in_region(&bench, 16_384, FLASH, 12_288));
    // And what counts is flash there, not at the address itself.
    stored(&bench, &in_region(&bench, 0, FLASH + 4096, 4096));
}

/// The payload says nothing: flash may keep what differs from it.
#[test]
fn the_payload_is_not_read() {
    let mut bench = bench(NO_TABLE);
    let mut bytes = in_region(&bench, 0, FLASH + 4096, 4096);
    bytes[32..288].fill(0x77);
    keeps(&mut bench, &bytes, 17, false);
}

#[test]
fn only_a_flash_data_block() {
    let mut whole = bench(NO_TABLE);
    whole.main.fill(0);
    whole.xip.fill(0);
    for address in [0x2000_0000, 0x13ff_c000] {
        let block = Fields {
            address,
            ..page(1, 3)
        };
        let digest = md5(&[0; 4096]);
        stored(&whole, &with_region(block, address, 4096, digest));
        stored(
            &whole,
            &with_region(block, FLASH, 4096, md5(&whole.flash[..4096])),
        );
    }
    let comment = Fields {
        flags: 0x2001,
        ..page(1, 3)
    };
    let bytes = with_region(comment, FLASH, 4096, md5(&whole.flash[..4096]));
    keeps(&mut whole, &bytes, 16, false);
}

#[test]
fn refusals_go_before() {
    let mut bench = bench(NO_TABLE);
    let good = in_region(&bench, 0, FLASH, 8192);
    for (at, value, answer) in [
        (0, 0, 4),
        (9, 0x50, 5),
        (9, 0x40, 7),
        (28, 0, 8),
        (16, 1, 9),
        (20, 3, 10),
        (12, 1, 11),
    ] {
        let mut bytes = good;
        bytes[at] = value;
        keeps(&mut bench, &bytes, answer, false);
    }
    keeps(&mut bench, &good, 17, false);
}

/// A file all of whose sectors are in flash already.
#[test]
fn a_file_that_is_there() {
    let mut bench = bench(NO_TABLE);
    let before = bench.clone();
    let digest = md5(&bench.flash[4096..12_288]);
    for (k, number) in [5, 3, 0, 31, 2, 1, 4].into_iter().chain(6..31).enumerate() {
        let block = Fields {
            address: FLASH + 4096 + number * 256,
            ..page(number, 32)
        };
        let bytes = with_region(block, FLASH + 4096, 8192, digest);
        let answer = if k < 31 { 17 } else { 15 };
        keeps(&mut bench, &bytes, answer, false);
    }
    assert!(bench.flash == before.flash);
    assert_eq!(marks(&bench.sectors), []);
}

/// Files with regions end with the final bytes, whatever flash held before,
/// unless it held the digest's content elsewhere.
#[test]
fn files_with_regions_end_as_they_should() {
    let mut random = Random(77);
    let mut kept = 0;
    for _ in 0..60 {
        // Sectors 0 and 1 are one region, 2 is another, 3 has none.
        let regions = [Some((0, 8192)), Some((0, 8192)), Some((8192, 4096)), None];
        let mut pages: Vec<usize> = (0..64).filter(|_| random.below(3) > 0).collect();
        pages.extend(
            [0, 16, 32, 48]
                .iter()
                .filter(|page| !pages.contains(page))
                .collect::<Vec<_>>(),
        );
        let payload = |page: usize| vec![page as u8 ^ 0x5A; 256];
        let mut end = vec![0xFF; 4 * 4096];
        for &page in &pages {
            end[page * 256..][..256].copy_from_slice(&payload(page));
        }
        let mut start = Bench::new(NO_TABLE, 4 * 4096);
        for sector in 0..4 {
            if random.yes() {
                start.flash[sector * 4096..][..4096].copy_from_slice(&end[sector * 4096..][..4096]);
            }
        }
        let mut arrivals = vec![];
        for (number, &page) in pages.iter().enumerate() {
            let block = Fields {
                address: FLASH + page as u32 * 256,
                number: number as u32,
                total: pages.len() as u32,
                fill: page as u8 ^ 0x5A,
                ..ONLY
            };
            arrivals.push(match regions[page / 16] {
                Some((from, len)) => {
                    let digest = md5(&end[from..from + len]);
                    with_region(block, FLASH + from as u32, len as u32, digest)
                }
                None => arrival(block),
            });
        }
        for i in (1..arrivals.len()).rev() {
            arrivals.swap(i, random.below(i + 1));
        }
        let mut bench = start;
        for bytes in &arrivals {
            let (answer, _) = bench.send(bytes);
            kept += u32::from(answer == 17);
        }
        let done = Transfer::Done {
            family: ARM_S,
            total: pages.len() as u32,
            kind: Kind::Flash,
        };
        assert_eq!(bench.transfer, done);
        assert!(bench.flash == end);
    }
    assert!(kept > 100);
}
