//! What rows 14 and 15 write: payloads, erased sectors, marks and counts.

use super::*;

const LEN: usize = 65_536;

fn all(bytes: &[u8], value: u8) -> bool {
    bytes.iter().all(|&b| b == value)
}

#[test]
fn example_total_1() {
    let mut bench = Bench::new(NO_TABLE, LEN);
    assert_eq!(bench.answer(ONLY), 15);
    let done = Transfer::Done {
        family: ARM_S,
        total: 1,
        kind: Kind::Flash,
    };
    assert_eq!(bench.transfer, done);
    assert!(all(&bench.flash[..256], 0x5A));
    assert!(all(&bench.flash[256..4096], 0xFF));
    assert!(all(&bench.flash[4096..], 0xA7));
    assert_eq!(marks(&bench.seen), [0]);
    assert_eq!(marks(&bench.sectors), [0]);
}

#[test]
fn every_byte_of_the_payload_is_stored_in_order() {
    let mut bytes = arrival(page(1, 2));
    for (i, byte) in bytes[32..508].iter_mut().enumerate() {
        *byte = i as u8;
    }
    let mut bench = Bench::new(with_table(&[arm_s(4, 2)]), LEN);
    assert_eq!(bench.send(&bytes), (14, false));
    assert_eq!(bench.flash[16_640..16_896], bytes[32..288]);
    assert!(all(&bench.flash[16_384..16_640], 0xFF));
    assert!(all(&bench.flash[16_896..20_480], 0xFF));
    assert!(all(&bench.flash[..16_384], 0xA7));
    assert!(all(&bench.flash[20_480..], 0xA7));
}

#[test]
fn the_last_sector_of_a_place_stays_within_it() {
    let s = with_table(&[arm_s(4, 2), arm_s(6, 1)]);
    let mut bench = Bench::new(s, LEN);
    let block = Fields {
        address: 0x1000_1F00,
        ..ONLY
    };
    assert_eq!(bench.answer(block), 15);
    assert!(all(&bench.flash[..20_480], 0xA7));
    assert!(all(&bench.flash[20_480..24_320], 0xFF));
    assert!(all(&bench.flash[24_320..24_576], 0x5A));
    assert!(all(&bench.flash[24_576..], 0xA7));
    assert_eq!(marks(&bench.sectors), [5]);
}

#[test]
fn map_bits_count_from_the_most_significant() {
    for (number, byte, bits) in [
        (0, 0, 0x80),
        (1, 0, 0x40),
        (7, 0, 0x01),
        (8, 1, 0x80),
        (131_071, 16_383, 0x01),
    ] {
        let mut bench = Bench::new(NO_TABLE, 33_554_432);
        assert_eq!(bench.answer(page(number, 131_072)), 14);
        assert_eq!(bench.seen[byte], bits);
        assert_eq!(marks(&bench.seen), [number as usize]);
        assert_eq!(marks(&bench.sectors), [number as usize / 16]);
    }
    for (sector, byte, bits) in [(0, 0, 0x80), (9, 1, 0x40), (8191, 1023, 0x01)] {
        let mut bench = Bench::new(NO_TABLE, 33_554_432);
        let block = Fields {
            address: 0x1000_0000 + sector * 4096,
            ..ONLY
        };
        assert_eq!(bench.answer(block), 15);
        assert_eq!(bench.sectors[byte], bits);
        assert_eq!(marks(&bench.sectors), [sector as usize]);
    }
}

#[test]
fn a_sector_is_erased_once() {
    let mut bench = Bench::new(NO_TABLE, LEN);
    assert_eq!(bench.answer(page(3, 40)), 14);
    // A byte put there by hand shows whether the sector is erased again.
    bench.flash[100] = 0x11;
    assert_eq!(bench.answer(page(5, 40)), 14);
    assert!(all(&bench.flash[768..1024], 3));
    assert!(all(&bench.flash[1280..1536], 5));
    assert_eq!(bench.flash[100], 0x11);
    assert!(all(&bench.flash[4096..], 0xA7));
    assert_eq!(bench.answer(page(16, 40)), 14);
    assert!(all(&bench.flash[4096..4352], 16));
    assert!(all(&bench.flash[4352..8192], 0xFF));
    assert!(all(&bench.flash[8192..], 0xA7));
    assert_eq!(marks(&bench.sectors), [0, 1]);
}

#[test]
fn a_repeat_stores_nothing() {
    let mut bench = Bench::new(NO_TABLE, LEN);
    assert_eq!(bench.answer(page(3, 40)), 14);
    let changed = Fields {
        fill: 0x77,
        ..page(3, 40)
    };
    assert_eq!(bench.answer(changed), 13);
    assert!(all(&bench.flash[768..1024], 3));
}

#[test]
fn example_another_total_discards() {
    let mut bench = Bench::new(NO_TABLE, LEN);
    assert_eq!(bench.answer(page(0, 3)), 14);
    assert_eq!(bench.answer(page(1, 3)), 14);
    let block = Fields {
        address: 0x1000_2000,
        ..page(1, 4)
    };
    assert_eq!(bench.send(&arrival(block)), (14, true));
    let running = Transfer::Running {
        family: ARM_S,
        total: 4,
        count: 1,
        kind: Kind::Flash,
    };
    assert_eq!(bench.transfer, running);
    assert_eq!(marks(&bench.seen), [1]);
    assert_eq!(marks(&bench.sectors), [2]);
    // Flash keeps what the discarded transfer wrote.
    assert!(all(&bench.flash[256..512], 1));
}

#[test]
fn another_family_discards_and_its_sectors_are_erased_anew() {
    let mut bench = Bench::new(NO_TABLE, LEN);
    assert_eq!(bench.answer(page(0, 3)), 14);
    let data = Fields {
        family: DATA,
        ..page(1, 3)
    };
    assert_eq!(bench.send(&arrival(data)), (14, true));
    assert!(all(&bench.flash[..256], 0xFF));
    assert!(all(&bench.flash[256..512], 1));
    assert!(all(&bench.flash[512..4096], 0xFF));
    let running = Transfer::Running {
        family: DATA,
        total: 3,
        count: 1,
        kind: Kind::Flash,
    };
    assert_eq!(bench.transfer, running);
    assert_eq!(marks(&bench.seen), [1]);
}

#[test]
fn a_discard_can_complete_at_once() {
    let mut bench = Bench::new(NO_TABLE, LEN);
    assert_eq!(bench.answer(page(0, 3)), 14);
    assert_eq!(bench.send(&arrival(ONLY)), (15, true));
    let done = Transfer::Done {
        family: ARM_S,
        total: 1,
        kind: Kind::Flash,
    };
    assert_eq!(bench.transfer, done);
}

#[test]
fn a_refused_block_discards_nothing() {
    let mut bench = Bench::new(NO_TABLE, LEN);
    assert_eq!(bench.answer(page(0, 2)), 14);
    let foreign = Fields {
        family: 0x68ed_2b88,
        ..page(0, 5)
    };
    assert_eq!(bench.answer(foreign), 8);
    let astray = Fields {
        address: 0x2000_0000,
        ..page(0, 5)
    };
    assert_eq!(bench.answer(astray), 11);
    assert_eq!(bench.answer(page(1, 2)), 15);
}

#[test]
fn two_numbers_may_share_an_address() {
    let mut bench = Bench::new(NO_TABLE, LEN);
    assert_eq!(bench.answer(page(0, 2)), 14);
    let second = Fields {
        number: 1,
        fill: 9,
        ..page(0, 2)
    };
    assert_eq!(bench.answer(second), 15);
    assert!(all(&bench.flash[..256], 9));
}

#[test]
fn the_largest_file_completes() {
    let mut bench = Bench::new(NO_TABLE, 33_554_432);
    let total = 131_072u32;
    let mut answers = [0u32; 16];
    for k in 0..total {
        // An odd factor visits every number once, out of order.
        let number = k.wrapping_mul(48_271) % total;
        let outcome = bench.take(&arrival(page(number, total)));
        answers[usize::from(outcome.answer)] += 1;
    }
    assert_eq!((answers[14], answers[15]), (131_071, 1));
    assert!(all(&bench.seen, 0xFF) && all(&bench.sectors, 0xFF));
    let right = |(k, payload): (usize, &[u8])| all(payload, k as u8);
    assert!(bench.flash.chunks(256).enumerate().all(right));
}
