//! Arrivals that name a region of flash (flag 0x4000): what its digest costs a take, and what an arrival costs that needs none.

use std::hint::black_box;

use compare::region::{digest_there, put_region};
use compare::{page, proved_settings, proved_transfer, Buffers};
use reference::{Entry, Kind, Settings, Transfer, ARM_S, WINDOW};

use crate::{asked, beside, pair, settings, timed, Work, CALLS};

const FLASH: usize = 2 << 20;
/// The blocks of a round, of a file with more: all in the first sector, and so in every region.
const BLOCKS: u32 = 16;
const TOTAL: u32 = 4096;

/// A region's length, and the rounds of it.
const REGIONS: [(&str, u32, usize); 3] = [
    ("4 KiB", 4096, 400),
    ("64 KiB", 65_536, 60),
    ("1 MiB", 1 << 20, 8),
];

/// The blocks of a round, with a region of flash as it is lent, of some length; of length 0 without one.
fn blocks(lent: &Buffers, len: u32) -> Vec<Vec<u8>> {
    let digest = digest_there(&lent.flash, 0, WINDOW, len);
    let block = |k| {
        let mut a = page(ARM_S, TOTAL, k);
        if len > 0 {
            put_region(&mut a, WINDOW, len, digest);
        }
        a
    };
    (0..BLOCKS).map(block).collect()
}

fn no_table() -> Settings {
    settings(0, [Entry::EMPTY; 16])
}

/// A take of each block, and a look before it where it `looks`; the sum of the results.
#[inline(never)]
fn proved_side(blocks: &[Vec<u8>], looks: bool, lent: &mut Buffers) -> u64 {
    let s = proved_settings(&no_table()).bytes();
    let mut t = proved_transfer(Transfer::Idle).bytes();
    let mut sum = 0;
    for a in blocks {
        if looks {
            black_box(lent.look(black_box(&s), &t, a));
        }
        sum += u64::from(lent.take(black_box(&s), &mut t, a));
    }
    sum
}

#[inline(never)]
fn plain_side(blocks: &[Vec<u8>], lent: &mut Buffers) -> u64 {
    let s = no_table();
    let mut t = Transfer::Idle;
    let mut sum = 0;
    for a in blocks {
        let o = lent.plain_take(black_box(&s), t, a);
        t = o.transfer;
        sum += u64::from(o.answer);
    }
    sum
}

/// Kept blocks in one call, where a hash may serve more than one; the plain side hashes at each.
fn in_one_call() {
    let name = "an arrival that is kept, a region of 64 KiB, all in one call";
    let mut ours = Buffers::filled(FLASH, 0);
    let mut theirs = ours.clone();
    let blocks = blocks(&ours, 65_536);
    let (file, settings) = (blocks.concat(), proved_settings(&no_table()).bytes());
    let work = Work {
        rounds: 60,
        calls: BLOCKS as usize,
        bytes: Some(BLOCKS as usize * 65_536),
    };
    let ours = || {
        let mut t = proved_transfer(Transfer::Idle).bytes();
        let mut results = [0; BLOCKS as usize];
        timed(|| {
            ours.take_all(&settings, &mut t, &file, &mut results);
            results.iter().map(|&r| u64::from(r)).sum()
        })
    };
    pair(name, work, ours, || {
        timed(|| plain_side(&blocks, &mut theirs))
    });
}

/// Kept blocks, by the length of their region: a hash of the region each.
pub fn kept_rows() {
    in_one_call();
    for (size, len, rounds) in REGIONS {
        let name = format!("an arrival that is kept, a region of {size}, a take each");
        let mut ours = Buffers::filled(FLASH, 0);
        let mut theirs = ours.clone();
        let blocks = blocks(&ours, len);
        let work = Work {
            rounds,
            calls: BLOCKS as usize,
            bytes: Some((BLOCKS * len) as usize),
        };
        pair(
            &name,
            work,
            || timed(|| proved_side(&blocks, false, &mut ours)),
            || timed(|| plain_side(&blocks, &mut theirs)),
        );
    }
}

/// Takes that change nothing, one after the other.
struct Refused {
    settings: [u8; proved::SETTINGS_BYTES],
    transfer: [u8; proved::TRANSFER_BYTES],
    blocks: Vec<Vec<u8>>,
    lent: Buffers,
    answer: u32,
}

impl Refused {
    fn new(answer: u32, region: u32) -> Refused {
        let kind = Kind::Flash;
        let (family, total) = (ARM_S, TOTAL);
        let transfer = match answer {
            12 => Transfer::Done {
                family,
                total,
                kind,
            },
            13 => Transfer::Running {
                family,
                total,
                count: 1,
                kind,
            },
            _ => Transfer::Idle,
        };
        let mut lent = Buffers::filled(FLASH, 0);
        let mut blocks = blocks(&lent, region);
        // every number is marked
        lent.seen.fill(0xFF);
        for a in &mut blocks {
            match answer {
                8 => a[28..32].fill(0),
                9 => a[16] = 1,
                10 => a[24..28].fill(0),
                11 => a[12] = 1,
                _ => {}
            }
        }
        Refused {
            settings: proved_settings(&no_table()).bytes(),
            transfer: proved_transfer(transfer).bytes(),
            blocks,
            lent,
            answer,
        }
    }

    fn calls(&self) -> usize {
        2_000 * self.blocks.len()
    }

    fn round(&mut self) -> f64 {
        let calls = self.calls();
        let (time, sum) = timed(|| {
            let arrivals = self.blocks.iter().cycle().take(calls);
            let take = |a: &Vec<u8>| self.lent.take(&self.settings, &mut self.transfer, a);
            arrivals.map(take).map(u64::from).sum()
        });
        assert_eq!(sum, u64::from(self.answer) * calls as u64);
        time
    }
}

/// The proved side alone: what hashes nothing, with the flag beside the same without it; a look and a take beside a take.
pub fn beside_rows() {
    for answer in [8, 9, 10, 11, 12, 13] {
        let name = format!("an arrival answered {answer}, with a region of 64 KiB beside none");
        if !asked(&name) {
            continue;
        }
        let (mut a, mut b) = (Refused::new(answer, 65_536), Refused::new(answer, 0));
        let work = |side: &Refused| Work {
            rounds: CALLS,
            calls: side.calls(),
            bytes: None,
        };
        beside(&name, (work(&a), || a.round()), (work(&b), || b.round()));
    }
    for (size, len, rounds) in REGIONS {
        let name =
            format!("an arrival that is kept, a region of {size}, look and take beside take");
        if !asked(&name) {
            continue;
        }
        let mut lent = [Buffers::filled(FLASH, 0), Buffers::filled(FLASH, 0)];
        let [both, take] = &mut lent;
        let blocks = blocks(both, len);
        let work = || Work {
            rounds,
            calls: BLOCKS as usize,
            bytes: None,
        };
        beside(
            &name,
            (work(), || timed(|| proved_side(&blocks, true, both)).0),
            (work(), || timed(|| proved_side(&blocks, false, take)).0),
        );
    }
}
