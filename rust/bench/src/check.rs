//! A file checked before it is sent: the proved call beside plain Rust as a host would write it, with a map of the numbers and one of where pages
//! start, and beside many arrivals in one call.

use std::hint::black_box;

use compare::{page, proved_settings, Buffers};
use proved::{Settings as Proved, Transfer as Received};
use reference::{settings_good, Entry, Settings, Transfer, ARRIVAL_LEN, PAYLOAD_LEN};
use tools::check::{check, Lens};

use crate::once::{lengths_right, mark, marked, screen};
use crate::{beside, pair, settings, timed, Work, FLASH};

const SIZES: [u32; 5] = [16, 64, 1024, 16_384, 131_072];

/// The number that the check gives, 0 for a valid file. Every region is taken for one that counts: no file here has one.
fn plain(s: &Settings, file: &[u8], lent: &Buffers) -> u32 {
    if !lengths_right(lent) {
        return 1;
    }
    if !settings_good(s, lent.flash.len()) {
        return 2;
    }
    if !file.len().is_multiple_of(ARRIVAL_LEN) {
        return 80;
    }
    let mut numbers = vec![0; 16_384];
    // where the page that starts in a cell of 256 bytes starts, 1 for the cell's first byte; 0 for none
    let mut starts = vec![0u16; 131_072];
    let (mut found, mut first, mut guarded) = (None, None, false);
    for a in file.chunks_exact(ARRIVAL_LEN) {
        let page = match screen(s, Transfer::Idle, a, lent, &mut found) {
            Ok(page) => page,
            Err(answer) => return answer.into(),
        };
        let (family, total, kind) = *first.get_or_insert((page.family, page.total, page.kind));
        if page.family != family {
            return 82;
        }
        if page.total != total {
            return 83;
        }
        if page.kind != kind {
            return 84;
        }
        if marked(&numbers, page.number as usize) {
            return 85;
        }
        mark(&mut numbers, page.number as usize);
        let Some(at) = page.at else { continue };
        let (cell, offset) = (at / PAYLOAD_LEN, (at % PAYLOAD_LEN) as u16 + 1);
        let after = starts.get(cell + 1).copied().unwrap_or(0);
        let before = if cell > 0 { starts[cell - 1] } else { 0 };
        if starts[cell] != 0 || before > offset || (after != 0 && after < offset) {
            return 86;
        }
        starts[cell] = offset;
        guarded |= a[9] & 0x40 != 0;
    }
    match first {
        None => 81,
        Some((_, total, _)) if file.len() / ARRIVAL_LEN != total as usize => 87,
        Some(_) if guarded => 88,
        Some(_) => 0,
    }
}

fn file(blocks: u32) -> Vec<u8> {
    let pages = (0..blocks).map(|k| page(reference::ARM_S, blocks, k));
    pages.flatten().collect()
}

fn work(blocks: u32) -> Work {
    Work {
        rounds: (2_000_000 / blocks as usize).clamp(12, 2000),
        calls: blocks as usize,
        bytes: Some(blocks as usize * ARRIVAL_LEN),
    }
}

fn lens(lent: &Buffers) -> Lens {
    Lens {
        flash: lent.flash.len(),
        main: lent.main.len(),
        xip: lent.xip.len(),
    }
}

fn checked(s: &Proved, file: &[u8], lent: &Buffers) -> (f64, u64) {
    let bytes = s.bytes();
    timed(|| {
        check(black_box(&bytes), black_box(file), lens(lent))
            .number()
            .into()
    })
}

/// Beside plain Rust.
pub fn rows() {
    let s = settings(0, [Entry::EMPTY; 16]);
    let lent = Buffers::filled(FLASH, 0xFF);
    for blocks in SIZES {
        let file = file(blocks);
        pair(
            &format!("a block of {blocks} checked before it is sent"),
            work(blocks),
            || checked(&proved_settings(&s), &file, &lent),
            || timed(|| plain(black_box(&s), black_box(&file), &lent).into()),
        );
    }
}

/// Beside the same file taken.
pub fn beside_rows() {
    let s = proved_settings(&settings(0, [Entry::EMPTY; 16]));
    for blocks in SIZES {
        let file = file(blocks);
        let lent = Buffers::filled(FLASH, 0xFF);
        let mut taken = Buffers::filled(FLASH, 0xFF);
        let mut results = vec![0; blocks as usize];
        beside(
            &format!("a block of {blocks} checked; taken, all in one call"),
            (work(blocks), || checked(&s, &file, &lent).0),
            (work(blocks), || {
                let mut transfer = Received::new();
                timed(|| {
                    proved::take_all(&s, &mut transfer, &file, &mut results, &mut taken.lend());
                    u64::from(results[0])
                })
                .0
            }),
        );
    }
}
