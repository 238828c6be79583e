//! The reason of an answer: `uf2_why` beside the reference's own, both with the settings read at each call.

use std::hint::black_box;

use compare::{page, proved_settings, proved_transfer, Buffers};
use reference::{Entry, Kind, Settings, Transfer, ARM_S};
use tools::why::{explain, Lent};

use crate::{asked, pair, read, settings, timed, Work, CALLS, FLASH};

const BLOCKS: usize = 1000;
const REASONS: usize = 30 * BLOCKS;
const TOTAL: u32 = 131_072;

/// What of a reason goes into a side's sum.
fn sum(cause: u32, got: u64, marks: [u8; 16]) -> u64 {
    u64::from(cause) + got + marks.iter().map(|&m| u64::from(m)).sum::<u64>()
}

#[inline(never)]
fn proved_side(settings: &[u8], t: Transfer, blocks: &[Vec<u8>], b: &Buffers) -> u64 {
    let state = proved_transfer(t).bytes();
    let lent = Lent {
        flash: &b.flash,
        seen: &b.seen,
        sectors: &b.sectors,
        main: &b.main,
        xip: &b.xip,
    };
    let told = |i: usize| {
        let r = explain(black_box(settings), &state, &blocks[i % BLOCKS], lent).reason;
        sum(r.cause, r.got, r.marks)
    };
    (0..REASONS).map(told).sum()
}

#[inline(never)]
fn plain_side(settings: &[u8], t: Transfer, blocks: &[Vec<u8>], b: &Buffers) -> u64 {
    let told = |i: usize| {
        let w = reference::why::why(
            &read(black_box(settings)),
            t,
            &blocks[i % BLOCKS],
            &b.flash,
            &b.seen,
            &b.sectors,
            &b.main,
            &b.xip,
        );
        sum(w.cause, w.got, w.marks)
    };
    (0..REASONS).map(told).sum()
}

/// The blocks of a running transfer, each told that cause.
fn row(name: &str, s: &Settings, family: u32, cause: u32) {
    if !asked(name) {
        return;
    }
    let settings = proved_settings(s).bytes();
    let lent = Buffers::filled(FLASH, 0);
    let blocks: Vec<Vec<u8>> = (0..BLOCKS as u32).map(|k| page(family, TOTAL, k)).collect();
    let t = Transfer::Running {
        family: ARM_S,
        total: TOTAL,
        count: 1,
        kind: Kind::Flash,
    };
    let Buffers {
        flash,
        seen,
        sectors,
        main,
        xip,
    } = &lent;
    let first = reference::why::why(s, t, &blocks[0], flash, seen, sectors, main, xip);
    assert_eq!(first.cause, cause, "{name}");
    let work = Work {
        rounds: CALLS,
        calls: REASONS,
        bytes: None,
    };
    pair(
        name,
        work,
        || timed(|| proved_side(&settings, t, &blocks, &lent)),
        || timed(|| plain_side(&settings, t, &blocks, &lent)),
    );
}

pub fn rows(sixteen: &Settings) {
    let none = settings(0, [Entry::EMPTY; 16]);
    row("a reason of a written block, no table", &none, ARM_S, 1401);
    row("a reason of no place, 16 entries", sixteen, 99, 806);
}
