//! A file of blocks as it arrives: `uf2_take_all`, `uf2_take` and `uf2_look` beside plain Rust, and the proved side with a full table beside
//! itself without one, and `uf2_accept` with its plan performed beside `uf2_take`.

use std::cell::RefCell;
use std::hint::black_box;

use compare::{page, proved_settings, window, Buffers, Ram, Random};
use proved::{Plan, PAGE_BYTES, PAYLOAD_AT, SECTOR_BYTES};
use reference::{Entry, Kind, Settings};

use crate::{asked, beside, once, pair, read, settings, sixteen, timed, Work, FLASH};

/// The rounds of a file of flash, and of a short one: one of RAM is 60 times as short.
const FILES: usize = 15;
const SHORT_FILES: usize = 500;

/// A file as it arrives: in order or shuffled; of data, of data with a payload size that row 9 refuses, or of comments.
#[derive(Clone, Copy)]
struct Sent {
    blocks: u32,
    shuffled: bool,
    what: What,
    kind: Kind,
}

#[derive(Clone, Copy, PartialEq)]
enum What {
    Data,
    Refused,
    Comments,
}

/// How the arrivals of a file are handed over, and what the plain side does.
#[derive(Clone, Copy, PartialEq)]
enum Way {
    /// All in one call; the plain side reads the settings once and makes every check at each arrival.
    All,
    /// All in one call; the plain side judges settings and lengths once, and a place once for a run of one family.
    AllOnce,
    /// A take each; both read the settings at each arrival.
    Take,
    /// A take each by ours; the plain side reads the settings once.
    TakeReadOnce,
    /// A look each, at a fresh transfer; both read the settings at each arrival.
    Look,
    /// A look and then a take each; both read the settings at each of the two.
    LookAndTake,
    /// Accepted, and the plan performed on the flash, which is memory; a take each by the plain side.
    Accept,
}

impl Sent {
    /// The buffers that it goes to, zeros: a flash of 32 MiB and no RAM, or a RAM and one sector of flash.
    fn buffers(&self) -> Buffers {
        match self.kind {
            Kind::Flash => Buffers::filled(FLASH, 0),
            Kind::MainRam | Kind::XipRam => Buffers::filled(4096, 0).with_ram(Ram::BOTH, 0),
        }
    }

    fn work(&self) -> Work {
        Work {
            rounds: if self.blocks > CACHED {
                FILES
            } else {
                SHORT_FILES
            },
            calls: self.blocks as usize,
            bytes: Some(512 * self.blocks as usize),
        }
    }

    /// The blocks, one after the other.
    fn arrivals(&self) -> Vec<u8> {
        let mut order: Vec<u32> = (0..self.blocks).collect();
        if self.shuffled {
            Random(7).shuffle(&mut order);
        }
        let (start, _) = window(self.kind, 0);
        let block = |k: u32| {
            let mut a = page(reference::ARM_S, self.blocks, k);
            a[12..16].copy_from_slice(&(start + 256 * k).to_le_bytes());
            match self.what {
                What::Data => {}
                // 257 bytes of payload: settings, header and place are asked, and nothing is stored
                What::Refused => a[16] = 1,
                // flag 0x1
                What::Comments => a[8] = 1,
            }
            a
        };
        order.into_iter().flat_map(block).collect()
    }
}

/// Every buffer set to zeros, and handed on.
fn cleared(buffers: &mut Buffers) -> &mut Buffers {
    buffers.each().into_iter().for_each(|b| b.fill(0));
    buffers
}

/// The proved side takes a file, or looks at it.
#[inline(never)]
fn proved_side(way: Way, settings: &[u8], file: &[u8], results: &mut [u8], lent: &mut Buffers) {
    let mut t = proved::Transfer::Idle.bytes();
    if matches!(way, Way::All | Way::AllOnce) {
        lent.take_all(settings, &mut t, file, results);
        return;
    }
    let mut plan = [0; proved::PLAN_BYTES];
    for (a, r) in file.chunks_exact(512).zip(results) {
        if way == Way::LookAndTake {
            black_box(lent.look(black_box(settings), &t, a));
        }
        *r = match way {
            Way::Look => lent.look(black_box(settings), &t, a),
            Way::Accept => accept_and_perform(black_box(settings), &mut t, a, lent, &mut plan),
            _ => lent.take(black_box(settings), &mut t, a),
        } as u8;
    }
}

/// An arrival accepted, and its plan performed on flash that is memory.
fn accept_and_perform(
    settings: &[u8],
    t: &mut [u8],
    a: &[u8],
    lent: &mut Buffers,
    plan: &mut [u8; proved::PLAN_BYTES],
) -> u32 {
    let result = lent.accept(settings, t, a, plan);
    let page = match Plan::from_bytes(plan) {
        Some(Plan::Program { page, .. }) => page,
        Some(Plan::EraseProgram { sector, page }) => {
            lent.flash[sector as usize..][..SECTOR_BYTES].fill(0xFF);
            page
        }
        _ => return result,
    };
    let payload = &a[PAYLOAD_AT..][..PAGE_BYTES];
    let page = &mut lent.flash[page as usize..][..PAGE_BYTES];
    // in two halves, which are compiled in place as a take's copy is, and not as a call of the C library
    let (low, high) = page.split_at_mut(PAGE_BYTES / 2);
    low.copy_from_slice(&payload[..PAGE_BYTES / 2]);
    high.copy_from_slice(&payload[PAGE_BYTES / 2..]);
    result
}

/// The plain side does the same.
#[inline(never)]
fn plain_side(way: Way, settings: &[u8], file: &[u8], results: &mut [u8], lent: &mut Buffers) {
    let fresh = || read(black_box(settings));
    let mut t = reference::Transfer::Idle;
    let kept = fresh();
    if way == Way::AllOnce {
        once::take_all(&kept, &mut t, file, results, lent);
        return;
    }
    for (a, r) in file.chunks_exact(512).zip(results) {
        if way == Way::LookAndTake {
            black_box(lent.plain_look(&fresh(), t, a));
        }
        let (answer, discarded) = match way {
            Way::Look => lent.plain_look(&fresh(), t, a),
            _ => {
                let o = match way {
                    Way::All | Way::TakeReadOnce => lent.plain_take(&kept, t, a),
                    _ => lent.plain_take(&fresh(), t, a),
                };
                t = o.transfer;
                (o.answer, o.discarded)
            }
        };
        *r = answer + 128 * u8::from(discarded);
    }
}

fn sum(results: &[u8]) -> u64 {
    results.iter().map(|&r| u64::from(r)).sum()
}

/// A file that the proved side takes, round after round.
struct Ours {
    settings: [u8; proved::SETTINGS_BYTES],
    way: Way,
    file: Vec<u8>,
    results: Vec<u8>,
    lent: Buffers,
}

impl Ours {
    fn new(s: &Settings, sent: Sent, way: Way) -> Ours {
        Ours {
            settings: proved_settings(s).bytes(),
            way,
            file: sent.arrivals(),
            results: vec![0; sent.blocks as usize],
            lent: sent.buffers(),
        }
    }

    /// One round; the buffers are cleared before its time begins.
    fn round(&mut self) -> (f64, u64) {
        let lent = cleared(&mut self.lent);
        timed(|| {
            let results = &mut self.results;
            proved_side(self.way, &self.settings, &self.file, results, lent);
            sum(results)
        })
    }
}

fn row(name: &str, s: &Settings, sent: Sent, way: Way) {
    if !asked(name) {
        return;
    }
    let mut ours = Ours::new(s, sent, way);
    let (settings, file) = (ours.settings, ours.file.clone());
    let mut lent = ours.lent.clone();
    let mut results = ours.results.clone();
    pair(
        name,
        sent.work(),
        || ours.round(),
        || {
            let lent = cleared(&mut lent);
            timed(|| {
                plain_side(way, &settings, &file, &mut results, lent);
                sum(&results)
            })
        },
    );
    assert!(ours.lent == lent, "{name}: the two leave the same");
}

const WAYS: [(&str, Way); 6] = [
    ("all in one call, plain checks at each", Way::All),
    ("all in one call, plain judges once", Way::AllOnce),
    ("a take each", Way::Take),
    ("a take each, plain settings read once", Way::TakeReadOnce),
    ("a look each", Way::Look),
    ("a look and a take each", Way::LookAndTake),
];

const ORDERS: [(&str, bool); 2] = [("in order", false), ("shuffled", true)];

/// The blocks of the files: as many as the flash holds, and as its last entry does.
const WHOLE: u32 = 131_072;
const LAST: u32 = (FLASH / 4096 - 15) as u32 * 16;

/// As many as go into 1 MiB, which the caches hold.
const CACHED: u32 = 4_096;

fn flash(blocks: u32, shuffled: bool, what: What) -> Sent {
    Sent {
        blocks,
        shuffled,
        what,
        kind: Kind::Flash,
    }
}

/// Files of flash, without a table and with a full one.
pub fn flash_rows() {
    let none = settings(0, [Entry::EMPTY; 16]);
    let full = sixteen();
    for (table, s, blocks) in [("no table", &none, WHOLE), ("16 entries", &full, LAST)] {
        let checks =
            format!("settings, header and place of an arrival that row 9 refuses, {table}");
        row(&checks, s, flash(blocks, false, What::Refused), Way::All);
        let comments = format!(
            "a comment of {blocks} in order, {table}, all in one call, plain checks at each"
        );
        row(&comments, s, flash(blocks, false, What::Comments), Way::All);
        for (how, way) in WAYS {
            for (order, shuffled) in ORDERS {
                // a look stores nothing, so that the order says nothing
                if way != Way::Look || !shuffled {
                    let name = format!("an arrival of {blocks} {order}, {table}, {how}");
                    row(&name, s, flash(blocks, shuffled, What::Data), way);
                }
            }
        }
    }
}

/// A file that fills the main RAM, which is never erased.
pub fn ram_rows() {
    let none = settings(0, [Entry::EMPTY; 16]);
    let blocks = window(Kind::MainRam, 0).1 / 256;
    for (how, way) in &WAYS[..3] {
        for (order, shuffled) in ORDERS {
            let name = format!("an arrival of {blocks} {order}, main RAM, {how}");
            let sent = Sent {
                blocks,
                shuffled,
                what: What::Data,
                kind: Kind::MainRam,
            };
            row(&name, &none, sent, *way);
        }
    }
}

/// The proved side alone: an arrival with 16 entries beside one without a table, a round of each in turn.
pub fn table_rows() {
    let none = settings(0, [Entry::EMPTY; 16]);
    let full = sixteen();
    for (how, way) in [("all in one call", Way::All), ("a take each", Way::Take)] {
        for (order, shuffled) in ORDERS {
            let name = format!("an arrival {order}, {how}, 16 entries beside no table");
            if !asked(&name) {
                continue;
            }
            let [with, without] = [LAST, WHOLE].map(|blocks| flash(blocks, shuffled, What::Data));
            let mut a = Ours::new(&full, with, way);
            let mut b = Ours::new(&none, without, way);
            beside(
                &name,
                (with.work(), || a.round().0),
                (without.work(), || b.round().0),
            );
        }
    }
}

/// The proved side alone: an arrival accepted and its plan performed beside a take, a round of each in turn.
pub fn accept_rows() {
    for blocks in [WHOLE, CACHED] {
        for (order, shuffled) in ORDERS {
            accept_row(blocks, order, shuffled);
        }
    }
}

fn accept_row(blocks: u32, order: &str, shuffled: bool) {
    let none = settings(0, [Entry::EMPTY; 16]);
    let name = format!("an arrival of {blocks} {order}, accept and perform beside a take each");
    if !asked(&name) {
        return;
    }
    let sent = flash(blocks, shuffled, What::Data);
    let a = Ours::new(&none, sent, Way::Accept);
    let b = Ours::new(&none, sent, Way::Take);
    // both have the same buffers in turn: where a buffer lies makes a difference of some hundredths
    let sides = RefCell::new((a, b));
    let second = || {
        let (a, b) = &mut *sides.borrow_mut();
        std::mem::swap(&mut a.lent, &mut b.lent);
        let (time, _) = b.round();
        std::mem::swap(&mut a.lent, &mut b.lent);
        time
    };
    beside(
        &name,
        (sent.work(), || sides.borrow_mut().0.round().0),
        (sent.work(), second),
    );
    let (mut a, mut b) = sides.into_inner();
    a.round();
    b.round();
    assert!(a.results == b.results && a.lent == b.lent, "{name}");
}
