//! Plain Rust that takes many arrivals in one call as a host would write it: lengths and settings are judged once, and the room of a kind
//! is found once for a run of blocks of one family. What it answers is the reference's, which the benchmark holds it to.

use compare::Buffers;
use reference::{
    place_of, ram_accepts, settings_good, Kind, Settings, Transfer, ARRIVAL_LEN, MAIN_LEN,
    MAIN_WINDOW, MAX_FLASH_LEN, MAX_TOTAL, PAYLOAD_LEN, SECTOR_LEN, WINDOW, XIP_LEN, XIP_WINDOW,
};

/// Where a kind's blocks of a family go, start and length, as it was found.
#[derive(Clone, Copy)]
pub struct Found {
    kind: Kind,
    family: u32,
    room: Option<(usize, usize)>,
}

/// A block that rows 3 to 11 let through, and where it is stored; a comment is not.
pub struct Page {
    pub family: u32,
    pub total: u32,
    pub kind: Kind,
    pub number: u32,
    pub at: Option<usize>,
}

/// Whole arrivals, as many as there are results for: their number.
pub fn take_all(
    s: &Settings,
    t: &mut Transfer,
    arrivals: &[u8],
    results: &mut [u8],
    lent: &mut Buffers,
) -> usize {
    let n = results.len().min(arrivals.len() / ARRIVAL_LEN);
    let refused = if !lengths_right(lent) {
        Some(1)
    } else if !settings_good(s, lent.flash.len()) {
        Some(2)
    } else {
        None
    };
    if let Some(answer) = refused {
        results[..n].fill(answer);
        return n;
    }
    let mut found = None;
    for (a, r) in arrivals.chunks_exact(ARRIVAL_LEN).zip(results) {
        *r = match screen(s, *t, a, lent, &mut found) {
            Ok(page) => settle(t, &page, &a[32..32 + PAYLOAD_LEN], lent),
            Err(answer) => answer,
        };
    }
    n
}

pub fn lengths_right(lent: &Buffers) -> bool {
    let len = lent.flash.len();
    let flash = (SECTOR_LEN..=MAX_FLASH_LEN).contains(&len) && len.is_multiple_of(SECTOR_LEN);
    let maps =
        lent.seen.len() == reference::SEEN_LEN && lent.sectors.len() == reference::SECTORS_LEN;
    flash
        && maps
        && matches!(lent.main.len(), 0 | MAIN_LEN)
        && matches!(lent.xip.len(), 0 | XIP_LEN)
}

/// Rows 3 to 11.
pub fn screen(
    s: &Settings,
    t: Transfer,
    a: &[u8],
    lent: &Buffers,
    found: &mut Option<Found>,
) -> Result<Page, u8> {
    let field = |at: usize| u32::from_le_bytes([a[at], a[at + 1], a[at + 2], a[at + 3]]);
    let state_good = match t {
        Transfer::Idle => true,
        Transfer::Running { total, count, .. } => 1 <= count && count < total && total <= MAX_TOTAL,
        Transfer::Done { total, .. } => (1..=MAX_TOTAL).contains(&total),
    };
    if !state_good {
        return Err(3);
    }
    if field(0) != 0x0A32_4655 || field(4) != 0x9E5D_5157 || field(508) != 0x0AB1_6F30 {
        return Err(4);
    }
    match field(8) {
        flags if flags & 0x1000 != 0 => return Err(5),
        flags if flags & 0x2000 == 0 => return Err(7),
        _ => {}
    }
    let (address, family, number, total) = (field(12), field(28), field(20), field(24));
    let comment = field(8) & 0x1 != 0;
    let known = if comment {
        Some(comment_kind(t, family, total, lent))
    } else {
        kind_at(address, lent)
    };
    let kind = known.unwrap_or(Kind::Flash);
    let room = match *found {
        Some(f) if f.family == family && f.kind == kind => f.room,
        _ => {
            let room = room_of(s, kind, family, lent);
            *found = Some(Found { kind, family, room });
            room
        }
    };
    let (start, size) = room.ok_or(8)?;
    if !comment && field(16) as usize != PAYLOAD_LEN {
        return Err(9);
    }
    if known.is_none() {
        return Err(11);
    }
    if total == 0 || total as usize * PAYLOAD_LEN > size || number >= total {
        return Err(10);
    }
    let page = |at| Page {
        family,
        total,
        kind,
        number,
        at,
    };
    if comment {
        return Ok(page(None));
    }
    let offset = (address - base(kind)) as usize;
    let aligned = kind != Kind::Flash || offset.is_multiple_of(PAYLOAD_LEN);
    if !aligned || offset + PAYLOAD_LEN > size {
        return Err(11);
    }
    Ok(page(Some(start + offset)))
}

fn base(kind: Kind) -> u32 {
    match kind {
        Kind::Flash => WINDOW,
        Kind::MainRam => MAIN_WINDOW,
        Kind::XipRam => XIP_WINDOW,
    }
}

/// The kind of an address, unless it lies in no window.
fn kind_at(address: u32, lent: &Buffers) -> Option<Kind> {
    let within = |start: u32, len: usize| (address.wrapping_sub(start) as usize) < len;
    if within(WINDOW, MAX_FLASH_LEN) {
        Some(Kind::Flash)
    } else if within(MAIN_WINDOW, lent.main.len()) {
        Some(Kind::MainRam)
    } else if within(XIP_WINDOW, lent.xip.len()) {
        Some(Kind::XipRam)
    } else {
        None
    }
}

/// The kind of a comment: the running transfer's, if it is one of its blocks and its buffer is there.
fn comment_kind(t: Transfer, family: u32, total: u32, lent: &Buffers) -> Kind {
    match t {
        Transfer::Running {
            family: f,
            total: n,
            kind,
            ..
        } if (f, n) == (family, total) => match kind {
            Kind::MainRam if lent.main.is_empty() => Kind::Flash,
            Kind::XipRam if lent.xip.is_empty() => Kind::Flash,
            _ => kind,
        },
        _ => Kind::Flash,
    }
}

fn room_of(s: &Settings, kind: Kind, family: u32, lent: &Buffers) -> Option<(usize, usize)> {
    match kind {
        Kind::Flash => place_of(s, lent.flash.len(), family),
        Kind::MainRam => ram_accepts(s, family).then_some((0, MAIN_LEN)),
        Kind::XipRam => ram_accepts(s, family).then_some((0, XIP_LEN)),
    }
}

/// Rows 12 to 16, and what they store: the result.
fn settle(t: &mut Transfer, page: &Page, payload: &[u8], lent: &mut Buffers) -> u8 {
    let (family, total, kind) = (page.family, page.total, page.kind);
    let mut discards = 0;
    let before = match *t {
        Transfer::Done { .. } => return 12,
        Transfer::Running {
            family: f,
            total: n,
            count,
            kind: k,
        } if (f, n, k) == (family, total, kind) => {
            if marked(&lent.seen, page.number as usize) {
                return 13;
            }
            Some(count)
        }
        Transfer::Running { .. } => {
            discards = 128;
            None
        }
        Transfer::Idle => None,
    };
    if before.is_none() {
        lent.seen.fill(0);
        lent.sectors.fill(0);
    }
    if let Some(at) = page.at {
        if kind == Kind::Flash {
            let sector = at / SECTOR_LEN;
            if !marked(&lent.sectors, sector) {
                lent.flash[sector * SECTOR_LEN..][..SECTOR_LEN].fill(0xFF);
                mark(&mut lent.sectors, sector);
            }
        }
        lent.of(kind)[at..][..PAYLOAD_LEN].copy_from_slice(payload);
    }
    mark(&mut lent.seen, page.number as usize);
    let count = before.unwrap_or(0) + 1;
    if count < total {
        *t = Transfer::Running {
            family,
            total,
            count,
            kind,
        };
        discards + if page.at.is_some() { 14 } else { 16 }
    } else {
        *t = Transfer::Done {
            family,
            total,
            kind,
        };
        discards + 15
    }
}

pub fn marked(map: &[u8], k: usize) -> bool {
    map[k / 8] & (0x80 >> (k % 8)) != 0
}

pub fn mark(map: &mut [u8], k: usize) {
    map[k / 8] |= 0x80 >> (k % 8);
}
