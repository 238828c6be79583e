//! The update receiver, written from the papers alone so that it can be
//! compared with another implementation: UF2 arrivals here, lines of Universal
//! Hex in [`hex`]. Around them stand files to be made ([`make`], [`join`]) or
//! checked before they are sent ([`check`]), the tags of a block ([`tags`]),
//! stored settings ([`store`]), the reasons of answers ([`why`]), and whether a
//! page stands already ([`stands`]).
//!
//! Each arrival gets one of the answers of document 01 and of the requests in
//! 02. Every function is total: no input makes it panic, and a refusal leaves
//! what was lent as is.

pub mod check;
pub mod figures;
pub mod hex;
pub mod join;
pub mod make;
pub mod md5;
pub mod parts;
mod place;
pub mod replay;
pub mod stands;
pub mod store;
pub mod tags;
pub mod why;

#[cfg(test)]
mod tests;

use std::ops::Range;

pub use place::{
    ask_place, place_of, ram_accepts, settings_good, Arch, Entry, Link, Settings, ABSOLUTE, ARM_NS,
    ARM_S, DATA, MAX_ENTRIES, MAX_USERS, RISCV, RP2040,
};

pub const ARRIVAL_LEN: usize = 512;
pub const PAYLOAD_LEN: usize = 256;
pub const SECTOR_LEN: usize = 4096;
pub const MAX_FLASH_LEN: usize = 33_554_432;
pub const SEEN_LEN: usize = 16_384;
pub const SECTORS_LEN: usize = 1024;
/// The largest total: the payloads that fill the largest flash.
pub const MAX_TOTAL: u32 = 131_072;
/// The block address that means the start of the place; the window is as long
/// as the largest flash.
pub const WINDOW: u32 = 0x1000_0000;
/// The RAM windows, each with the length of its buffer.
pub const MAIN_WINDOW: u32 = 0x2000_0000;
pub const MAIN_LEN: usize = 532_480;
pub const XIP_WINDOW: u32 = 0x13ff_c000;
pub const XIP_LEN: usize = 16_384;

pub const BAD_BUFFERS: u8 = 1;
pub const BAD_SETTINGS: u8 = 2;
pub const BAD_STATE: u8 = 3;
pub const NOT_BLOCK: u8 = 4;
pub const CONTAINER: u8 = 5;
pub const NO_FAMILY: u8 = 7;
pub const NO_PLACE: u8 = 8;
pub const BAD_PAYLOAD: u8 = 9;
pub const BAD_NUMBERS: u8 = 10;
pub const BAD_ADDRESS: u8 = 11;
pub const FINISHED: u8 = 12;
pub const AGAIN: u8 = 13;
pub const WRITTEN: u8 = 14;
pub const COMPLETED: u8 = 15;
pub const NOTED: u8 = 16;
pub const KEPT: u8 = 17;

const MAGIC_FIRST: u32 = 0x0A32_4655;
const MAGIC_SECOND: u32 = 0x9E5D_5157;
const MAGIC_LAST: u32 = 0x0AB1_6F30;

const FLAG_NOT_MAIN_FLASH: u32 = 0x1;
const FLAG_CONTAINER: u32 = 0x1000;
const FLAG_FAMILY: u32 = 0x2000;
const FLAG_MD5: u32 = 0x4000;

/// Where a block's data lies, and in the data the region with its digest.
const DATA_AT: Range<usize> = 32..508;
const REGION_AT: Range<usize> = 452..476;

/// What a transfer goes to.
#[derive(Clone, Copy, PartialEq, Eq, Debug)]
pub enum Kind {
    Flash,
    MainRam,
    XipRam,
}

/// How far the transfer is; `count` is the number of different blocks accepted.
#[derive(Clone, Copy, PartialEq, Eq, Debug)]
pub enum Transfer {
    Idle,
    Running {
        family: u32,
        total: u32,
        count: u32,
        kind: Kind,
    },
    Done {
        family: u32,
        total: u32,
        kind: Kind,
    },
}

/// What comes back with each arrival.
#[derive(Clone, Copy, PartialEq, Eq, Debug)]
pub struct Outcome {
    pub transfer: Transfer,
    pub answer: u8,
    pub discarded: bool,
}

/// The fields of an arrival whose three magic numbers are right.
struct Block<'a> {
    flags: u32,
    address: u32,
    size: u32,
    number: u32,
    total: u32,
    family: u32,
    data: &'a [u8],
}

/// The region of flash that a block names, with the digest that makes storing
/// the block needless.
struct Region<'a> {
    start: u32,
    len: u32,
    digest: &'a [u8],
}

impl Block<'_> {
    fn is_comment(&self) -> bool {
        self.flags & FLAG_NOT_MAIN_FLASH != 0
    }

    fn payload(&self) -> &[u8] {
        &self.data[..PAYLOAD_LEN]
    }

    fn region(&self) -> Option<Region<'_>> {
        if self.flags & FLAG_MD5 == 0 {
            return None;
        }
        let bytes = &self.data[REGION_AT];
        Some(Region {
            start: field(bytes, 0),
            len: field(bytes, 4),
            digest: &bytes[8..],
        })
    }
}

type Arrival = [u8; ARRIVAL_LEN];

/// All that the caller lends, to be read.
#[derive(Clone, Copy)]
struct Lent<'a> {
    flash: &'a [u8],
    seen: &'a [u8],
    sectors: &'a [u8],
    main: &'a [u8],
    xip: &'a [u8],
}

/// How long the memories are that a board stores in; a RAM that it lacks has
/// length 0.
#[derive(Clone, Copy)]
struct Lengths {
    flash: usize,
    main: usize,
    xip: usize,
}

/// A block that rows 4 to 11 let pass.
struct Screened<'a> {
    block: Block<'a>,
    kind: Kind,
    place: Place,
    /// Where a page goes in its place; a comment goes nowhere.
    offset: Option<usize>,
}

/// What becomes of a block's payload.
enum Effect {
    /// A comment has none to store.
    Note,
    /// It goes there in the kind's buffer.
    Store(usize),
    /// It is in flash already.
    Keep,
}

/// What taking an arrival does, for one that no row refuses.
struct Plan<'a> {
    block: Block<'a>,
    kind: Kind,
    effect: Effect,
    /// Whether both maps are cleared first.
    clears: bool,
    discarded: bool,
    /// The raised count.
    count: u32,
}

/// Says what taking the arrival would answer and whether it would discard, and
/// changes nothing.
#[allow(clippy::too_many_arguments)]
pub fn look(
    s: &Settings,
    t: Transfer,
    arrival: &[u8],
    flash: &[u8],
    seen: &[u8],
    sectors: &[u8],
    main: &[u8],
    xip: &[u8],
) -> (u8, bool) {
    let lent = Lent {
        flash,
        seen,
        sectors,
        main,
        xip,
    };
    match plan(s, t, arrival, lent) {
        Ok(plan) => (plan.answer(), plan.discarded),
        Err(answer) => (answer, false),
    }
}

/// Takes one arrival: judges it, with every check that a look makes, and stores
/// its payload if nothing refuses it. A RAM buffer is empty where the board
/// lacks it.
#[allow(clippy::too_many_arguments)]
pub fn take(
    s: &Settings,
    t: Transfer,
    arrival: &[u8],
    flash: &mut [u8],
    seen: &mut [u8],
    sectors: &mut [u8],
    main: &mut [u8],
    xip: &mut [u8],
) -> Outcome {
    let lent = Lent {
        flash,
        seen,
        sectors,
        main,
        xip,
    };
    match plan(s, t, arrival, lent) {
        Ok(plan) => {
            plan.carry_out(flash, seen, sectors, main, xip);
            Outcome {
                transfer: plan.transfer(),
                answer: plan.answer(),
                discarded: plan.discarded,
            }
        }
        Err(answer) => Outcome {
            transfer: t,
            answer,
            discarded: false,
        },
    }
}

/// Rows 1 to 13 in order, as far as they apply: what is to be done, or the
/// refusal.
fn plan<'a>(s: &Settings, t: Transfer, arrival: &'a [u8], lent: Lent) -> Result<Plan<'a>, u8> {
    let arrival = <&Arrival>::try_from(arrival).map_err(|_| BAD_BUFFERS)?;
    if !lent.lengths_good() {
        return Err(BAD_BUFFERS);
    }
    if !settings_good(s, lent.flash.len()) {
        return Err(BAD_SETTINGS);
    }
    // Row 3 asks nothing of the kind: its limit of 131,072 stands for RAM too,
    // though no RAM window has room for as many.
    if !state_good(t) {
        return Err(BAD_STATE);
    }
    let Screened {
        block,
        kind,
        place,
        offset,
    } = screen(s, t, arrival, lent.lengths())?;
    if matches!(t, Transfer::Done { .. }) {
        return Err(FINISHED);
    }
    let continued = counted(t, block.family, block.total, kind);
    if continued.is_some() && marked(lent.seen, block.number as usize) {
        return Err(AGAIN);
    }
    // The block would be 14 or 15 now, or 16.
    let effect = match offset {
        None => Effect::Note,
        Some(offset) if kind == Kind::Flash && is_kept(&block, place, offset, lent.flash) => {
            Effect::Keep
        }
        Some(offset) => Effect::Store(place.start + offset),
    };
    Ok(Plan {
        block,
        kind,
        effect,
        clears: continued.is_none(),
        discarded: continued.is_none() && matches!(t, Transfer::Running { .. }),
        count: continued.unwrap_or(0) + 1,
    })
}

/// Rows 4 to 11 in order, as far as they apply.
fn screen<'a>(
    s: &Settings,
    t: Transfer,
    arrival: &'a Arrival,
    lengths: Lengths,
) -> Result<Screened<'a>, u8> {
    let block = read_block(arrival).ok_or(NOT_BLOCK)?;
    check_flags(block.flags)?;
    let (kind, place, offset) = if block.is_comment() {
        let kind = comment_kind(&block, t, lengths);
        let place = place_in(kind, s, block.family, lengths)?;
        check_numbers(&block, place)?;
        (kind, place, None)
    } else if let Some(kind) = kind_at(block.address, lengths) {
        let place = place_in(kind, s, block.family, lengths)?;
        check_payload(&block)?;
        check_numbers(&block, place)?;
        (kind, place, Some(check_address(&block, kind, place)?))
    } else {
        // "For an address in no window check 8 is flash's, and 11 comes before
        // 10": 9 keeps its place after 8, and nothing gets past 11.
        place_in(Kind::Flash, s, block.family, lengths)?;
        check_payload(&block)?;
        return Err(BAD_ADDRESS);
    };
    Ok(Screened {
        block,
        kind,
        place,
        offset,
    })
}

impl Lent<'_> {
    fn lengths(self) -> Lengths {
        Lengths {
            flash: self.flash.len(),
            main: self.main.len(),
            xip: self.xip.len(),
        }
    }

    fn lengths_good(self) -> bool {
        self.lengths().good() && self.seen.len() == SEEN_LEN && self.sectors.len() == SECTORS_LEN
    }
}

impl Lengths {
    /// A RAM has its window's length, or none.
    fn good(self) -> bool {
        flash_len_good(self.flash)
            && matches!(self.main, 0 | MAIN_LEN)
            && matches!(self.xip, 0 | XIP_LEN)
    }

    /// Whether the kind's memory is there at all; flash always is.
    fn has(self, kind: Kind) -> bool {
        match kind {
            Kind::Flash => true,
            Kind::MainRam => self.main != 0,
            Kind::XipRam => self.xip != 0,
        }
    }
}

impl Plan<'_> {
    fn completes(&self) -> bool {
        self.count >= self.block.total
    }

    fn answer(&self) -> u8 {
        match self.effect {
            _ if self.completes() => COMPLETED,
            Effect::Store(_) => WRITTEN,
            Effect::Note => NOTED,
            Effect::Keep => KEPT,
        }
    }

    fn transfer(&self) -> Transfer {
        let (family, total, kind) = (self.block.family, self.block.total, self.kind);
        if self.completes() {
            return Transfer::Done {
                family,
                total,
                kind,
            };
        }
        Transfer::Running {
            family,
            total,
            count: self.count,
            kind,
        }
    }

    fn carry_out(
        &self,
        flash: &mut [u8],
        seen: &mut [u8],
        sectors: &mut [u8],
        main: &mut [u8],
        xip: &mut [u8],
    ) {
        if self.clears {
            seen.fill(0);
            sectors.fill(0);
        }
        if let Effect::Store(at) = self.effect {
            let buffer = match self.kind {
                Kind::Flash => {
                    erase(at / SECTOR_LEN, flash, sectors);
                    flash
                }
                Kind::MainRam => main,
                Kind::XipRam => xip,
            };
            buffer[at..at + PAYLOAD_LEN].copy_from_slice(self.block.payload());
        }
        mark(seen, self.block.number as usize);
    }
}

fn flash_len_good(flash_len: usize) -> bool {
    (SECTOR_LEN..=MAX_FLASH_LEN).contains(&flash_len) && flash_len.is_multiple_of(SECTOR_LEN)
}

fn state_good(t: Transfer) -> bool {
    match t {
        Transfer::Idle => true,
        Transfer::Running { total, count, .. } => 1 <= count && count < total && total <= MAX_TOTAL,
        Transfer::Done { total, .. } => (1..=MAX_TOTAL).contains(&total),
    }
}

fn read_block(arrival: &Arrival) -> Option<Block<'_>> {
    let field = |at| field(arrival, at);
    if field(0) != MAGIC_FIRST || field(4) != MAGIC_SECOND || field(508) != MAGIC_LAST {
        return None;
    }
    Some(Block {
        flags: field(8),
        address: field(12),
        size: field(16),
        number: field(20),
        total: field(24),
        family: field(28),
        data: &arrival[DATA_AT],
    })
}

/// The little-endian field at that offset.
fn field(bytes: &[u8], at: usize) -> u32 {
    u32::from_le_bytes([bytes[at], bytes[at + 1], bytes[at + 2], bytes[at + 3]])
}

/// Rows 5 and 7. A container is one whether or not it is also a comment.
fn check_flags(flags: u32) -> Result<(), u8> {
    if flags & FLAG_CONTAINER != 0 {
        Err(CONTAINER)
    } else if flags & FLAG_FAMILY == 0 {
        Err(NO_FAMILY)
    } else {
        Ok(())
    }
}

/// The kind of a data block, unless its address is in no window. A RAM window
/// is one only where its buffer is lent.
fn kind_at(address: u32, lengths: Lengths) -> Option<Kind> {
    let kinds = [Kind::Flash, Kind::MainRam, Kind::XipRam];
    kinds.into_iter().find(|&kind| {
        let (start, len) = window_of(kind);
        let offset = address.checked_sub(start);
        lengths.has(kind) && offset.is_some_and(|offset| (offset as usize) < len)
    })
}

/// Start and length of the kind's window.
fn window_of(kind: Kind) -> (u32, usize) {
    match kind {
        Kind::Flash => (WINDOW, MAX_FLASH_LEN),
        Kind::MainRam => (MAIN_WINDOW, MAIN_LEN),
        Kind::XipRam => (XIP_WINDOW, XIP_LEN),
    }
}

/// "A comment with the running transfer's family and total takes its kind,
/// unless that kind's buffer is empty; any other is flash", that of a Done
/// transfer too.
fn comment_kind(block: &Block, t: Transfer, lengths: Lengths) -> Kind {
    match t {
        Transfer::Running {
            family,
            total,
            kind,
            ..
        } if (family, total) == (block.family, block.total) && lengths.has(kind) => kind,
        _ => Kind::Flash,
    }
}

/// The family's part of the kind's buffer; in RAM it is the whole.
#[derive(Clone, Copy)]
struct Place {
    start: usize,
    len: usize,
}

/// Row 8.
fn place_in(kind: Kind, s: &Settings, family: u32, lengths: Lengths) -> Result<Place, u8> {
    let place = match kind {
        Kind::Flash => place_of(s, lengths.flash, family),
        Kind::MainRam | Kind::XipRam => ram_accepts(s, family).then(|| (0, window_of(kind).1)),
    };
    let (start, len) = place.ok_or(NO_PLACE)?;
    Ok(Place { start, len })
}

/// Row 9, which a comment skips.
fn check_payload(block: &Block) -> Result<(), u8> {
    if block.size as usize == PAYLOAD_LEN {
        Ok(())
    } else {
        Err(BAD_PAYLOAD)
    }
}

/// Row 10.
fn check_numbers(block: &Block, place: Place) -> Result<(), u8> {
    // 64 bits, since the product may pass 32.
    let needed = u64::from(block.total) * PAYLOAD_LEN as u64;
    if block.total == 0 || needed > place.len as u64 || block.number >= block.total {
        return Err(BAD_NUMBERS);
    }
    Ok(())
}

/// Row 11, which a comment skips, for an address in the kind's window: the
/// payload's offset in the place.
fn check_address(block: &Block, kind: Kind, place: Place) -> Result<usize, u8> {
    let (start, _) = window_of(kind);
    let offset = block.address.checked_sub(start).ok_or(BAD_ADDRESS)? as usize;
    // WINDOW is itself a multiple of 256, so offset and address agree on that.
    // RAM goes by byte address.
    let aligned = kind != Kind::Flash || offset.is_multiple_of(PAYLOAD_LEN);
    // An offset in a window is far from where the sum would wrap.
    if !aligned || offset + PAYLOAD_LEN > place.len {
        return Err(BAD_ADDRESS);
    }
    Ok(offset)
}

/// The count of a transfer that a block of this family, total and kind goes on
/// with.
fn counted(t: Transfer, family: u32, total: u32, kind: Kind) -> Option<u32> {
    match t {
        Transfer::Running {
            family: f,
            total: n,
            count,
            kind: k,
        } if (f, n, k) == (family, total, kind) => Some(count),
        _ => None,
    }
}

/// Whether flash has what the block's region says, for a data block with that
/// offset in its place.
fn is_kept(block: &Block, place: Place, offset: usize, flash: &[u8]) -> bool {
    let Some(region) = block.region() else {
        return false;
    };
    region_counts(&region, place, offset)
        .is_some_and(|range| md5::md5(&flash[range]) == region.digest)
}

/// Where in flash the region lies, if it counts for a data block with that
/// offset in its place: it has to be whole sectors, not empty, within the place
/// and around the block.
fn region_counts(region: &Region, place: Place, offset: usize) -> Option<Range<usize>> {
    // Like a block's address, the region's start counts from the window's. A
    // place begins with a sector, so that sectors of the one are sectors of
    // the other.
    let start = region.start.checked_sub(WINDOW)? as usize;
    let len = region.len as usize;
    let whole = start.is_multiple_of(SECTOR_LEN) && len.is_multiple_of(SECTOR_LEN);
    let end = start.checked_add(len).filter(|&end| end <= place.len)?;
    // A region around the block isn't empty.
    let around = start <= offset && offset + PAYLOAD_LEN <= end;
    (whole && around).then_some(place.start + start..place.start + end)
}

/// Erases the sector the first time that it is touched.
fn erase(sector: usize, flash: &mut [u8], sectors: &mut [u8]) {
    if !marked(sectors, sector) {
        flash[sector * SECTOR_LEN..(sector + 1) * SECTOR_LEN].fill(0xFF);
        mark(sectors, sector);
    }
}

/// Bits are counted from the most significant of each byte.
fn marked(map: &[u8], k: usize) -> bool {
    map[k / 8] & (0x80 >> (k % 8)) != 0
}

fn mark(map: &mut [u8], k: usize) {
    map[k / 8] |= 0x80 >> (k % 8);
}
