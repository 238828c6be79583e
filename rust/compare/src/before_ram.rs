//! The take of the reference as it stood before RAM windows (L8), line for line: what it answered for a board without RAM is held
//! beside what is answered now. Settings, places and sizes are the reference's, which L8 left as they were.

use reference::{
    place_of, settings_good, Settings, AGAIN, ARRIVAL_LEN, BAD_ADDRESS, BAD_BUFFERS, BAD_NUMBERS,
    BAD_PAYLOAD, BAD_SETTINGS, BAD_STATE, COMPLETED, CONTAINER, FINISHED, MAX_FLASH_LEN, MAX_TOTAL,
    NOTED, NOT_BLOCK, NO_FAMILY, NO_PLACE, PAYLOAD_LEN, SECTORS_LEN, SECTOR_LEN, SEEN_LEN, WINDOW,
    WRITTEN,
};

const MAGIC_FIRST: u32 = 0x0A32_4655;
const MAGIC_SECOND: u32 = 0x9E5D_5157;
const MAGIC_LAST: u32 = 0x0AB1_6F30;

const FLAG_NOT_MAIN_FLASH: u32 = 0x1;
const FLAG_CONTAINER: u32 = 0x1000;
const FLAG_FAMILY: u32 = 0x2000;

/// How far the transfer is; `count` is the number of different blocks accepted.
#[derive(Clone, Copy, PartialEq, Eq, Debug)]
pub enum Transfer {
    Idle,
    Running { family: u32, total: u32, count: u32 },
    Done { family: u32, total: u32 },
}

/// What comes back with each arrival.
#[derive(Clone, Copy, PartialEq, Eq, Debug)]
pub struct Outcome {
    pub transfer: Transfer,
    pub answer: u8,
    pub discarded: bool,
}

/// The fields of an arrival whose three magic numbers are right.
struct Block<'a> {
    flags: u32,
    address: u32,
    size: u32,
    number: u32,
    total: u32,
    family: u32,
    payload: &'a [u8],
}

impl Block<'_> {
    fn is_comment(&self) -> bool {
        self.flags & FLAG_NOT_MAIN_FLASH != 0
    }
}

type Arrival = [u8; ARRIVAL_LEN];

/// What taking an arrival does, for one that no row refuses.
struct Plan<'a> {
    block: Block<'a>,
    /// Where in flash the payload goes; a comment's goes nowhere.
    storage: Option<usize>,
    /// Whether both maps are cleared first.
    clears: bool,
    discarded: bool,
    /// The raised count.
    count: u32,
}

/// Takes one arrival: judges it, with every check that a look makes, and stores
/// its payload if nothing refuses it.
pub fn take(
    s: &Settings,
    t: Transfer,
    arrival: &[u8],
    flash: &mut [u8],
    seen: &mut [u8],
    sectors: &mut [u8],
) -> Outcome {
    match plan(s, t, arrival, flash, seen, sectors) {
        Ok(plan) => {
            plan.carry_out(flash, seen, sectors);
            Outcome {
                transfer: plan.transfer(),
                answer: plan.answer(),
                discarded: plan.discarded,
            }
        }
        Err(answer) => Outcome {
            transfer: t,
            answer,
            discarded: false,
        },
    }
}

/// Rows 1 to 13 in order, as far as they apply: what is to be done, or the
/// refusal.
fn plan<'a>(
    s: &Settings,
    t: Transfer,
    arrival: &'a [u8],
    flash: &[u8],
    seen: &[u8],
    sectors: &[u8],
) -> Result<Plan<'a>, u8> {
    let arrival = <&Arrival>::try_from(arrival).map_err(|_| BAD_BUFFERS)?;
    if !flash_len_good(flash.len()) || seen.len() != SEEN_LEN || sectors.len() != SECTORS_LEN {
        return Err(BAD_BUFFERS);
    }
    if !settings_good(s, flash.len()) {
        return Err(BAD_SETTINGS);
    }
    if !state_good(t) {
        return Err(BAD_STATE);
    }
    let block = read_block(arrival).ok_or(NOT_BLOCK)?;
    check_flags(block.flags)?;
    let (start, len) = place_of(s, flash.len(), block.family).ok_or(NO_PLACE)?;
    let storage = if block.is_comment() {
        check_numbers(&block, len)?;
        None
    } else {
        check_payload(&block)?;
        check_numbers(&block, len)?;
        Some(start + check_address(&block, len)?)
    };
    if matches!(t, Transfer::Done { .. }) {
        return Err(FINISHED);
    }
    let continued = counted(t, block.family, block.total);
    if continued.is_some() && marked(seen, block.number as usize) {
        return Err(AGAIN);
    }
    Ok(Plan {
        block,
        storage,
        clears: continued.is_none(),
        discarded: continued.is_none() && matches!(t, Transfer::Running { .. }),
        count: continued.unwrap_or(0) + 1,
    })
}

impl Plan<'_> {
    fn completes(&self) -> bool {
        self.count >= self.block.total
    }

    fn answer(&self) -> u8 {
        if self.completes() {
            COMPLETED
        } else if self.storage.is_some() {
            WRITTEN
        } else {
            NOTED
        }
    }

    fn transfer(&self) -> Transfer {
        let (family, total) = (self.block.family, self.block.total);
        if self.completes() {
            return Transfer::Done { family, total };
        }
        Transfer::Running {
            family,
            total,
            count: self.count,
        }
    }

    fn carry_out(&self, flash: &mut [u8], seen: &mut [u8], sectors: &mut [u8]) {
        if self.clears {
            seen.fill(0);
            sectors.fill(0);
        }
        if let Some(storage) = self.storage {
            store(self.block.payload, storage, flash, sectors);
        }
        mark(seen, self.block.number as usize);
    }
}

fn flash_len_good(flash_len: usize) -> bool {
    (SECTOR_LEN..=MAX_FLASH_LEN).contains(&flash_len) && flash_len.is_multiple_of(SECTOR_LEN)
}

fn state_good(t: Transfer) -> bool {
    match t {
        Transfer::Idle => true,
        Transfer::Running { total, count, .. } => 1 <= count && count < total && total <= MAX_TOTAL,
        Transfer::Done { total, .. } => (1..=MAX_TOTAL).contains(&total),
    }
}

fn read_block(arrival: &Arrival) -> Option<Block<'_>> {
    let field = |at: usize| {
        u32::from_le_bytes([
            arrival[at],
            arrival[at + 1],
            arrival[at + 2],
            arrival[at + 3],
        ])
    };
    if field(0) != MAGIC_FIRST || field(4) != MAGIC_SECOND || field(508) != MAGIC_LAST {
        return None;
    }
    Some(Block {
        flags: field(8),
        address: field(12),
        size: field(16),
        number: field(20),
        total: field(24),
        family: field(28),
        payload: &arrival[32..32 + PAYLOAD_LEN],
    })
}

/// Rows 5 and 7. A container is one whether or not it is also a comment.
fn check_flags(flags: u32) -> Result<(), u8> {
    if flags & FLAG_CONTAINER != 0 {
        Err(CONTAINER)
    } else if flags & FLAG_FAMILY == 0 {
        Err(NO_FAMILY)
    } else {
        Ok(())
    }
}

/// Row 9, which a comment skips.
fn check_payload(block: &Block) -> Result<(), u8> {
    if block.size as usize == PAYLOAD_LEN {
        Ok(())
    } else {
        Err(BAD_PAYLOAD)
    }
}

/// Row 10, for a place of `len` bytes.
fn check_numbers(block: &Block, len: usize) -> Result<(), u8> {
    // 64 bits, since the product may pass 32.
    let needed = u64::from(block.total) * PAYLOAD_LEN as u64;
    if block.total == 0 || needed > len as u64 || block.number >= block.total {
        return Err(BAD_NUMBERS);
    }
    Ok(())
}

/// Row 11, which a comment skips: the payload's offset in a place of `len`
/// bytes.
fn check_address(block: &Block, len: usize) -> Result<usize, u8> {
    let offset = block.address.checked_sub(WINDOW).ok_or(BAD_ADDRESS)?;
    let size = PAYLOAD_LEN as u64;
    // 64 bits, since the sum may pass 32. WINDOW is itself a multiple of 256,
    // so offset and address agree on that.
    if u64::from(offset) % size != 0 || u64::from(offset) + size > len as u64 {
        return Err(BAD_ADDRESS);
    }
    Ok(offset as usize)
}

/// The count of a transfer that a block of this family and total goes on with.
fn counted(t: Transfer, family: u32, total: u32) -> Option<u32> {
    match t {
        Transfer::Running {
            family: f,
            total: n,
            count,
        } if (f, n) == (family, total) => Some(count),
        _ => None,
    }
}

/// Stores the payload, erasing its sector only the first time it is touched.
fn store(payload: &[u8], storage: usize, flash: &mut [u8], sectors: &mut [u8]) {
    let sector = storage / SECTOR_LEN;
    if !marked(sectors, sector) {
        flash[sector * SECTOR_LEN..(sector + 1) * SECTOR_LEN].fill(0xFF);
        mark(sectors, sector);
    }
    flash[storage..storage + PAYLOAD_LEN].copy_from_slice(payload);
}

/// Bits are counted from the most significant of each byte.
fn marked(map: &[u8], k: usize) -> bool {
    map[k / 8] & (0x80 >> (k % 8)) != 0
}

fn mark(map: &mut [u8], k: usize) {
    map[k / 8] |= 0x80 >> (k % 8);
}
