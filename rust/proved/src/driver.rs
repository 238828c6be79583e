//! Flash that is written by a driver: what is left to do to it, and an arrival taken through the driver.

use crate::{bytes, unknown, Outcome, Settings, Transfer};

/// The bytes of a plan, as the C interface has them: the deed's number, and where its sector and its page begin, 32 bits each, the lowest byte
/// first.
pub const PLAN_BYTES: usize = 12;
/// The bytes of a page: the payload of a block.
pub const PAGE_BYTES: usize = 256;
/// Where the payload begins in an arrival.
pub const PAYLOAD_AT: usize = 32;

/// What is left to do to the flash. Sector and page are offsets in it, in bytes.
///
/// A plan lies in the place of its block's family: `page` is a multiple of [`PAGE_BYTES`], and the page lies in the
/// [`SECTOR_BYTES`](crate::SECTOR_BYTES) from `sector` on, which is a multiple of them. From a fresh transfer on, a sector is planned to be erased at most once in a transfer, and with
/// the first page that goes into it.
#[derive(Clone, Copy, PartialEq, Eq, Debug)]
pub enum Plan {
    /// Nothing: a refusal, a comment, a kept block, or one for RAM, which is stored already.
    Nothing,
    /// The page gets the arrival's payload.
    Program {
        /// The sector of the page, which was erased in this transfer.
        sector: u32,
        /// The page.
        page: u32,
    },
    /// The sector is erased, then the page gets the arrival's payload.
    EraseProgram {
        /// The sector of the page.
        sector: u32,
        /// The page.
        page: u32,
    },
}

impl Plan {
    /// The bytes of the plan, as the C interface has them.
    pub fn bytes(self) -> [u8; PLAN_BYTES] {
        let words: [u32; 3] = match self {
            Plan::Nothing => [0, 0, 0],
            Plan::Program { sector, page } => [1, sector, page],
            Plan::EraseProgram { sector, page } => [2, sector, page],
        };
        let mut bytes = [0; PLAN_BYTES];
        for (part, word) in bytes.chunks_exact_mut(4).zip(words) {
            part.copy_from_slice(&word.to_le_bytes());
        }
        bytes
    }

    /// The plan that bytes are; none where they are no plan.
    pub fn from_bytes(bytes: &[u8; PLAN_BYTES]) -> Option<Plan> {
        let [a, b, c, d, e, f, g, h, i, j, k, l] = *bytes;
        let sector = u32::from_le_bytes([e, f, g, h]);
        let page = u32::from_le_bytes([i, j, k, l]);
        match u32::from_le_bytes([a, b, c, d]) {
            0 => Some(Plan::Nothing),
            1 => Some(Plan::Program { sector, page }),
            2 => Some(Plan::EraseProgram { sector, page }),
            _ => None,
        }
    }
}

/// The buffers that are lent beside the flash with each arrival; nobody else writes them between the arrivals of a transfer. A RAM that the
/// board lacks is empty.
pub struct Beside<'a> {
    /// The seen map, [`SEEN_MAP_BYTES`](crate::SEEN_MAP_BYTES) long.
    pub seen: &'a mut [u8],
    /// The sector map, [`SECTOR_MAP_BYTES`](crate::SECTOR_MAP_BYTES) long.
    pub sectors: &'a mut [u8],
    /// The main RAM, [`MAIN_RAM_BYTES`](crate::MAIN_RAM_BYTES) long or empty.
    pub main: &'a mut [u8],
    /// The XIP RAM, [`XIP_RAM_BYTES`](crate::XIP_RAM_BYTES) long or empty.
    pub xip: &'a mut [u8],
}

/// Flash that is written by a driver. `as_ref` is the flash as it can be read, all of it: whole sectors, at most
/// [`FLASH_MAX_BYTES`](crate::FLASH_MAX_BYTES).
pub trait FlashDriver: AsRef<[u8]> {
    /// Why the driver did not do what it was told.
    type Error;

    /// Erases the [`SECTOR_BYTES`](crate::SECTOR_BYTES) from this offset on: each becomes 0xFF.
    ///
    /// # Errors
    ///
    /// Where it did not.
    fn erase(&mut self, sector: u32) -> Result<(), Self::Error>;

    /// Programs a page from this offset on: it then has these bytes.
    ///
    /// # Errors
    ///
    /// Where it has not, so also where the page holds something that these bytes cannot be programmed over.
    fn program(&mut self, page: u32, bytes: &[u8; PAGE_BYTES]) -> Result<(), Self::Error>;
}

/// An arrival accepted, with the flash left to whoever calls: what [`take`](crate::take) would say of it, and what is left to do to the
/// flash. It makes every check of a take, and leaves transfer, maps and RAM as the take does; the plan performed on the flash gives the
/// take's flash. Perform it before the next call; where that fails, the transfer has to be dropped, as [`take_through`] does.
///
/// # Panics
///
/// Where the library returns a number that is none of the answers, or bytes that are no plan (see the crate's page).
pub fn accept(
    settings: &Settings,
    transfer: &mut Transfer,
    arrival: &[u8],
    flash: &[u8],
    beside: &mut Beside,
) -> (Outcome, Plan) {
    let mut state = transfer.bytes();
    let mut plan = [0; PLAN_BYTES];
    let result = bytes::accept(
        &settings.bytes(),
        &mut state,
        arrival,
        flash,
        beside,
        &mut plan,
    );
    *transfer = Transfer::handed_back(&state);
    let outcome = Outcome::from_result(result).unwrap_or_else(|| unknown(result));
    let plan = Plan::from_bytes(&plan).unwrap_or_else(|| unknown(plan[0].into()));
    (outcome, plan)
}

/// An arrival taken through a driver: accepted, and its plan performed.
///
/// A page is planned once where no two blocks of a file name the same address. Where two do, the second is planned too, as a take stores it;
/// a flash that cannot program it over the first hands back an error.
///
/// # Errors
///
/// The driver's own. The transfer is then dropped: a fresh one stands in its place, and the file has to be sent again from its start. For
/// transfer and maps say already that the page is there and that its sector was erased, so that a transfer which went on would answer
/// `Again` to the same block, and end as `Completed` with a page that is not in the flash. A fresh transfer clears both maps with its first
/// block, and each sector is erased anew.
///
/// # Panics
///
/// As [`accept`] does.
pub fn take_through<D: FlashDriver>(
    settings: &Settings,
    transfer: &mut Transfer,
    arrival: &[u8],
    driver: &mut D,
    beside: &mut Beside,
) -> Result<Outcome, D::Error> {
    let (outcome, plan) = accept(settings, transfer, arrival, driver.as_ref(), beside);
    match perform(plan, arrival, driver) {
        Ok(()) => Ok(outcome),
        Err(error) => {
            *transfer = Transfer::new();
            Err(error)
        }
    }
}

/// What is planned for the flash, done by the driver.
fn perform<D: FlashDriver>(plan: Plan, arrival: &[u8], driver: &mut D) -> Result<(), D::Error> {
    let page = match plan {
        Plan::Nothing => return Ok(()),
        Plan::Program { page, .. } => page,
        Plan::EraseProgram { sector, page } => {
            driver.erase(sector)?;
            page
        }
    };
    // something is planned only of an arrival of 512 bytes
    let payload = arrival[PAYLOAD_AT..].first_chunk();
    driver.program(page, payload.expect("an arrival has a payload"))
}
