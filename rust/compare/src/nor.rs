//! A simulated NOR flash, and a board whose flash is one: every arrival goes through `accept`, and what it plans is held to what a driver may
//! rely on.

use std::collections::HashSet;

use proved::{FlashDriver, Outcome, Plan, Transfer, PAGE_BYTES, SECTOR_BYTES};

use crate::Buffers;

/// A NOR flash: an erase sets every bit of a sector to 1, and programming a page sets bits to 0.
pub struct Nor {
    pub bytes: Vec<u8>,
}

/// Why a NOR flash did nothing.
#[derive(Clone, Copy, PartialEq, Eq, Debug)]
pub enum Refused {
    /// Not at the start of a sector or a page: what is programmed would lie across two of them.
    Unaligned,
    /// Past its end.
    Outside,
    /// A bit would have to go from 0 to 1.
    NotErased,
}

impl Nor {
    /// The bytes from an offset on, a whole number of times their number.
    fn part(&mut self, at: u32, len: usize) -> Result<&mut [u8], Refused> {
        let at = at as usize;
        if !at.is_multiple_of(len) {
            return Err(Refused::Unaligned);
        }
        self.bytes.get_mut(at..at + len).ok_or(Refused::Outside)
    }
}

impl AsRef<[u8]> for Nor {
    fn as_ref(&self) -> &[u8] {
        &self.bytes
    }
}

impl FlashDriver for Nor {
    type Error = Refused;

    fn erase(&mut self, sector: u32) -> Result<(), Refused> {
        self.part(sector, SECTOR_BYTES)?.fill(0xFF);
        Ok(())
    }

    fn program(&mut self, page: u32, bytes: &[u8; PAGE_BYTES]) -> Result<(), Refused> {
        let part = self.part(page, PAGE_BYTES)?;
        if part.iter().zip(bytes).any(|(old, new)| old & new != *new) {
            return Err(Refused::NotErased);
        }
        for (old, new) in part.iter_mut().zip(bytes) {
            *old &= new;
        }
        Ok(())
    }
}

/// A board whose flash is a NOR flash, with what its driver saw of the running transfer.
pub struct Driven {
    pub nor: Nor,
    /// The buffers beside the flash; its own flash is empty.
    beside: Buffers,
    /// Whether the transfer began here: else nothing is known of the sectors that its map marks.
    began: bool,
    /// The sectors and pages that were erased and programmed in it.
    erased: HashSet<u32>,
    programmed: HashSet<u32>,
    /// How often each deed was planned, by its number.
    pub plans: [usize; 3],
}

impl Driven {
    pub fn new(mut beside: Buffers) -> Driven {
        Driven {
            nor: Nor {
                bytes: std::mem::take(&mut beside.flash),
            },
            beside,
            began: false,
            erased: HashSet::new(),
            programmed: HashSet::new(),
            plans: [0; 3],
        }
    }

    /// Whether flash and buffers hold the same.
    pub fn holds(&self, buffers: &Buffers) -> bool {
        let Buffers {
            flash: _,
            seen,
            sectors,
            main,
            xip,
        } = &self.beside;
        self.nor.bytes == buffers.flash
            && (seen, sectors) == (&buffers.seen, &buffers.sectors)
            && (main, xip) == (&buffers.main, &buffers.xip)
    }

    /// An arrival accepted, and its plan performed.
    pub fn take(
        &mut self,
        settings: &proved::Settings,
        transfer: &mut Transfer,
        arrival: &[u8],
    ) -> Outcome {
        let idle = *transfer == Transfer::Idle;
        let (_, mut beside) = self.beside.lend_beside();
        let (outcome, plan) =
            proved::accept(settings, transfer, arrival, &self.nor.bytes, &mut beside);
        if outcome.answer.is_accepted() && (idle || outcome.discarded) {
            self.began = true;
            self.erased.clear();
            self.programmed.clear();
        }
        self.perform(outcome, plan, arrival);
        outcome
    }

    fn perform(&mut self, outcome: Outcome, plan: Plan, arrival: &[u8]) {
        self.plans[usize::from(plan.bytes()[0])] += 1;
        let (sector, page) = match plan {
            Plan::Nothing => return,
            Plan::Program { sector, page } => {
                let erased = self.erased.contains(&sector);
                assert!(erased || !self.began, "a page of a sector not erased");
                (sector, page)
            }
            Plan::EraseProgram { sector, page } => {
                assert!(self.erased.insert(sector), "a sector erased twice");
                self.nor.erase(sector).expect("a sector of the flash");
                (sector, page)
            }
        };
        assert!(stores(outcome), "{outcome:?} plans nothing");
        let size = SECTOR_BYTES as u32;
        assert_eq!(page / size * size, sector, "the sector is the page's");
        let bytes = arrival[32..288].try_into().expect("256 bytes");
        match self.nor.program(page, bytes) {
            Ok(()) => {}
            // two blocks with one address: stored over the first, as a take does, so that the list goes on
            Err(Refused::NotErased) if !self.began || self.programmed.contains(&page) => {
                self.nor.bytes[page as usize..][..PAGE_BYTES].copy_from_slice(bytes);
            }
            Err(refused) => panic!("{refused:?} at {page:x}"),
        }
        self.programmed.insert(page);
    }
}

/// Whether an arrival with this answer can store a page.
fn stores(outcome: Outcome) -> bool {
    use proved::Answer::{Completed, Written};
    matches!(outcome.answer, Written | Completed)
}
