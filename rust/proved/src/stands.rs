//! Whether what an arrival holds stands in the memory (include/uf2_stands.h).

use crate::{bytes, unknown, Answer, Settings};

/// The memory that is asked; it is only read, and no transfer or map is lent. A RAM that the board lacks is empty.
#[derive(Clone, Copy)]
pub struct Memory<'a> {
    /// The flash: whole sectors, at most [`FLASH_MAX_BYTES`](crate::FLASH_MAX_BYTES).
    pub flash: &'a [u8],
    /// The main RAM, [`MAIN_RAM_BYTES`](crate::MAIN_RAM_BYTES) long or empty.
    pub main: &'a [u8],
    /// The XIP RAM, [`XIP_RAM_BYTES`](crate::XIP_RAM_BYTES) long or empty.
    pub xip: &'a [u8],
}

/// What is told of a block that is not refused.
#[derive(Clone, Copy, PartialEq, Eq, Debug)]
#[repr(u8)]
pub enum Stand {
    /// Its payload stands where its address says; a comment, which is not stored, always does.
    Stands = 95,
    /// At least one byte of its payload does not.
    Differs = 96,
}

/// Whether what an arrival holds stands in the memory, or the refusal that [`look`](crate::look) has for it with a fresh transfer:
/// `BadBuffers`, `BadSettings`, or one of `NotBlock` to `BadAddress`. It changes nothing.
///
/// # Panics
///
/// Where the library returns a number that is none of these (see the crate's page).
pub fn stands(settings: &Settings, arrival: &[u8], memory: &Memory) -> Result<Stand, Answer> {
    let number = bytes::stands(&settings.bytes(), arrival, memory);
    match number {
        95 => Ok(Stand::Stands),
        96 => Ok(Stand::Differs),
        _ => Err(Answer::from_number(number).unwrap_or_else(|| unknown(number))),
    }
}
