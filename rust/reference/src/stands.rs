//! Whether a block's page stands in a board's memory already.

use crate::{
    screen, settings_good, Arrival, Kind, Lengths, Settings, Transfer, BAD_BUFFERS, BAD_SETTINGS,
    PAYLOAD_LEN,
};

/// The payload is there; a comment has none that could be missing.
pub const STANDS: u8 = 95;
/// Other bytes are there.
pub const STANDS_NOT: u8 = 96;

/// Rows 1, 2 and 4 to 11 as an Idle board's look answers, or else 95 or 96. No
/// transfer and no map is asked for.
pub fn stands(s: &Settings, arrival: &[u8], flash: &[u8], main: &[u8], xip: &[u8]) -> u8 {
    asked(s, arrival, flash, main, xip).unwrap_or_else(|refusal| refusal)
}

fn asked(s: &Settings, arrival: &[u8], flash: &[u8], main: &[u8], xip: &[u8]) -> Result<u8, u8> {
    let lengths = Lengths {
        flash: flash.len(),
        main: main.len(),
        xip: xip.len(),
    };
    let arrival = <&Arrival>::try_from(arrival).map_err(|_| BAD_BUFFERS)?;
    if !lengths.good() {
        return Err(BAD_BUFFERS);
    }
    if !settings_good(s, flash.len()) {
        return Err(BAD_SETTINGS);
    }
    let screened = screen(s, Transfer::Idle, arrival, lengths)?;
    let Some(offset) = screened.offset else {
        return Ok(STANDS);
    };
    let memory = match screened.kind {
        Kind::Flash => flash,
        Kind::MainRam => main,
        Kind::XipRam => xip,
    };
    let at = screened.place.start + offset;
    let there = &memory[at..at + PAYLOAD_LEN];
    Ok(if there == screened.block.payload() {
        STANDS
    } else {
        STANDS_NOT
    })
}
