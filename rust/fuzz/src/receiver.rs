//! The calls of uf2_receiver.h for arrivals, and uf2_why, uf2_why_place and uf2_stands.

use reference::why::{why_of_bytes, why_place_of_bytes, Why};
use reference::{Outcome, Transfer};

use crate::arrivals::{self, BLOCK};
use crate::board::{self, bytes_of_transfer, settings_of, transfer_of, word_at, Buffers};
use crate::calls;
use crate::fence::Fence;
use crate::input::Input;

const PLAN: usize = 12;
const REASON: usize = 38;

/// What is lent, kept from one input to the next.
pub struct Desk {
    pub buffers: Buffers,
    pub settings: Fence,
    pub transfer: Fence,
    pub sent: Fence,
    pub small: Fence,
    /// Of a file's check.
    pub maps: [Fence; 3],
    pub image: Fence,
    pub text: [Fence; 3],
}

impl Default for Desk {
    fn default() -> Desk {
        Desk {
            buffers: Buffers::new(),
            settings: Fence::new(2 * board::SETTINGS),
            transfer: Fence::new(64),
            sent: Fence::new(128 * (BLOCK + 1)),
            small: Fence::new(8192),
            maps: [0; 3].map(|_| Fence::new(32_768)),
            image: Fence::new(crate::hex::MOST_IMAGE),
            text: [0; 3].map(|_| Fence::new(crate::hex::MOST_TEXT)),
        }
    }
}

/// A board and what is sent to it, as bytes.
pub struct Sent {
    pub settings: Vec<u8>,
    pub transfer: Vec<u8>,
    pub arrivals: Vec<u8>,
}

/// An input that begins with the byte 0 is a file as it is, sent to a plain board: so the stored inputs of tests/ are. Any other says all of it.
pub fn sent(desk: &mut Desk, input: &mut Input, most: usize) -> Sent {
    if input.byte() == 0 {
        desk.buffers.set_plain();
        return Sent {
            settings: board::plain_settings(),
            transfer: vec![0; board::TRANSFER],
            arrivals: input.some(most * BLOCK).to_vec(),
        };
    }
    let settings = board::settings(input);
    let transfer = board::transfer(input);
    desk.buffers.set(input);
    let flash = &desk.buffers.theirs[0];
    let arrivals = arrivals::list(input, flash, most);
    Sent {
        settings,
        transfer,
        arrivals,
    }
}

/// What is sent one by one: pieces of a block, the last as short as it is; or now and then all as one, which is too long.
fn pieces(arrivals: &[u8]) -> Vec<&[u8]> {
    if arrivals.is_empty() || arrivals.len() % BLOCK == 64 {
        return vec![arrivals];
    }
    arrivals.chunks(BLOCK).collect()
}

pub fn result(answer: u8, discarded: bool) -> u32 {
    u32::from(answer) + if discarded { 128 } else { 0 }
}

impl Sent {
    fn state(&self) -> Transfer {
        transfer_of(&self.transfer).unwrap_or(board::NO_TRANSFER)
    }

    /// A take of the reference: its result, with the transfer's bytes moved on where it was accepted.
    pub fn taken(&mut self, buffers: &mut Buffers, arrival: &[u8]) -> u32 {
        let settings = settings_of(&self.settings);
        let [flash, seen, sectors, main, xip] = &mut buffers.theirs;
        let outcome = reference::take(
            &settings,
            self.state(),
            arrival,
            flash,
            seen,
            sectors,
            main,
            xip,
        );
        let Outcome {
            transfer,
            answer,
            discarded,
        } = outcome;
        if answer >= 14 {
            self.transfer = bytes_of_transfer(transfer).to_vec();
        }
        result(answer, discarded)
    }

    /// A look of the reference.
    fn looked(&self, buffers: &Buffers, arrival: &[u8]) -> u32 {
        let settings = settings_of(&self.settings);
        let [flash, seen, sectors, main, xip] = &buffers.theirs;
        let state = self.state();
        let (answer, discarded) =
            reference::look(&settings, state, arrival, flash, seen, sectors, main, xip);
        result(answer, discarded)
    }
}

pub fn new(desk: &mut Desk, input: &mut Input) {
    let (length, byte) = (usize::from(input.byte() % 32), input.byte());
    let transfer = desk.transfer.fill(length, byte);
    calls::uf2_new(transfer);
    let fresh = length == board::TRANSFER;
    desk.transfer
        .holds(&vec![if fresh { 0 } else { byte }; length], "transfer");
}

pub fn ask(desk: &mut Desk, input: &mut Input) {
    let bytes = board::settings(input);
    let (flash_len, family) = (input.flash_len(), input.family());
    let place_len = input.length(8, 64);
    let wanted = if place_len == 8 {
        reference::ask_place(&settings_of(&bytes), flash_len as usize, family)
    } else {
        Err(1)
    };
    let settings = desk.settings.copy(&bytes);
    let place = desk.small.fill(place_len, 0x77);
    let got = calls::uf2_ask(settings, flash_len, family, place);
    assert_eq!(got, wanted.err().unwrap_or(0).into(), "answer");
    let mut told = vec![0x77; place_len];
    if let Ok((start, len)) = wanted {
        board::put(&mut told, 0, start as u32);
        board::put(&mut told, 4, len as u32);
    }
    desk.small.holds(&told, "place");
    desk.settings.holds(&bytes, "settings");
}

/// A look at each arrival; nothing is taken, so that each is the first. Buffers stay.
pub fn look(desk: &mut Desk, input: &mut Input) {
    let sent = sent(desk, input, 4);
    for arrival in pieces(&sent.arrivals) {
        let wanted = sent.looked(&desk.buffers, arrival);
        let [flash, seen, sectors, main, xip] = &mut desk.buffers.ours;
        let got = calls::uf2_look(
            desk.settings.copy(&sent.settings),
            desk.transfer.copy(&sent.transfer),
            desk.sent.copy(arrival),
            flash.bytes(),
            seen.bytes(),
            sectors.bytes(),
            main.bytes(),
            xip.bytes(),
        );
        assert_eq!(got, wanted, "result");
        desk.transfer.holds(&sent.transfer, "transfer");
    }
    desk.buffers.agree_at_the_end(&sent.arrivals, BLOCK);
}

pub fn take(desk: &mut Desk, input: &mut Input) {
    let mut sent = sent(desk, input, 8);
    let arrivals = sent.arrivals.clone();
    for arrival in pieces(&arrivals) {
        let settings = desk.settings.copy(&sent.settings);
        let transfer = desk.transfer.copy(&sent.transfer);
        let [flash, seen, sectors, main, xip] = &mut desk.buffers.ours;
        let got = calls::uf2_take(
            settings,
            transfer,
            desk.sent.copy(arrival),
            flash.bytes(),
            seen.bytes(),
            sectors.bytes(),
            main.bytes(),
            xip.bytes(),
        );
        let wanted = sent.taken(&mut desk.buffers, arrival);
        assert_eq!(got, wanted, "result");
        desk.transfer.holds(&sent.transfer, "transfer");
        desk.buffers.agree();
    }
    desk.settings.holds(&sent.settings, "settings");
    desk.buffers.agree_at_the_end(&arrivals, BLOCK);
}

pub fn accept(desk: &mut Desk, input: &mut Input) {
    let plan_len = input.length(PLAN, 64);
    let mut sent = sent(desk, input, 8);
    let arrivals = sent.arrivals.clone();
    for arrival in pieces(&arrivals) {
        let settings = desk.settings.copy(&sent.settings);
        let transfer = desk.transfer.copy(&sent.transfer);
        let plan = desk.small.fill(plan_len, 0x55);
        let [flash, seen, sectors, main, xip] = &mut desk.buffers.ours;
        let got = calls::uf2_accept(
            settings,
            transfer,
            desk.sent.copy(arrival),
            flash.bytes(),
            seen.bytes(),
            sectors.bytes(),
            main.bytes(),
            xip.bytes(),
            plan,
        );
        if plan_len != PLAN {
            assert_eq!(got, 1, "the plan's length");
            desk.small.holds(&vec![0x55; plan_len], "plan");
        } else {
            let wanted = sent.taken(&mut desk.buffers, arrival);
            assert_eq!(got, wanted, "result");
            let plan = [0, 4, 8].map(|at| word_at(desk.small.bytes(), at));
            perform(plan, got & 127, arrival, desk.buffers.ours[0].bytes());
        }
        desk.transfer.holds(&sent.transfer, "transfer");
        desk.buffers.agree();
    }
    desk.buffers.agree_at_the_end(&arrivals, BLOCK);
}

/// Does to the flash what is planned.
fn perform([deed, sector, page]: [u32; 3], answer: u32, arrival: &[u8], flash: &mut [u8]) {
    if deed == 0 {
        assert_eq!((sector, page), (0, 0), "a plan of nothing");
        return;
    }
    assert!(matches!(answer, 14 | 15) && deed <= 2, "a plan");
    assert!(
        page.is_multiple_of(256) && sector == page & !4095,
        "where a plan is"
    );
    let (sector, page) = (sector as usize, page as usize);
    if deed == 2 {
        flash[sector..sector + 4096].fill(0xFF);
    }
    flash[page..page + 256].copy_from_slice(&arrival[32..288]);
}

pub fn take_all(desk: &mut Desk, input: &mut Input) {
    let room = input.length(16, 64);
    let mut sent = sent(desk, input, 16);
    let arrivals = sent.arrivals.clone();
    let settings = desk.settings.copy(&sent.settings);
    let transfer = desk.transfer.copy(&sent.transfer);
    let results = desk.small.fill(room, 0x66);
    let [flash, seen, sectors, main, xip] = &mut desk.buffers.ours;
    let got = calls::uf2_take_all(
        settings,
        transfer,
        desk.sent.copy(&arrivals),
        results,
        flash.bytes(),
        seen.bytes(),
        sectors.bytes(),
        main.bytes(),
        xip.bytes(),
    );
    let number = (arrivals.len() / BLOCK).min(room);
    assert_eq!(got, number as u64, "number");
    let mut wanted = vec![0x66; room];
    for (arrival, result) in arrivals.chunks_exact(BLOCK).zip(&mut wanted) {
        *result = sent.taken(&mut desk.buffers, arrival) as u8;
    }
    desk.small.holds(&wanted, "results");
    desk.transfer.holds(&sent.transfer, "transfer");
    desk.buffers.agree_at_the_end(&arrivals, BLOCK);
}

pub fn stands(desk: &mut Desk, input: &mut Input) {
    let (spoilt, bits) = (input.byte(), input.byte());
    let sent = sent(desk, input, 4);
    let settings = settings_of(&sent.settings);
    for (i, arrival) in pieces(&sent.arrivals).into_iter().enumerate() {
        // every other one where its own payload may be, but for some bits of a byte
        if i % 2 == 1 && arrival.len() == BLOCK {
            let mut payload = arrival[32..288].to_vec();
            payload[usize::from(spoilt)] ^= bits;
            lay(&mut desk.buffers, word_at(arrival, 12), &payload);
        }
        let [flash, _, _, main, xip] = &desk.buffers.theirs;
        let wanted = reference::stands::stands(&settings, arrival, flash, main, xip);
        let [flash, _, _, main, xip] = &mut desk.buffers.ours;
        let got = calls::uf2_stands(
            desk.settings.copy(&sent.settings),
            desk.sent.copy(arrival),
            flash.bytes(),
            main.bytes(),
            xip.bytes(),
        );
        assert_eq!(got, wanted.into(), "answer");
    }
    desk.buffers.agree_at_the_end(&sent.arrivals, BLOCK);
}

/// Lays a payload where its address says in the flash from 0 on, or in a RAM, on both sides.
fn lay(buffers: &mut Buffers, address: u32, payload: &[u8]) {
    for (which, start) in [(0, 0x1000_0000), (3, 0x2000_0000), (4, 0x13ff_c000)] {
        let at = address.wrapping_sub(start) as usize;
        let theirs = &mut buffers.theirs[which];
        if let Some(room) = theirs.get_mut(at..at.saturating_add(256)) {
            room.copy_from_slice(payload);
            buffers.ours[which].bytes()[at..at + 256].copy_from_slice(payload);
        }
    }
}

fn reason_bytes(w: &Why) -> [u8; REASON] {
    let mut bytes = [0; REASON];
    bytes[..4].copy_from_slice(&w.cause.to_le_bytes());
    bytes[4..12].copy_from_slice(&w.got.to_le_bytes());
    bytes[12..20].copy_from_slice(&w.against.to_le_bytes());
    (bytes[20], bytes[21]) = (w.entry, w.other);
    bytes[22..].copy_from_slice(&w.marks);
    bytes
}

/// A reason that names a length or a byte alone.
fn bare(answer: u8, cause: u32, got: usize, against: u64) -> Why {
    Why {
        answer,
        discarded: false,
        cause,
        got: got as u64,
        against,
        entry: 0,
        other: 0,
        marks: [0; 16],
    }
}

/// What the reference says of bytes: those that are no settings or no transfer are told before the other conditions of their row.
fn reason_of(sent: &Sent, buffers: &Buffers, arrival: &[u8]) -> Why {
    let [flash, seen, sectors, main, xip] = &buffers.theirs;
    let why = |settings: &[u8], transfer| {
        let (settings, no_links) = (settings_of(settings), board::no_links(settings));
        why_of_bytes(
            &settings, &no_links, transfer, arrival, flash, seen, sectors, main, xip,
        )
    };
    let length = sent.settings.len();
    if length != board::SETTINGS {
        let told = why(&board::plain_settings(), Transfer::Idle);
        return if told.answer == 1 {
            told
        } else {
            bare(2, 210, length, board::SETTINGS as u64)
        };
    }
    let bytes = &sent.transfer;
    match transfer_of(bytes) {
        Some(transfer) => why(&sent.settings, transfer),
        None => {
            let told = why(&sent.settings, Transfer::Idle);
            if told.answer <= 2 {
                told
            } else if bytes.len() != board::TRANSFER {
                bare(3, 306, bytes.len(), board::TRANSFER as u64)
            } else {
                let byte = if bytes[0] > 2 { bytes[0] } else { bytes[13] };
                bare(3, 307, byte.into(), 2)
            }
        }
    }
}

pub fn why(desk: &mut Desk, input: &mut Input) {
    let reason_len = input.length(REASON, 64);
    let sent = sent(desk, input, 4);
    for arrival in pieces(&sent.arrivals) {
        let wanted = reason_of(&sent, &desk.buffers, arrival);
        let looked = sent.looked(&desk.buffers, arrival);
        let [flash, seen, sectors, main, xip] = &mut desk.buffers.ours;
        let got = calls::uf2_why(
            desk.settings.copy(&sent.settings),
            desk.transfer.copy(&sent.transfer),
            desk.sent.copy(arrival),
            flash.bytes(),
            seen.bytes(),
            sectors.bytes(),
            main.bytes(),
            xip.bytes(),
            desk.small.fill(reason_len, 0x44),
        );
        assert_eq!(got, looked, "the look's result");
        assert_eq!(got, result(wanted.answer, wanted.discarded), "result");
        hold_reason(&mut desk.small, reason_len, &wanted);
    }
    desk.buffers.agree_at_the_end(&sent.arrivals, BLOCK);
}

/// A reason of another length stays as it was lent.
fn hold_reason(reason: &mut Fence, length: usize, wanted: &Why) {
    if length == REASON {
        reason.holds(&reason_bytes(wanted), "reason");
    } else {
        reason.holds(&vec![0x44; length], "reason");
    }
}

pub fn why_place(desk: &mut Desk, input: &mut Input) {
    let bytes = board::settings(input);
    let (flash_len, family) = (input.flash_len(), input.family());
    let reason_len = input.length(REASON, 64);
    let (settings, no_links) = (settings_of(&bytes), board::no_links(&bytes));
    let told = why_place_of_bytes(&settings, &no_links, flash_len as usize, family);
    let wanted = if bytes.len() != board::SETTINGS && told.answer != 1 {
        bare(2, 210, bytes.len(), board::SETTINGS as u64)
    } else {
        Why {
            answer: told.answer,
            discarded: false,
            cause: told.cause,
            got: told.got,
            against: told.against,
            entry: told.entry,
            other: told.other,
            marks: told.marks,
        }
    };
    let got = calls::uf2_why_place(
        desk.settings.copy(&bytes),
        flash_len,
        family,
        desk.small.fill(reason_len, 0x44),
    );
    assert_eq!(got, wanted.answer.into(), "answer");
    hold_reason(&mut desk.small, reason_len, &wanted);
}
