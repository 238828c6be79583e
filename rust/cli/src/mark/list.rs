//! A list of arrivals, and what is lent at its start.

use super::hex;
use super::right::{self, Memory, Played};
use crate::block::Block;
use crate::families;
use proved::hex::Board;
use proved::{Settings, SECTOR_BYTES, SECTOR_MAP_BYTES, SEEN_MAP_BYTES};

/// The flash of document 01's program.
pub const FLASH_BYTES: usize = 32_768;
/// Where a payload begins in a block, and its bytes.
pub const PAYLOAD: std::ops::Range<usize> = 32..288;

const M1: u32 = 0x0A32_4655;
const M2: u32 = 0x9E5D_5157;
const M3: u32 = 0x0AB1_6F30;

/// The fields of a block that is made.
#[derive(Clone, Debug)]
pub struct Fields {
    pub m1: u32,
    pub m2: u32,
    pub m3: u32,
    pub flags: u32,
    pub address: u32,
    pub size: u32,
    pub number: u32,
    pub total: u32,
    pub family: u32,
}

impl Fields {
    /// A usual block: its address follows its number.
    pub fn usual(number: u32, total: u32) -> Fields {
        Fields {
            m1: M1,
            m2: M2,
            m3: M3,
            flags: 0x2000,
            address: number.wrapping_mul(256).wrapping_add(0x1000_0000),
            size: 256,
            number,
            total,
            family: proved::family::ARM_S,
        }
    }

    /// The block with a payload.
    pub fn block(&self, payload: &[u8]) -> Vec<u8> {
        let mut block = vec![0; 512];
        let fields = [
            self.m1,
            self.m2,
            self.flags,
            self.address,
            self.size,
            self.number,
            self.total,
            self.family,
        ];
        for (k, field) in fields.into_iter().enumerate() {
            put(&mut block, 4 * k, field);
        }
        block[PAYLOAD].copy_from_slice(payload);
        put(&mut block, 508, self.m3);
        block
    }
}

/// A payload: "WORD NUMBER of TOTAL. " over and over.
pub fn text(word: &str, number: u32, total: u32) -> Vec<u8> {
    let words = format!("{word} {number} of {total}. ");
    words.bytes().cycle().take(256).collect()
}

/// Sets a field of a block.
pub fn put(block: &mut [u8], at: usize, x: u32) {
    block[at..at + 4].copy_from_slice(&x.to_le_bytes());
}

/// A field of a block.
pub fn get(block: &[u8], at: usize) -> u32 {
    u32::from_le_bytes([block[at], block[at + 1], block[at + 2], block[at + 3]])
}

/// What is lent at the start of a list.
#[derive(Clone, PartialEq, Eq, Debug)]
pub struct Start {
    pub settings: Vec<u8>,
    pub transfer: Vec<u8>,
    pub seen: Vec<u8>,
    pub sectors: Vec<u8>,
    pub flash: usize,
    pub fill: u8,
    pub main: usize,
    pub xip: usize,
}

impl Start {
    /// That of document 01's program: flash 32,768, no table, Arm only, absolute allowed.
    pub fn program() -> Start {
        let settings = Settings {
            absolute: true,
            ..Settings::ARM
        };
        Start {
            settings: settings.bytes().to_vec(),
            transfer: proved::Transfer::new().bytes().to_vec(),
            seen: vec![0; SEEN_MAP_BYTES],
            sectors: vec![0; SECTOR_MAP_BYTES],
            flash: FLASH_BYTES,
            fill: 0xFF,
            main: 0,
            xip: 0,
        }
    }
}

/// A list that is played.
#[derive(Clone, PartialEq, Eq, Debug)]
pub struct List {
    pub arrivals: Vec<Vec<u8>>,
    pub start: Start,
    /// Two boards take every arrival by turns.
    pub twin: bool,
}

impl List {
    /// The same list of other arrivals.
    pub fn with(&self, arrivals: Vec<Vec<u8>>) -> List {
        List {
            arrivals,
            start: self.start.clone(),
            twin: self.twin,
        }
    }

    /// Whether a program can be asked it: its board is that of document 01's program, and only the last piece is short.
    pub fn is_program(&self) -> bool {
        let whole = self.arrivals.split_last().is_none_or(|(last, rest)| {
            rest.iter().all(|piece| piece.len() == 512) && (1..=512).contains(&last.len())
        });
        !self.twin && whole && self.start == Start::program()
    }

    /// The calls: which board, of two where there are twins, takes which arrival.
    pub fn calls(&self) -> Vec<(usize, usize)> {
        let boards = if self.twin { 2 } else { 1 };
        let each = (0..self.arrivals.len()).flat_map(|k| (0..boards).map(move |board| (board, k)));
        each.collect()
    }

    /// The boards at the start.
    pub fn boards(&self) -> Vec<Memory> {
        vec![Memory::of(&self.start); if self.twin { 2 } else { 1 }]
    }

    /// All arrivals, one after the other.
    pub fn bytes(&self) -> Vec<u8> {
        self.arrivals.concat()
    }
}

/// What a case plays.
#[derive(Clone, PartialEq, Eq, Debug)]
pub enum Play {
    /// Arrivals.
    Uf2(List),
    /// Lines of Universal Hex, read by a board.
    Hex(Board, Vec<Vec<u8>>),
}

impl Play {
    /// The arrivals or lines.
    pub fn items(&self) -> &[Vec<u8>] {
        match self {
            Play::Uf2(list) => &list.arrivals,
            Play::Hex(_, lines) => lines,
        }
    }

    /// The same of others.
    pub fn with(&self, items: Vec<Vec<u8>>) -> Play {
        match self {
            Play::Uf2(list) => Play::Uf2(list.with(items)),
            Play::Hex(own, _) => Play::Hex(*own, items),
        }
    }

    /// What is right.
    pub fn right(&self) -> Played {
        match self {
            Play::Uf2(list) => right::play(list),
            Play::Hex(own, lines) => hex::right(*own, lines),
        }
    }

    /// An arrival or a line in words.
    pub fn told(&self, k: usize) -> String {
        match self {
            Play::Uf2(list) => told(&list.arrivals[k]),
            Play::Hex(_, lines) => line(&lines[k]),
        }
    }
}

/// A line in words: its text, cut where it is long.
fn line(bytes: &[u8]) -> String {
    let text = String::from_utf8_lossy(bytes);
    let text = text.trim_end_matches('\n').replace('\r', "\\r");
    match text.char_indices().nth(40) {
        Some((at, _)) => format!("{}..", &text[..at]),
        None => text,
    }
}

/// An arrival in words: what is usual of it is left out.
pub fn told(piece: &[u8]) -> String {
    let Some(block) = Block::read(piece) else {
        return match piece.len() {
            512 => "no block".into(),
            1 => "1 byte".into(),
            n => format!("{n} bytes"),
        };
    };
    let mut words = format!("block {} of {}", block.number, block.total);
    if block.family != proved::family::ARM_S {
        let name = families::name(block.family);
        words += &match name {
            Some(name) => format!(", {name}"),
            None => format!(", family 0x{:08x}", block.family),
        };
    }
    words += &format!(", 0x{:08x}", block.address);
    if block.flags != 0x2000 {
        words += &format!(", flags 0x{:x}", block.flags);
    }
    match get(piece, 16) {
        256 => words,
        size => words + &format!(", size {size}"),
    }
}

/// The sectors of a list's flash as the blocks of one file in it leave them on an erased flash.
pub fn erased_with(arrivals: &[Vec<u8>], total: u32, family: u32, sectors: usize) -> Vec<u8> {
    let mut flash = vec![0xFF; sectors * SECTOR_BYTES];
    for piece in arrivals {
        let Some(block) = Block::read(piece) else {
            continue;
        };
        let at = block.address.wrapping_sub(0x1000_0000) as usize;
        let own = block.total == total && block.family == family && !block.is_comment();
        if let Some(page) = flash.get_mut(at..at.saturating_add(256)).filter(|_| own) {
            page.copy_from_slice(&piece[PAYLOAD]);
        }
    }
    flash
}
