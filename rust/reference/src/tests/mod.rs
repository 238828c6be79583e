//! Common ground of the unit tests: settings, blocks and lent buffers.

mod arrival;
mod check;
mod comments;
mod figures;
mod hex;
mod hex_file;
mod kept;
mod list;
mod made;
mod parts;
mod place;
mod ram;
mod replay;
mod stands;
mod storing;
mod why;

use crate::*;

/// No table, Arm only, absolute allowed.
const NO_TABLE: Settings = Settings {
    arm: true,
    riscv: false,
    current: Arch::Arm,
    auto_switch: false,
    absolute: true,
    count: 0,
    table: [Entry::EMPTY; MAX_ENTRIES],
};

/// A partition that accepts arm-s.
fn arm_s(first: u32, sectors: u32) -> Entry {
    Entry {
        first,
        sectors,
        arm_s: true,
        ..Entry::EMPTY
    }
}

fn with_table(entries: &[Entry]) -> Settings {
    let mut s = NO_TABLE;
    s.count = entries.len() as u8;
    s.table[..entries.len()].copy_from_slice(entries);
    s
}

/// The fields of an arrival; by default the only block of an arm-s file.
#[derive(Clone, Copy)]
struct Fields {
    flags: u32,
    address: u32,
    size: u32,
    number: u32,
    total: u32,
    family: u32,
    fill: u8,
}

const ONLY: Fields = Fields {
    flags: 0x2000,
    address: 0x1000_0000,
    size: 256,
    number: 0,
    total: 1,
    family: ARM_S,
    fill: 0x5A,
};

/// Block `number` of an arm-s file that fills its place from the start.
fn page(number: u32, total: u32) -> Fields {
    Fields {
        number,
        total,
        address: 0x1000_0000 + number * 256,
        fill: number as u8,
        ..ONLY
    }
}

fn arrival(f: Fields) -> [u8; 512] {
    // The data beyond the payload is filled too, so that storing it shows.
    let mut bytes = [f.fill; 512];
    bytes[32 + 256..508].fill(!f.fill);
    let header = [
        0x0A32_4655,
        0x9E5D_5157,
        f.flags,
        f.address,
        f.size,
        f.number,
        f.total,
        f.family,
    ];
    for (i, field) in header.into_iter().enumerate() {
        bytes[4 * i..4 * i + 4].copy_from_slice(&u32::to_le_bytes(field));
    }
    bytes[508..].copy_from_slice(&0x0AB1_6F30u32.to_le_bytes());
    bytes
}

/// What the caller lends, with the transfer that goes in next.
#[derive(Clone, PartialEq, Debug)]
struct Bench {
    settings: Settings,
    transfer: Transfer,
    flash: Vec<u8>,
    seen: Vec<u8>,
    sectors: Vec<u8>,
    main: Vec<u8>,
    xip: Vec<u8>,
}

impl Bench {
    /// Flash and maps hold old content, which a first block has to replace; the
    /// board has no RAM to load.
    fn new(settings: Settings, flash_len: usize) -> Bench {
        Bench {
            settings,
            transfer: Transfer::Idle,
            flash: vec![0xA7; flash_len],
            seen: vec![0xA7; SEEN_LEN],
            sectors: vec![0xA7; SECTORS_LEN],
            main: vec![],
            xip: vec![],
        }
    }

    fn with_ram(settings: Settings, flash_len: usize) -> Bench {
        Bench {
            main: vec![0xA7; MAIN_LEN],
            xip: vec![0xA7; XIP_LEN],
            ..Bench::new(settings, flash_len)
        }
    }

    fn look(&self, bytes: &[u8]) -> (u8, bool) {
        look(
            &self.settings,
            self.transfer,
            bytes,
            &self.flash,
            &self.seen,
            &self.sectors,
            &self.main,
            &self.xip,
        )
    }

    fn take(&mut self, bytes: &[u8]) -> Outcome {
        let outcome = take(
            &self.settings,
            self.transfer,
            bytes,
            &mut self.flash,
            &mut self.seen,
            &mut self.sectors,
            &mut self.main,
            &mut self.xip,
        );
        self.transfer = outcome.transfer;
        outcome
    }

    /// Sends raw bytes; a look must say the same before, and any refusal must
    /// leave all that was lent as it was.
    fn send(&mut self, bytes: &[u8]) -> (u8, bool) {
        let before = self.clone();
        let looked = self.look(bytes);
        let outcome = self.take(bytes);
        assert_eq!(looked, (outcome.answer, outcome.discarded));
        if outcome.answer <= AGAIN {
            assert!(*self == before, "answer {} changed", outcome.answer);
            assert!(!outcome.discarded);
        }
        (outcome.answer, outcome.discarded)
    }

    /// Sends a block that is expected to discard nothing.
    fn answer(&mut self, f: Fields) -> u8 {
        let (answer, discarded) = self.send(&arrival(f));
        assert!(!discarded);
        answer
    }
}

/// The answer to one block on an Idle transfer.
fn first_answer(settings: Settings, flash_len: usize, f: Fields) -> u8 {
    Bench::new(settings, flash_len).answer(f)
}

/// The marks of a map, from the bit order of document 01.
fn marks(map: &[u8]) -> Vec<usize> {
    let bytes = map.iter().enumerate().filter(|(_, &byte)| byte != 0);
    let set = |(i, &byte): (usize, &u8)| {
        (0..8)
            .filter(move |k| byte >> (7 - k) & 1 == 1)
            .map(move |k| 8 * i + k)
    };
    bytes.flat_map(set).collect()
}

/// A small xorshift generator: repeatable variety without a dependency.
struct Random(u64);

impl Random {
    fn next(&mut self) -> u64 {
        self.0 ^= self.0 << 13;
        self.0 ^= self.0 >> 7;
        self.0 ^= self.0 << 17;
        self.0
    }

    fn below(&mut self, n: usize) -> usize {
        ((self.next() >> 16) % n as u64) as usize
    }

    fn yes(&mut self) -> bool {
        self.below(2) == 1
    }

    fn pick<T: Copy>(&mut self, from: &[T]) -> T {
        from[self.below(from.len())]
    }
}
