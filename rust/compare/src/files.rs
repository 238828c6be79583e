//! Small files for a board, with faults put in, and boards that a file is sent to.

use reference::{place_of, ram_accepts, settings_good, Kind, Settings, Transfer, ARM_S};

use crate::region::any_region;
use crate::{
    any_settings, arm_only, arrival, proved_settings, window, Buffers, Fields, Ram, Random, BESIDE,
    EDGES, FAMILIES, USER,
};

/// A file in its pieces, and the board that it is for.
#[derive(Clone)]
pub struct Case {
    pub settings: Settings,
    pub sectors: u64,
    pub ram: Ram,
    pub pieces: Vec<Vec<u8>>,
}

impl Case {
    pub fn file(&self) -> Vec<u8> {
        self.pieces.concat()
    }

    /// The lengths of flash, main RAM and XIP RAM.
    pub fn lens(&self) -> [usize; 3] {
        let has = |there, len| if there { len } else { 0 };
        [
            self.sectors as usize * 4096,
            has(self.ram.main, reference::MAIN_LEN),
            has(self.ram.xip, reference::XIP_LEN),
        ]
    }
}

/// The field of a piece at an offset.
pub fn field(a: &[u8], at: usize) -> u32 {
    u32::from_le_bytes([a[at], a[at + 1], a[at + 2], a[at + 3]])
}

pub fn put(a: &mut [u8], at: usize, value: u32) {
    a[at..at + 4].copy_from_slice(&value.to_le_bytes());
}

/// A board whose settings are mostly good, and a valid file for it of one to eight pieces.
pub fn any_case(r: &mut Random) -> Case {
    let sectors = r.of(&[1, 2, 4, 16]);
    let ram = Ram::any(r);
    let settings = if r.one_in(3) {
        arm_only()
    } else {
        good_settings(r, sectors)
    };
    let (family, kind) = any_target(r, &settings, sectors, ram);
    let len = match kind {
        Kind::Flash => place_of(&settings, sectors as usize * 4096, family).map_or(4096, |p| p.1),
        Kind::MainRam => reference::MAIN_LEN,
        Kind::XipRam => reference::XIP_LEN,
    };
    let total = 1 + r.below(8) as u32;
    let addresses = apart(r, kind, len as u32, total);
    let mut pieces = Vec::new();
    for (number, address) in (0..total).zip(addresses) {
        let comment = kind == Kind::Flash && r.one_in(8);
        let fields = Fields {
            flags: 0x2000 | u32::from(comment) | r.of(&[0, 0, 0x8000]),
            address,
            size: 256,
            number,
            total,
            family,
        };
        pieces.push(arrival(fields, r.draw()));
    }
    r.shuffle(&mut pieces);
    if r.one_in(4) {
        let (k, flash) = (
            r.below(pieces.len() as u64) as usize,
            vec![0; sectors as usize * 4096],
        );
        let place = place_of(&settings, flash.len(), family).map_or(0, |p| p.0);
        any_region(r, &mut pieces[k], &flash, place);
    }
    Case {
        settings,
        sectors,
        ram,
        pieces,
    }
}

fn good_settings(r: &mut Random, sectors: u64) -> Settings {
    loop {
        let s = any_settings(r, sectors);
        if settings_good(&s, sectors as usize * 4096) {
            return s;
        }
    }
}

/// A family and a kind that it may go to on this board, mostly.
fn any_target(r: &mut Random, s: &Settings, sectors: u64, ram: Ram) -> (u32, Kind) {
    for _ in 0..30 {
        let family = r.of(&FAMILIES);
        let kind = r.of(&crate::KINDS);
        let taken = match kind {
            Kind::Flash => place_of(s, sectors as usize * 4096, family).is_some(),
            Kind::MainRam | Kind::XipRam => ram.has(kind) && ram_accepts(s, family),
        };
        if taken {
            return (family, kind);
        }
    }
    (ARM_S, Kind::Flash)
}

/// Addresses in the first bytes of a kind's window whose ranges are disjoint; many are neighbours, and the last page is one of them in a half.
fn apart(r: &mut Random, kind: Kind, len: u32, total: u32) -> Vec<u32> {
    let (start, _) = window(kind, 1);
    let step = if kind == Kind::Flash { 256 } else { 1 };
    let last = start + len - 256;
    let mut found: Vec<u32> = Vec::new();
    while found.len() < total as usize {
        let any = start + r.below(u64::from((len - 256) / step) + 1) as u32 * step;
        let beside = found.last().copied().unwrap_or(any);
        let address = match r.below(6) {
            0 => last,
            1 | 2 => beside.wrapping_add(r.of(&[256, 257, 512]) / step * step),
            3 => beside.wrapping_sub(r.of(&[256, 257, 512]) / step * step),
            _ => any,
        };
        let inside = (start..=last).contains(&address);
        if inside && found.iter().all(|&other| other.abs_diff(address) >= 256) {
            found.push(address);
        }
    }
    found
}

/// One fault, or a change that is none: in a piece, between two pieces, or in which pieces there are.
pub fn spoil(r: &mut Random, case: &mut Case) {
    if case.pieces.is_empty() {
        return;
    }
    let n = case.pieces.len() as u64;
    let (k, j) = (r.below(n) as usize, r.below(n) as usize);
    let of_j = field(&case.pieces[j], 12);
    let a = &mut case.pieces[k];
    let (flags, address, total) = (field(a, 8), field(a, 12), field(a, 24));
    match r.below(20) {
        0 => a[r.of(&[0, 3, 4, 7, 508, 511])] ^= 1 << r.below(8),
        1 => put(
            a,
            8,
            r.of(&[0, 1, 0x1000, 0x1001, 0x3000, 0x3001, u32::MAX]),
        ),
        2 => put(a, 8, flags ^ 1),
        3 => put(a, 28, r.of(&FAMILIES)),
        4 => put(a, 16, r.of(&[0, 255, 257, 476])),
        5 => put(a, 20, r.below(u64::from(total) + 1) as u32),
        6 => put(
            a,
            24,
            r.of(&[0, total.wrapping_sub(1), total + 1, 17, 0x0100_0000]),
        ),
        7 => put(a, 12, r.of(&EDGES).wrapping_add_signed(r.of(&BESIDE))),
        8 => put(
            a,
            12,
            address.wrapping_add_signed(r.of(&[-256, -1, 1, 128, 256])),
        ),
        9 | 10 => put(
            a,
            12,
            of_j.wrapping_add_signed(r.of(&[-257, -256, -255, 0, 255, 256, 257])),
        ),
        11 | 12 => {
            // a piece more, alike or with another number
            let mut more = a.clone();
            if r.one_in(2) {
                put(&mut more, 20, r.below(9) as u32);
            }
            put(&mut more, 8, flags ^ u32::from(r.one_in(3)));
            case.pieces.insert(r.below(n + 1) as usize, more);
        }
        13 => drop(case.pieces.remove(k)),
        14 => case.pieces.truncate(k),
        15 => {
            // every total is one more or less
            let by = r.of(&[-1, 1]);
            for a in &mut case.pieces {
                let total = field(a, 24);
                put(a, 24, total.wrapping_add_signed(by));
            }
        }
        16 => {
            for a in &mut case.pieces {
                put(a, 28, r.of(&[ARM_S, USER]));
            }
        }
        17 => {
            let to = r.of(&[0x2000_0000, 0x13ff_c000, 0x1000_0000]);
            put(a, 12, to + (of_j & 0xfff));
        }
        18 => {
            let flash = vec![0; case.sectors as usize * 4096];
            any_region(r, a, &flash, 0);
        }
        _ => case.settings = any_settings(r, case.sectors),
    }
}

/// Payloads of which no two agree in any byte: the low half of each byte is the piece's, of at most 16.
pub fn distinct(pieces: &mut [Vec<u8>]) {
    for (k, piece) in pieces.iter_mut().enumerate() {
        for byte in piece.iter_mut().skip(32).take(256) {
            *byte = *byte & 0xF0 | k as u8;
        }
    }
}

/// A proved board and a plain one, alike, that pieces are sent to.
pub struct Boards {
    settings: Settings,
    transfer: Transfer,
    ours: Buffers,
    theirs: Buffers,
}

impl Boards {
    pub fn new(settings: Settings, content: Buffers) -> Boards {
        Boards {
            settings,
            transfer: Transfer::Idle,
            ours: content.clone(),
            theirs: content,
        }
    }

    /// Sends the pieces; both boards end alike.
    pub fn send<'a>(&mut self, pieces: impl IntoIterator<Item = &'a Vec<u8>>) {
        let proved = proved_settings(&self.settings);
        for piece in pieces {
            let mut t = crate::proved_transfer(self.transfer);
            let got = proved::take(&proved, &mut t, piece, &mut self.ours.lend());
            let wanted = self.theirs.plain_take(&self.settings, self.transfer, piece);
            assert_eq!(
                (got.answer.number(), got.discarded),
                (wanted.answer, wanted.discarded)
            );
            assert_eq!(t, crate::proved_transfer(wanted.transfer));
            self.transfer = wanted.transfer;
        }
        assert!(self.ours == self.theirs, "the boards end alike");
    }

    /// Whether nothing is lost: the transfer is Done, and the page of each of these data pieces is at its address.
    pub fn whole(&self, pieces: &[Vec<u8>]) -> bool {
        matches!(self.transfer, Transfer::Done { .. }) && pieces.iter().all(|a| self.has(a))
    }

    fn has(&self, a: &[u8]) -> bool {
        if field(a, 8) & 1 != 0 {
            return true;
        }
        let (address, b) = (field(a, 12), &self.ours);
        let (memory, at) = match address {
            0x2000_0000.. => (&b.main, (address - 0x2000_0000) as usize),
            0x13ff_c000.. => (&b.xip, (address - 0x13ff_c000) as usize),
            _ => {
                let place = place_of(&self.settings, b.flash.len(), field(a, 28));
                let from = place.map_or(usize::MAX / 2, |(start, _)| start);
                (&b.flash, from + address.wrapping_sub(0x1000_0000) as usize)
            }
        };
        memory.get(at..at + 256) == Some(&a[32..288])
    }
}
