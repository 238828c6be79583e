//! What is lent with each arrival, as one side owns it.

use reference::{Kind, Settings, Transfer};

use crate::Random;

/// The RAMs that a board has.
#[derive(Clone, Copy, PartialEq, Eq, Debug)]
pub struct Ram {
    pub main: bool,
    pub xip: bool,
}

impl Ram {
    pub const NONE: Ram = Ram {
        main: false,
        xip: false,
    };
    pub const BOTH: Ram = Ram {
        main: true,
        xip: true,
    };
    /// Both, one and none.
    pub const EVERY: [Ram; 4] = [
        Ram::NONE,
        Ram {
            main: true,
            xip: false,
        },
        Ram {
            main: false,
            xip: true,
        },
        Ram::BOTH,
    ];

    /// Any of them. Main RAM is half a megabyte to hold beside another, so that it comes in a quarter.
    pub fn any(r: &mut Random) -> Ram {
        Ram {
            main: r.one_in(4),
            xip: r.one_in(2),
        }
    }

    /// Whether blocks of a kind have somewhere to go.
    pub fn has(self, kind: Kind) -> bool {
        match kind {
            Kind::Flash => true,
            Kind::MainRam => self.main,
            Kind::XipRam => self.xip,
        }
    }
}

/// Flash, both maps, and a RAM of its window's length or empty.
#[derive(Clone, PartialEq, Eq)]
pub struct Buffers {
    pub flash: Vec<u8>,
    pub seen: Vec<u8>,
    pub sectors: Vec<u8>,
    pub main: Vec<u8>,
    pub xip: Vec<u8>,
}

impl Buffers {
    /// A flash of a length, maps of the right ones and no RAM, each byte the same.
    pub fn filled(flash_len: usize, byte: u8) -> Buffers {
        Buffers {
            flash: vec![byte; flash_len],
            seen: vec![byte; reference::SEEN_LEN],
            sectors: vec![byte; reference::SECTORS_LEN],
            main: Vec::new(),
            xip: Vec::new(),
        }
    }

    /// The same with RAMs too, each of their bytes the same.
    pub fn with_ram(mut self, ram: Ram, byte: u8) -> Buffers {
        self.main = vec![byte; if ram.main { reference::MAIN_LEN } else { 0 }];
        self.xip = vec![byte; if ram.xip { reference::XIP_LEN } else { 0 }];
        self
    }

    /// A flash of whole sectors, maps of the right lengths and RAMs, of any content.
    pub fn any(r: &mut Random, sectors: u64, ram: Ram) -> Buffers {
        let flash_len = sectors as usize * reference::SECTOR_LEN;
        let mut buffers = Buffers::filled(flash_len, 0).with_ram(ram, 0);
        for buffer in buffers.each() {
            r.fill(buffer);
        }
        buffers
    }

    /// Every buffer, for what is done to each alike.
    pub fn each(&mut self) -> [&mut Vec<u8>; 5] {
        let Buffers {
            flash,
            seen,
            sectors,
            main,
            xip,
        } = self;
        [flash, seen, sectors, main, xip]
    }

    /// The buffer that blocks of a kind are stored in.
    pub fn of(&mut self, kind: Kind) -> &mut Vec<u8> {
        match kind {
            Kind::Flash => &mut self.flash,
            Kind::MainRam => &mut self.main,
            Kind::XipRam => &mut self.xip,
        }
    }

    /// Lent to the proved receiver.
    pub fn lend(&mut self) -> proved::Buffers<'_> {
        proved::Buffers {
            flash: &mut self.flash,
            seen: &mut self.seen,
            sectors: &mut self.sectors,
            main: &mut self.main,
            xip: &mut self.xip,
        }
    }

    /// The flash for reading, and what is beside it.
    pub fn lend_beside(&mut self) -> (&[u8], proved::Beside<'_>) {
        let beside = proved::Beside {
            seen: &mut self.seen,
            sectors: &mut self.sectors,
            main: &mut self.main,
            xip: &mut self.xip,
        };
        (&self.flash, beside)
    }

    /// A look of the reference, with these: answer and "discarded".
    pub fn plain_look(&self, s: &Settings, t: Transfer, arrival: &[u8]) -> (u8, bool) {
        let Buffers {
            flash,
            seen,
            sectors,
            main,
            xip,
        } = self;
        reference::look(s, t, arrival, flash, seen, sectors, main, xip)
    }

    /// A take of the reference, with these.
    pub fn plain_take(&mut self, s: &Settings, t: Transfer, arrival: &[u8]) -> reference::Outcome {
        let [flash, seen, sectors, main, xip] = self.each();
        reference::take(s, t, arrival, flash, seen, sectors, main, xip)
    }

    /// A look of the proved receiver over bytes, with these: the result.
    #[inline]
    pub fn look(&mut self, settings: &[u8], transfer: &[u8], arrival: &[u8]) -> u32 {
        proved::bytes::look(settings, transfer, arrival, &self.lend())
    }

    /// A take of the proved receiver over bytes, with these: the result.
    #[inline]
    pub fn take(&mut self, settings: &[u8], transfer: &mut [u8], arrival: &[u8]) -> u32 {
        proved::bytes::take(settings, transfer, arrival, &mut self.lend())
    }

    /// An arrival accepted by the proved receiver over bytes, with these: the result.
    #[inline]
    pub fn accept(
        &mut self,
        settings: &[u8],
        transfer: &mut [u8],
        arrival: &[u8],
        plan: &mut [u8],
    ) -> u32 {
        let (flash, mut beside) = self.lend_beside();
        proved::bytes::accept(settings, transfer, arrival, flash, &mut beside, plan)
    }

    /// Many takes of the proved receiver over bytes, with these: their number.
    #[inline]
    pub fn take_all(
        &mut self,
        settings: &[u8],
        transfer: &mut [u8],
        arrivals: &[u8],
        results: &mut [u8],
    ) -> usize {
        proved::bytes::take_all(settings, transfer, arrivals, results, &mut self.lend())
    }
}
