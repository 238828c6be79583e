//! The transfer, its bytes, and the answers to an arrival.

/// The bytes of a transfer, as the C interface takes them.
pub const TRANSFER_BYTES: usize = 14;

/// Where the blocks of a file go, by the number that a transfer's bytes have for it.
#[derive(Clone, Copy, PartialEq, Eq, Debug)]
#[repr(u8)]
pub enum Kind {
    /// The flash: addresses from 0x10000000 to below 0x12000000.
    Flash = 0,
    /// The main RAM: from [`MAIN_RAM_START`](crate::MAIN_RAM_START), [`MAIN_RAM_BYTES`](crate::MAIN_RAM_BYTES) long.
    MainRam = 1,
    /// The XIP RAM: from [`XIP_RAM_START`](crate::XIP_RAM_START), [`XIP_RAM_BYTES`](crate::XIP_RAM_BYTES) long.
    XipRam = 2,
}

/// How far a file is. It goes in and comes back with each arrival; [`Transfer::new`] makes a fresh one.
#[derive(Clone, Copy, PartialEq, Eq, Debug, Default)]
pub enum Transfer {
    /// No file has begun.
    #[default]
    Idle,
    /// Some blocks of a file have come.
    Running {
        /// The family of its blocks.
        family: u32,
        /// How many blocks the file has.
        total: u32,
        /// How many different ones have come: from 1 to below the total.
        count: u32,
        /// Where its blocks go.
        kind: Kind,
    },
    /// Every block of a file has come.
    Done {
        /// The family of its blocks.
        family: u32,
        /// How many blocks the file has.
        total: u32,
        /// Where its blocks went.
        kind: Kind,
    },
}

/// The answers to an arrival, by their numbers. They are asked in this order, and the first that fits is given. All but `Written`,
/// `Completed`, `Noted` and `Kept` leave the transfer and everything that is lent as it was. No answer has the number 6.
#[derive(Clone, Copy, PartialEq, Eq, Debug)]
#[repr(u8)]
pub enum Answer {
    /// Arrival, flash, a map or a RAM has a wrong length.
    BadBuffers = 1,
    /// The settings are bad for a flash of this length.
    BadSettings = 2,
    /// The transfer's numbers fit no transfer.
    BadState = 3,
    /// A magic number differs.
    NotBlock = 4,
    /// Flag 0x1000: a file container.
    Container = 5,
    /// Flag 0x2000 is clear: no family.
    NoFamily = 7,
    /// The settings have no place for the family or, of a block for RAM, the family may not go there.
    NoPlace = 8,
    /// The payload's size is not 256. Not asked of a comment.
    BadPayload = 9,
    /// Total 0 or more than the place or the RAM holds, or a number that is not below the total. Not asked of data whose address lies in
    /// no window, which is `BadAddress`.
    BadNumbers = 10,
    /// In no window, past the end of the place or the RAM or, in flash, no multiple of 256. Not asked of a comment.
    BadAddress = 11,
    /// The transfer is done.
    Finished = 12,
    /// A block of this number has come before.
    Again = 13,
    /// Stored, and others are missing.
    Written = 14,
    /// Stored or kept or, a comment, noted, and the file is whole.
    Completed = 15,
    /// A comment (flag 0x1, not for the main flash): counted and not stored, and others are missing.
    Noted = 16,
    /// Flash has the region that the block names (flag 0x4000) with its digest already: counted and not stored, and others are missing.
    Kept = 17,
}

/// What the answer says, in words; `Debug` has its name, [`Answer::number`] its number.
impl core::fmt::Display for Answer {
    fn fmt(&self, f: &mut core::fmt::Formatter<'_>) -> core::fmt::Result {
        f.write_str(crate::words::answer(*self))
    }
}

impl core::error::Error for Answer {}

/// What a look or a take says of an arrival.
#[derive(Clone, Copy, PartialEq, Eq, Debug)]
pub struct Outcome {
    /// The answer.
    pub answer: Answer,
    /// Whether its block discards a running transfer of another file.
    pub discarded: bool,
}

impl Kind {
    /// The kind's number.
    pub fn number(self) -> u8 {
        self as u8
    }

    /// The kind of a number; none where the number is no kind's.
    pub fn from_number(number: u8) -> Option<Kind> {
        [Kind::Flash, Kind::MainRam, Kind::XipRam]
            .into_iter()
            .find(|kind| kind.number() == number)
    }
}

impl Transfer {
    /// A fresh transfer, as the library makes it: `Idle`.
    ///
    /// # Panics
    ///
    /// Where the library makes bytes that are no transfer (see the crate's page).
    pub fn new() -> Transfer {
        let mut bytes = [0xFF; TRANSFER_BYTES];
        crate::bytes::new(&mut bytes);
        Transfer::handed_back(&bytes)
    }

    /// The bytes of the transfer, as the C interface has them.
    pub fn bytes(self) -> [u8; TRANSFER_BYTES] {
        let (state, family, total, count, kind) = match self {
            Transfer::Idle => (0, 0, 0, 0, Kind::Flash),
            Transfer::Running {
                family,
                total,
                count,
                kind,
            } => (1, family, total, count, kind),
            Transfer::Done {
                family,
                total,
                kind,
            } => (2, family, total, total, kind),
        };
        let mut bytes = [0; TRANSFER_BYTES];
        bytes[0] = state;
        bytes[1..5].copy_from_slice(&family.to_le_bytes());
        bytes[5..9].copy_from_slice(&total.to_le_bytes());
        bytes[9..13].copy_from_slice(&count.to_le_bytes());
        bytes[13] = kind.number();
        bytes
    }

    /// The transfer that bytes are; none where they are no transfer.
    pub fn from_bytes(bytes: &[u8; TRANSFER_BYTES]) -> Option<Transfer> {
        let [state, a, b, c, d, e, f, g, h, i, j, k, l, kind] = *bytes;
        let family = u32::from_le_bytes([a, b, c, d]);
        let total = u32::from_le_bytes([e, f, g, h]);
        let count = u32::from_le_bytes([i, j, k, l]);
        match state {
            0 => Some(Transfer::Idle),
            1 => Some(Transfer::Running {
                family,
                total,
                count,
                kind: Kind::from_number(kind)?,
            }),
            2 => Some(Transfer::Done {
                family,
                total,
                kind: Kind::from_number(kind)?,
            }),
            _ => None,
        }
    }

    /// The transfer that the library handed back.
    pub(crate) fn handed_back(bytes: &[u8; TRANSFER_BYTES]) -> Transfer {
        Transfer::from_bytes(bytes).unwrap_or_else(|| crate::unknown(bytes[0].into()))
    }
}

impl Answer {
    const ALL: [Answer; 16] = [
        Answer::BadBuffers,
        Answer::BadSettings,
        Answer::BadState,
        Answer::NotBlock,
        Answer::Container,
        Answer::NoFamily,
        Answer::NoPlace,
        Answer::BadPayload,
        Answer::BadNumbers,
        Answer::BadAddress,
        Answer::Finished,
        Answer::Again,
        Answer::Written,
        Answer::Completed,
        Answer::Noted,
        Answer::Kept,
    ];

    /// The answer's number.
    pub fn number(self) -> u8 {
        self as u8
    }

    /// The answer of a number; none where the number is no answer's.
    pub fn from_number(number: u32) -> Option<Answer> {
        Answer::ALL
            .into_iter()
            .find(|answer| u32::from(answer.number()) == number)
    }

    /// Whether the block is accepted: taken, it is counted now, and stored unless it is a comment or kept; looked at, it would be.
    pub fn is_accepted(self) -> bool {
        matches!(
            self,
            Answer::Written | Answer::Completed | Answer::Noted | Answer::Kept
        )
    }
}

impl Outcome {
    /// What a result says: the answer's number, and 128 more where a running transfer was discarded. None where it says no answer.
    pub fn from_result(result: impl Into<u32>) -> Option<Outcome> {
        let result = result.into();
        let discarded = (128..256).contains(&result);
        let number = if discarded { result - 128 } else { result };
        Some(Outcome {
            answer: Answer::from_number(number)?,
            discarded,
        })
    }

    /// The result that says this.
    pub fn result(self) -> u8 {
        self.answer.number() + if self.discarded { 128 } else { 0 }
    }
}
