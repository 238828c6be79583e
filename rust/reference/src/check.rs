//! A file, checked before it is sent to a board.
//!
//! The first condition that fails is told, of the first piece at which one
//! fails; that a number is missing, or that a region may keep a page from being
//! stored, only where every piece is sound.

use crate::{
    region_counts, screen, settings_good, Arrival, Kind, Lengths, Screened, Settings, Transfer,
    ARRIVAL_LEN, BAD_BUFFERS, BAD_SETTINGS, PAYLOAD_LEN,
};

/// What is found of a file. Pieces are 512 bytes each, counted from 0 in file
/// order; `other` is the first earlier piece with which the condition fails.
#[derive(Clone, Copy, PartialEq, Eq, Debug)]
pub enum Found {
    /// A length of flash or RAM is wrong.
    BadBuffers,
    BadSettings,
    /// The file's length is no multiple of 512.
    Ragged,
    /// The file has no piece.
    Empty,
    /// An Idle board answers the piece so, 4 to 11.
    Refused {
        piece: usize,
        answer: u8,
    },
    /// Its family isn't the first piece's.
    OtherFamily {
        piece: usize,
    },
    /// Its total isn't the first piece's.
    OtherTotal {
        piece: usize,
    },
    /// Its kind isn't the first piece's.
    OtherKind {
        piece: usize,
    },
    /// The other has its number, be they pages or comments.
    SameNumber {
        piece: usize,
        other: usize,
    },
    /// Both are pages, and share a byte address.
    Overlap {
        piece: usize,
        other: usize,
    },
    /// There are fewer pieces than the total; no piece has this number, and
    /// none has a smaller one that is missing.
    Missing {
        number: u32,
    },
    /// The file is valid, and this is its first page with a region that counts:
    /// what flash holds decides whether it is stored.
    Guarded {
        piece: usize,
    },
    Valid,
}

impl Found {
    pub fn number(self) -> u8 {
        match self {
            Found::BadBuffers => BAD_BUFFERS,
            Found::BadSettings => BAD_SETTINGS,
            Found::Ragged => 80,
            Found::Empty => 81,
            Found::Refused { answer, .. } => answer,
            Found::OtherFamily { .. } => 82,
            Found::OtherTotal { .. } => 83,
            Found::OtherKind { .. } => 84,
            Found::SameNumber { .. } => 85,
            Found::Overlap { .. } => 86,
            Found::Missing { .. } => 87,
            Found::Guarded { .. } => 88,
            Found::Valid => 0,
        }
    }
}

/// Checks the file for a board with these settings and lengths of flash, main
/// RAM and XIP RAM; a RAM that is not there has length 0.
pub fn check(
    s: &Settings,
    file: &[u8],
    flash_len: usize,
    main_len: usize,
    xip_len: usize,
) -> Found {
    let lengths = Lengths {
        flash: flash_len,
        main: main_len,
        xip: xip_len,
    };
    if !lengths.good() {
        return Found::BadBuffers;
    }
    if !settings_good(s, flash_len) {
        return Found::BadSettings;
    }
    let (pieces, rest) = file.as_chunks::<ARRIVAL_LEN>();
    if !rest.is_empty() {
        return Found::Ragged;
    }
    let mut earlier = Vec::with_capacity(pieces.len());
    for bytes in pieces {
        match sound(s, bytes, lengths, &earlier) {
            Ok(piece) => earlier.push(piece),
            Err(found) => return found,
        }
    }
    whole(&earlier).unwrap_or(Found::Valid)
}

/// What the conditions between pieces ask of one that no row refuses.
struct Piece {
    family: u32,
    total: u32,
    number: u32,
    kind: Kind,
    /// The address, of a page.
    page: Option<u32>,
    /// Whether it names a region that counts.
    guarded: bool,
}

/// The next piece after these, which are sound.
fn sound(
    s: &Settings,
    bytes: &Arrival,
    lengths: Lengths,
    earlier: &[Piece],
) -> Result<Piece, Found> {
    let piece = earlier.len();
    let screened = screen(s, Transfer::Idle, bytes, lengths)
        .map_err(|answer| Found::Refused { piece, answer })?;
    let new = Piece::of(&screened);
    let first = earlier.first().unwrap_or(&new);
    if new.family != first.family {
        return Err(Found::OtherFamily { piece });
    }
    if new.total != first.total {
        return Err(Found::OtherTotal { piece });
    }
    if new.kind != first.kind {
        return Err(Found::OtherKind { piece });
    }
    if let Some(other) = earlier.iter().position(|old| old.number == new.number) {
        return Err(Found::SameNumber { piece, other });
    }
    if let Some(other) = earlier.iter().position(|old| old.overlaps(&new)) {
        return Err(Found::Overlap { piece, other });
    }
    Ok(new)
}

/// What fails of pieces that are each sound: their numbers are different, and
/// below the one total.
fn whole(pieces: &[Piece]) -> Option<Found> {
    let Some(first) = pieces.first() else {
        return Some(Found::Empty);
    };
    if pieces.len() < first.total as usize {
        let missing = |number: &u32| pieces.iter().all(|piece| piece.number != *number);
        let number = (0..first.total).find(missing)?;
        return Some(Found::Missing { number });
    }
    let piece = pieces.iter().position(|piece| piece.guarded)?;
    Some(Found::Guarded { piece })
}

impl Piece {
    fn of(screened: &Screened) -> Piece {
        let block = &screened.block;
        let counts = |offset| {
            let region = block.region()?;
            region_counts(&region, screened.place, offset)
        };
        let in_flash = screened.kind == Kind::Flash;
        Piece {
            family: block.family,
            total: block.total,
            number: block.number,
            kind: screened.kind,
            page: screened.offset.map(|_| block.address),
            guarded: in_flash && screened.offset.and_then(counts).is_some(),
        }
    }

    /// Whether both are pages, with a byte address that is in both.
    fn overlaps(&self, other: &Piece) -> bool {
        match (self.page, other.page) {
            (Some(a), Some(b)) => (a.abs_diff(b) as usize) < PAYLOAD_LEN,
            _ => false,
        }
    }
}
