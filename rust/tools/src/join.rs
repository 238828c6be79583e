//! One Universal Hex file from two plain Intel Hex files.

use crate::ffi::{self, len};

/// The most bytes of a file, of an input and of the output.
pub const HEX_FILE_BYTES: usize = 4_194_304;

/// The board whose file is refused.
#[derive(Clone, Copy, PartialEq, Eq, Debug)]
pub enum Board {
    /// micro:bit V1, 0x9900.
    V1,
    /// micro:bit V2, 0x9903.
    V2,
}

/// Why a plain file is refused.
#[derive(Clone, Copy, PartialEq, Eq, Debug)]
pub enum PlainRefusal {
    /// 20: a line is empty or does not begin with a colon.
    NoColon,
    /// 21: under 11, over 521 or an even number of characters.
    BadShape,
    /// 22: a character that is no digit; the value is the position of the first one, counted from 0 at the colon.
    BadDigit(u16),
    /// 23: the length field is over 32.
    TooLong,
    /// 24: the characters are not 11 and two for each byte that the length field says.
    BadLength,
    /// 25: the sum of its bytes is wrong.
    BadSum,
    /// 26: a type over 05, a length that the type does not have, or no 01 at the end.
    OutOfPlace,
    /// 29: data past the 65,536 bytes that one 02 or 04 reaches.
    Crosses,
    /// 30: no data byte.
    NoData,
    /// 31: a line after the 01.
    AfterEnd,
    /// 36: the file with this line is over [`HEX_FILE_BYTES`].
    FileTooLong,
}

/// Why nothing is written.
#[derive(Clone, Copy, PartialEq, Eq, Debug)]
pub enum JoinRefusal {
    /// A board's file is refused.
    Plain {
        /// The board; V1's file is read first.
        board: Board,
        /// The line's index from 0; for a missing 01 and for no data byte, the number of lines.
        line: usize,
        /// The answer to it.
        refusal: PlainRefusal,
    },
    /// 36: the output is over [`HEX_FILE_BYTES`], or longer than what is lent for it.
    OutputTooLong,
}

impl PlainRefusal {
    /// The refusal's number.
    pub fn number(self) -> u8 {
        match self {
            PlainRefusal::NoColon => 20,
            PlainRefusal::BadShape => 21,
            PlainRefusal::BadDigit(_) => 22,
            PlainRefusal::TooLong => 23,
            PlainRefusal::BadLength => 24,
            PlainRefusal::BadSum => 25,
            PlainRefusal::OutOfPlace => 26,
            PlainRefusal::Crosses => 29,
            PlainRefusal::NoData => 30,
            PlainRefusal::AfterEnd => 31,
            PlainRefusal::FileTooLong => 36,
        }
    }

    fn from_number(number: u8, position: u16) -> Option<PlainRefusal> {
        let refusal = match number {
            20 => PlainRefusal::NoColon,
            21 => PlainRefusal::BadShape,
            22 => PlainRefusal::BadDigit(position),
            23 => PlainRefusal::TooLong,
            24 => PlainRefusal::BadLength,
            25 => PlainRefusal::BadSum,
            26 => PlainRefusal::OutOfPlace,
            29 => PlainRefusal::Crosses,
            30 => PlainRefusal::NoData,
            31 => PlainRefusal::AfterEnd,
            36 => PlainRefusal::FileTooLong,
            _ => return None,
        };
        Some(refusal)
    }
}

impl JoinRefusal {
    /// The refusal's number.
    pub fn number(self) -> u8 {
        match self {
            JoinRefusal::Plain { refusal, .. } => refusal.number(),
            JoinRefusal::OutputTooLong => 36,
        }
    }
}

/// The result of a number, as include/uf2_tools.h has it; none of a number that the library does not return.
fn result(number: u64) -> Option<Result<usize, JoinRefusal>> {
    let (answer, position) = (number as u8, (number >> 8) as u16);
    let (board, rest) = ((number >> 24) as u8, (number >> 32) as usize);
    let board = match board {
        0 if answer == 0 => return Some(Ok(rest)),
        0 if answer == 36 => return Some(Err(JoinRefusal::OutputTooLong)),
        1 => Board::V1,
        2 => Board::V2,
        _ => return None,
    };
    Some(Err(JoinRefusal::Plain {
        board,
        line: rest,
        refusal: PlainRefusal::from_number(answer, position)?,
    }))
}

/// Writes one Universal Hex file at the start of the output from a plain Intel Hex file for V1 and one for V2, and returns its length. A
/// refusal writes nothing; what follows the file stays.
pub fn join(v1: &[u8], v2: &[u8], output: &mut [u8]) -> Result<usize, JoinRefusal> {
    // SAFETY: each pointer is of a slice with its length, and the output overlaps nothing, since it is borrowed alone.
    let number = unsafe {
        ffi::uhex_join(
            v1.as_ptr(),
            len(v1),
            v2.as_ptr(),
            len(v2),
            output.as_mut_ptr(),
            len(output),
        )
    };
    result(number).expect("the library is not the proved one of this version")
}
