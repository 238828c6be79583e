//! Universal Hex, a line at a time, for one board.
//!
//! A file whose last line is answered [`HexAnswer::Ended`] is not thereby in the image: own data that does not lie wholly in the image is
//! answered [`HexAnswer::Outside`] and left out, and reading goes on to the end. The reader keeps nothing of it, so whoever flashes the
//! image remembers it:
//!
//! ```
//! use vantorel::hex::{Board, HexAnswer, Reader};
//!
//! /// Reads a file into an image: whether the image is whole and may be flashed.
//! fn read(file: &[u8], image: &mut [u8]) -> bool {
//!     let mut reader = Reader::new(Board::V1);
//!     let (mut last, mut left_out) = (HexAnswer::Passed, false);
//!     for line in file.split_inclusive(|&c| c == b'\n') {
//!         last = reader.line(line, image);
//!         left_out |= last == HexAnswer::Outside;
//!     }
//!     last == HexAnswer::Ended && !left_out
//! }
//!
//! # let fill = format!(":2000000C{}F4\n", "FF".repeat(32)).repeat(5) + &format!(":0E00000C{}F4\n", "FF".repeat(14));
//! # let file = [":020000040000FA\n:0400000A9900C0DEBB\n:10000000000102030405060708090A0B0C0D0E0F78\n", &fill, ":0000000BF5\n",
//! #     ":020000040000FA\n:0400000A9903C0DEB8\n:0400000D1122334445\n:0000000BF5\n:00000001FF\n"].concat();
//! # let file = file.as_bytes();
//! // a small file, with 16 bytes of data for V1 from address 0 on
//! assert!(read(file, &mut [0; 16]));
//! assert!(!read(file, &mut [0; 15])); // ended as well, but the data is not in the image
//! ```

pub mod bytes;

/// The bytes of a reader, as the C interface takes them.
pub const READER_BYTES: usize = 16;
/// A buffer of so many bytes holds every line that can pass, its CR LF included, and every line that is refused for what it says and not
/// for its length. Where it is full and no LF has come, hand over what is in it and stop: it is refused, as the whole line would be.
pub const LINE_BYTES: usize = 523;
/// The most bytes of an image; it has at least one.
pub const IMAGE_MAX_BYTES: usize = 1_048_576;
/// The most bytes of a file.
pub const FILE_MAX_BYTES: usize = 4_194_304;

/// A board that every file has to serve.
#[derive(Clone, Copy, PartialEq, Eq, Debug)]
#[repr(u16)]
pub enum Board {
    /// 0x9900.
    V1 = 0x9900,
    /// 0x9903.
    V2 = 0x9903,
}

/// Which of V1 and V2.
#[derive(Clone, Copy, PartialEq, Eq, Debug, Default)]
pub struct Boards {
    /// V1 is among them.
    pub v1: bool,
    /// V2 is among them.
    pub v2: bool,
}

/// Where a reader stands.
#[derive(Clone, Copy, PartialEq, Eq, Debug)]
pub enum State {
    /// Before a section, or before the 01.
    Between,
    /// After a section's opening 04.
    Opened,
    /// In the section of a board: the number that its 0A names, of V1, V2 or another.
    Inside(u16),
    /// In it, after its first 0C.
    Padded(u16),
    /// After the 01.
    Ended,
    /// It failed, by this answer. One that does not make a reader failed makes it a bad reader, and so does a bad digit at a position outside 1 to 520.
    Failed(HexAnswer),
}

/// What is kept from one line to the next. [`Reader::new`] makes a fresh one.
#[derive(Clone, Copy, PartialEq, Eq, Debug)]
pub struct Reader {
    /// Its own board, whose data it stores.
    pub own: Board,
    /// Bytes of the file read so far; over [`FILE_MAX_BYTES`] is a bad reader.
    pub offset: u32,
    /// Where it stands.
    pub state: State,
    /// The upper half of addresses, from the latest 04.
    pub upper: u16,
    /// The boards that had a section.
    pub sections: Boards,
    /// The boards that gave a data byte, stored or not.
    pub data: Boards,
}

/// The answers to a line, 18 to 36 in this order. They are asked in this order: 19, 18, a failed reader's own, 31, 36, then 20 and on.
#[derive(Clone, Copy, PartialEq, Eq, Debug)]
pub enum HexAnswer {
    /// The offset is over the limit of a file, or the reader failed by an answer that makes none failed, or by a bad digit at a position outside
    /// 1 to 520. Nothing changes.
    BadReader,
    /// The image's length. Nothing changes.
    BadImage,
    /// Empty, or does not begin with a colon. The reader has failed.
    NoColon,
    /// Under 11, over 521 or an even number of characters. The reader has failed.
    BadShape,
    /// A character that is no digit; the value is the position of the first one, counted from 0 at the colon, 1 to 520. The reader has failed.
    BadDigit(u16),
    /// The length field is over 32. The reader has failed.
    TooLong,
    /// The characters are not 11 and two for each byte that the length field says. The reader has failed.
    BadLength,
    /// The sum of its bytes is wrong. The reader has failed.
    BadSum,
    /// A type or length that is not allowed there. The reader has failed.
    OutOfPlace,
    /// A section begins at an offset that is no multiple of 512. The reader has failed.
    Unaligned,
    /// A second section of V1 or V2. The reader has failed.
    Repeated,
    /// Data past the 65,536 bytes that one 04 reaches. The reader has failed.
    Crosses,
    /// The end before V1 and V2 each gave a data byte. The reader has failed.
    MissingBoard,
    /// A line after the 01. Nothing changes.
    AfterEnd,
    /// Own data that is not wholly in the image: it is left out, and reading goes on.
    Outside,
    /// Own data, stored in the image.
    Stored,
    /// Any other good record.
    Passed,
    /// The 01: every line was good. The image is whole only if no line was answered `Outside`.
    Ended,
    /// The file with this line is over the limit. The reader has failed.
    FileTooLong,
}

/// What the answer says, in words, without the position of a bad digit.
impl core::fmt::Display for HexAnswer {
    fn fmt(&self, f: &mut core::fmt::Formatter<'_>) -> core::fmt::Result {
        f.write_str(crate::words::line(*self))
    }
}

impl Board {
    /// The board's number, as a 0A names it.
    pub fn number(self) -> u16 {
        self as u16
    }

    /// The board of a number, V1 or V2; none of any other.
    pub fn from_number(number: u16) -> Option<Board> {
        [Board::V1, Board::V2]
            .into_iter()
            .find(|board| board.number() == number)
    }
}

impl Boards {
    fn bytes(self) -> [u8; 2] {
        [self.v1.into(), self.v2.into()]
    }

    fn from_bytes(v1: u8, v2: u8) -> Boards {
        Boards {
            v1: v1 != 0,
            v2: v2 != 0,
        }
    }
}

impl State {
    /// The number of the state, the failure's, and the board's or the failure's position.
    fn numbers(self) -> (u8, u8, u16) {
        match self {
            State::Between => (0, 0, 0),
            State::Opened => (1, 0, 0),
            State::Inside(board) => (2, 0, board),
            State::Padded(board) => (3, 0, board),
            State::Ended => (4, 0, 0),
            State::Failed(answer) => (5, answer.number(), answer.position()),
        }
    }

    fn from_numbers(state: u8, failure: u8, half: u16) -> Option<State> {
        match state {
            0 => Some(State::Between),
            1 => Some(State::Opened),
            2 => Some(State::Inside(half)),
            3 => Some(State::Padded(half)),
            4 => Some(State::Ended),
            5 => HexAnswer::from_number(failure, half).map(State::Failed),
            _ => None,
        }
    }
}

impl Reader {
    /// A fresh reader of a board, as the library makes it.
    ///
    /// # Panics
    ///
    /// Where the library makes bytes that are no reader (see the crate's page).
    pub fn new(own: Board) -> Reader {
        let mut state = [0xFF; READER_BYTES];
        bytes::new(own.number(), &mut state);
        Reader::handed_back(&state)
    }

    /// One line as it stands in the file, its LF or CR LF included.
    ///
    /// # Panics
    ///
    /// Where the library returns a number that is none of the answers (see the crate's page).
    pub fn line(&mut self, line: &[u8], image: &mut [u8]) -> HexAnswer {
        let mut state = self.bytes();
        let result = bytes::line(&mut state, line, image);
        *self = Reader::handed_back(&state);
        HexAnswer::from_result(result).unwrap_or_else(|| crate::unknown(result))
    }

    /// The bytes of the reader, as the C interface has them.
    pub fn bytes(self) -> [u8; READER_BYTES] {
        let (state, failure, half) = self.state.numbers();
        let mut bytes = [0; READER_BYTES];
        bytes[..2].copy_from_slice(&self.own.number().to_le_bytes());
        bytes[2..4].copy_from_slice(&self.upper.to_le_bytes());
        bytes[4..8].copy_from_slice(&self.offset.to_le_bytes());
        bytes[8..10].copy_from_slice(&[state, failure]);
        bytes[10..12].copy_from_slice(&half.to_le_bytes());
        bytes[12..14].copy_from_slice(&self.sections.bytes());
        bytes[14..].copy_from_slice(&self.data.bytes());
        bytes
    }

    /// The reader that bytes are; none where its own board is neither V1 nor V2, it stands over 5, or it failed by what is no answer: such
    /// bytes are answered `BadReader`.
    pub fn from_bytes(bytes: &[u8; READER_BYTES]) -> Option<Reader> {
        let [a, b, c, d, e, f, g, h, state, failure, i, j, k, l, m, n] = *bytes;
        Some(Reader {
            own: Board::from_number(u16::from_le_bytes([a, b]))?,
            offset: u32::from_le_bytes([e, f, g, h]),
            state: State::from_numbers(state, failure, u16::from_le_bytes([i, j]))?,
            upper: u16::from_le_bytes([c, d]),
            sections: Boards::from_bytes(k, l),
            data: Boards::from_bytes(m, n),
        })
    }

    /// The reader that the library handed back.
    fn handed_back(bytes: &[u8; READER_BYTES]) -> Reader {
        Reader::from_bytes(bytes).unwrap_or_else(|| crate::unknown(bytes[8].into()))
    }
}

impl HexAnswer {
    /// The answer's number.
    pub fn number(self) -> u8 {
        match self {
            HexAnswer::BadReader => 18,
            HexAnswer::BadImage => 19,
            HexAnswer::NoColon => 20,
            HexAnswer::BadShape => 21,
            HexAnswer::BadDigit(_) => 22,
            HexAnswer::TooLong => 23,
            HexAnswer::BadLength => 24,
            HexAnswer::BadSum => 25,
            HexAnswer::OutOfPlace => 26,
            HexAnswer::Unaligned => 27,
            HexAnswer::Repeated => 28,
            HexAnswer::Crosses => 29,
            HexAnswer::MissingBoard => 30,
            HexAnswer::AfterEnd => 31,
            HexAnswer::Outside => 32,
            HexAnswer::Stored => 33,
            HexAnswer::Passed => 34,
            HexAnswer::Ended => 35,
            HexAnswer::FileTooLong => 36,
        }
    }

    /// The position of a bad digit; 0 for every other answer.
    pub fn position(self) -> u16 {
        match self {
            HexAnswer::BadDigit(position) => position,
            _ => 0,
        }
    }

    /// The answer of a number, with the position where it is a bad digit; none where the number is no answer's.
    pub fn from_number(number: u8, position: u16) -> Option<HexAnswer> {
        let all = [
            HexAnswer::BadReader,
            HexAnswer::BadImage,
            HexAnswer::NoColon,
            HexAnswer::BadShape,
            HexAnswer::BadDigit(position),
            HexAnswer::TooLong,
            HexAnswer::BadLength,
            HexAnswer::BadSum,
            HexAnswer::OutOfPlace,
            HexAnswer::Unaligned,
            HexAnswer::Repeated,
            HexAnswer::Crosses,
            HexAnswer::MissingBoard,
            HexAnswer::AfterEnd,
            HexAnswer::Outside,
            HexAnswer::Stored,
            HexAnswer::Passed,
            HexAnswer::Ended,
            HexAnswer::FileTooLong,
        ];
        all.into_iter().find(|answer| answer.number() == number)
    }

    /// The answer that the library returned: its number, and 256 times its position.
    fn from_result(result: u32) -> Option<HexAnswer> {
        let position = u16::try_from(result >> 8).ok()?;
        let answer = HexAnswer::from_number(result as u8, position)?;
        (answer.position() == position).then_some(answer)
    }

    /// Whether the line was not read: every answer but `Outside`, `Stored`, `Passed` and `Ended`.
    pub fn is_failure(self) -> bool {
        !matches!(
            self,
            HexAnswer::Outside | HexAnswer::Stored | HexAnswer::Passed | HexAnswer::Ended
        )
    }
}
