//! The Universal Hex side of the update receiver: a file taken a line at a
//! time, written from the papers alone as the UF2 side is.
//!
//! Each line gets one of the answers 18 to 36 of document 01. Every function is
//! total: any reader, any line and any image get an answer.

/// The board number of the micro:bit V1.
pub const V1: u16 = 0x9900;
/// The board number of the micro:bit V2.
pub const V2: u16 = 0x9903;

const BAD_READER: u8 = 18;
const BAD_IMAGE: u8 = 19;
const NO_COLON: u8 = 20;
const BAD_SHAPE: u8 = 21;
const BAD_DIGIT: u8 = 22;
const TOO_LONG: u8 = 23;
const BAD_LENGTH: u8 = 24;
const BAD_SUM: u8 = 25;
pub(crate) const OUT_OF_PLACE: u8 = 26;
const UNALIGNED: u8 = 27;
const REPEATED: u8 = 28;
pub(crate) const CROSSES: u8 = 29;
pub(crate) const MISSING_BOARD: u8 = 30;
pub(crate) const AFTER_END: u8 = 31;
const OUTSIDE: u8 = 32;
const STORED: u8 = 33;
const PASSED: u8 = 34;
const ENDED: u8 = 35;
pub(crate) const FILE_TOO_LONG: u8 = 36;

const MAX_IMAGE_LEN: usize = 1_048_576;
pub(crate) const MAX_FILE_LEN: u32 = 4_194_304;
/// A section begins at a multiple of this offset.
pub(crate) const SECTION_LEN: u32 = 512;
/// The characters of the shortest and of the longest line, without its ending.
pub(crate) const MIN_CHARS: usize = 11;
const MAX_CHARS: usize = 521;
/// The data bytes of the longest record.
pub(crate) const MAX_DATA: usize = 32;
/// A record's bytes before its data: length, address (two), type.
const HEAD: usize = 4;
/// All bytes of the longest record, its sum included.
const MAX_RECORD: usize = HEAD + MAX_DATA + 1;
/// What a record's address field and length may reach together.
pub(crate) const SEGMENT_LEN: usize = 65_536;

pub(crate) const DATA: u8 = 0x00;
pub(crate) const END_OF_FILE: u8 = 0x01;
pub(crate) const UPPER_ADDRESS: u8 = 0x04;
pub(crate) const SECTION_START: u8 = 0x0A;
pub(crate) const SECTION_END: u8 = 0x0B;
pub(crate) const PADDING: u8 = 0x0C;
const CUSTOM_DATA: u8 = 0x0D;
const OTHER_DATA: u8 = 0x0E;

/// The answer to a line.
#[derive(Clone, Copy, PartialEq, Eq, Debug)]
pub struct Answer {
    /// Its number, 18 to 36.
    pub number: u8,
    /// Of a 22, the position of the first character that is no digit, counted
    /// from 0 at the colon; 0 with any other number.
    pub position: u16,
}

impl From<u8> for Answer {
    fn from(number: u8) -> Answer {
        Answer {
            number,
            position: 0,
        }
    }
}

/// A flag for each of the two boards that a file has to serve.
#[derive(Clone, Copy, PartialEq, Eq, Debug)]
pub struct Boards {
    pub v1: bool,
    pub v2: bool,
}

impl Boards {
    const NONE: Boards = Boards {
        v1: false,
        v2: false,
    };

    fn has(self, board: u16) -> bool {
        match board {
            V1 => self.v1,
            V2 => self.v2,
            _ => false,
        }
    }

    /// Sets the board's flag; a board other than V1 and V2 has none.
    fn with(self, board: u16) -> Boards {
        Boards {
            v1: self.v1 || board == V1,
            v2: self.v2 || board == V2,
        }
    }
}

/// Where the reader stands.
#[derive(Clone, Copy, PartialEq, Eq, Debug)]
pub enum Stand {
    /// Before a section or the 01.
    Between,
    /// A section's opening 04 has come.
    Opened,
    /// In the section of that board.
    Inside(u16),
    /// In it, after its first 0C.
    Padded(u16),
    /// After the 01.
    Ended,
    /// The remembered failure.
    Failed(Answer),
}

/// What is kept from one line to the next.
#[derive(Clone, Copy, PartialEq, Eq, Debug)]
pub struct Reader {
    /// Its own board, V1 or V2; any other makes a bad reader.
    pub own: u16,
    /// Bytes of the file read so far.
    pub offset: u32,
    pub stand: Stand,
    /// The latest 04's two bytes, high first.
    pub upper: u16,
    /// Which of V1 and V2 has had a section.
    pub came: Boards,
    /// Which of V1 and V2 gave a data byte.
    pub gave: Boards,
}

/// A record whose digits, length and sum are right.
pub(crate) struct Record {
    bytes: [u8; MAX_RECORD],
    len: usize,
}

impl Record {
    pub(crate) fn address(&self) -> u16 {
        u16::from_be_bytes([self.bytes[1], self.bytes[2]])
    }

    pub(crate) fn kind(&self) -> u8 {
        self.bytes[3]
    }

    pub(crate) fn data(&self) -> &[u8] {
        &self.bytes[HEAD..HEAD + self.len]
    }
}

/// A reader that stands before the first section.
pub fn fresh(own: u16) -> Reader {
    Reader {
        own,
        offset: 0,
        stand: Stand::Between,
        upper: 0,
        came: Boards::NONE,
        gave: Boards::NONE,
    }
}

/// Takes one line as handed, its ending included: the next reader and the
/// answer.
pub fn line(reader: Reader, line: &[u8], image: &mut [u8]) -> (Reader, Answer) {
    if !(1..=MAX_IMAGE_LEN).contains(&image.len()) {
        return (reader, BAD_IMAGE.into());
    }
    if !reader_good(&reader) {
        return (reader, BAD_READER.into());
    }
    match reader.stand {
        Stand::Failed(answer) => return (reader, answer),
        Stand::Ended => return (reader, AFTER_END.into()),
        _ => {}
    }
    match take(reader, line, image) {
        Ok((next, number)) => (next, number.into()),
        Err(failure) => {
            let stand = Stand::Failed(failure);
            (Reader { stand, ..reader }, failure)
        }
    }
}

fn reader_good(reader: &Reader) -> bool {
    let stand_good = match reader.stand {
        Stand::Failed(failure) => failure_good(failure),
        _ => true,
    };
    matches!(reader.own, V1 | V2) && reader.offset <= MAX_FILE_LEN && stand_good
}

/// "One handed in with 22 and a position outside 1 to 520 is 18." A position
/// beside any other number is not asked for; it is repeated as it came.
fn failure_good(failure: Answer) -> bool {
    match failure.number {
        BAD_DIGIT => (1..MAX_CHARS).contains(&failure.position.into()),
        number => matches!(number, NO_COLON..=MISSING_BOARD | FILE_TOO_LONG),
    }
}

/// A line for a reader that reads on: the next reader with one of 32 to 35, or
/// the failure. Only a line without failure gets as far as the image.
fn take(reader: Reader, line: &[u8], image: &mut [u8]) -> Result<(Reader, u8), Answer> {
    let offset = offset_after(reader.offset, line).ok_or(FILE_TOO_LONG)?;
    let record = read(without_ending(line))?;
    let (next, answer) = follow(reader, &record, image)?;
    Ok((Reader { offset, ..next }, answer))
}

fn offset_after(offset: u32, line: &[u8]) -> Option<u32> {
    let len = u32::try_from(line.len()).ok()?;
    let after = offset.checked_add(len)?;
    (after <= MAX_FILE_LEN).then_some(after)
}

/// Drops one LF and one CR before it; a CR alone is no ending.
pub(crate) fn without_ending(line: &[u8]) -> &[u8] {
    match line {
        [text @ .., b'\r', b'\n'] | [text @ .., b'\n'] => text,
        text => text,
    }
}

/// The line's own checks, 20 to 25.
pub(crate) fn read(text: &[u8]) -> Result<Record, Answer> {
    let [b':', digits @ ..] = text else {
        return Err(NO_COLON.into());
    };
    if !(MIN_CHARS..=MAX_CHARS).contains(&text.len()) || text.len().is_multiple_of(2) {
        return Err(BAD_SHAPE.into());
    }
    let (bytes, sum) = decode(digits).ok_or_else(|| bad_digit(digits))?;
    let len = usize::from(bytes[0]);
    if len > MAX_DATA {
        return Err(TOO_LONG.into());
    }
    if text.len() != MIN_CHARS + 2 * len {
        return Err(BAD_LENGTH.into());
    }
    if sum != 0 {
        return Err(BAD_SUM.into());
    }
    Ok(Record { bytes, len })
}

/// The answer for characters of which not all are digits; the first of them
/// stands after the colon.
fn bad_digit(digits: &[u8]) -> Answer {
    let good = digits
        .iter()
        .take_while(|&&character| digit(character) < 16);
    Answer {
        number: BAD_DIGIT,
        position: 1 + good.count() as u16,
    }
}

/// The bytes that the digits spell, with their sum, unless one is no digit. A
/// line may spell more bytes than the longest record has; its length is wrong
/// then, and of the excess it only matters whether it is digits.
fn decode(digits: &[u8]) -> Option<([u8; MAX_RECORD], u8)> {
    let (kept, excess) = digits.split_at(digits.len().min(2 * MAX_RECORD));
    let mut bytes = [0; MAX_RECORD];
    let mut sum = 0u8;
    // The bits of all values met; there is no branch on a single one, since
    // random data would make it a costly guess.
    let mut met = 0;
    for (byte, pair) in bytes.iter_mut().zip(kept.chunks_exact(2)) {
        let (high, low) = (digit(pair[0]), digit(pair[1]));
        met |= high | low;
        *byte = high << 4 | low;
        sum = sum.wrapping_add(*byte);
    }
    for &character in excess {
        met |= digit(character);
    }
    (met <= 15).then_some((bytes, sum))
}

/// The digit's value, or 255 for any other character.
fn digit(character: u8) -> u8 {
    let decimal = character.wrapping_sub(b'0');
    // The bit that a small letter has beyond its capital.
    let letter = (character | 0x20).wrapping_sub(b'a');
    if decimal < 10 {
        decimal
    } else if letter < 6 {
        letter + 10
    } else {
        u8::MAX
    }
}

/// What the record does where the reader stands: checks 26 to 30, then its
/// effect. The offset is left to the caller.
fn follow(reader: Reader, record: &Record, image: &mut [u8]) -> Result<(Reader, u8), u8> {
    let mut next = reader;
    let mut answer = PASSED;
    match (reader.stand, record.kind(), record.data()) {
        (Stand::Between, UPPER_ADDRESS, &[high, low]) => {
            if !reader.offset.is_multiple_of(SECTION_LEN) {
                return Err(UNALIGNED);
            }
            next.upper = u16::from_be_bytes([high, low]);
            next.stand = Stand::Opened;
        }
        (Stand::Between, END_OF_FILE, []) => {
            if !(reader.gave.v1 && reader.gave.v2) {
                return Err(MISSING_BOARD);
            }
            next.stand = Stand::Ended;
            answer = ENDED;
        }
        (Stand::Opened, SECTION_START, &[high, low, ..]) => {
            let board = u16::from_be_bytes([high, low]);
            if reader.came.has(board) {
                return Err(REPEATED);
            }
            next.came = reader.came.with(board);
            next.stand = Stand::Inside(board);
        }
        (Stand::Inside(_), UPPER_ADDRESS, &[high, low]) => {
            next.upper = u16::from_be_bytes([high, low]);
        }
        (Stand::Inside(board), kind, data) if kind == data_kind(board) => {
            if usize::from(record.address()) + data.len() > SEGMENT_LEN {
                return Err(CROSSES);
            }
            if !data.is_empty() {
                next.gave = reader.gave.with(board);
                if board == reader.own {
                    answer = store(data, reader.upper, record.address(), image);
                }
            }
        }
        (Stand::Inside(board) | Stand::Padded(board), PADDING, _) => {
            next.stand = Stand::Padded(board);
        }
        (Stand::Inside(_) | Stand::Padded(_), OTHER_DATA, _) => {}
        (Stand::Inside(_) | Stand::Padded(_), SECTION_END, _) => next.stand = Stand::Between,
        _ => return Err(OUT_OF_PLACE),
    }
    Ok((next, answer))
}

/// The type that data has in the board's section.
pub(crate) fn data_kind(board: u16) -> u8 {
    if board == V1 {
        DATA
    } else {
        CUSTOM_DATA
    }
}

/// Stores the data if the image has all of its place.
fn store(data: &[u8], upper: u16, address: u16, image: &mut [u8]) -> u8 {
    let start = (u32::from(upper) << 16 | u32::from(address)) as usize;
    let rest = image.get_mut(start..);
    match rest.and_then(|rest| rest.get_mut(..data.len())) {
        Some(place) => {
            place.copy_from_slice(data);
            STORED
        }
        None => OUTSIDE,
    }
}
