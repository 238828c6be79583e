//! One Universal Hex from two plain Intel Hex files (02, L11).

use crate::hex::{
    data_kind, read, without_ending, Answer, AFTER_END, CROSSES, DATA, END_OF_FILE, FILE_TOO_LONG,
    MAX_DATA, MAX_FILE_LEN, MIN_CHARS, MISSING_BOARD, OUT_OF_PLACE, PADDING, SECTION_END,
    SECTION_LEN, SECTION_START, SEGMENT_LEN, UPPER_ADDRESS, V1, V2,
};

/// The types that only plain Intel Hex has: the segment's address, and the
/// start of the program by segment or linear address.
const SEGMENT_ADDRESS: u8 = 0x02;
const START_SEGMENT: u8 = 0x03;
const START_LINEAR: u8 = 0x05;

/// The data bytes of a 0C that fills, and the characters of its line.
const FILLING: usize = 26;
const FILLING_LINE: usize = line_len(FILLING);

/// Why nothing was written.
#[derive(Clone, Copy, PartialEq, Eq, Debug)]
pub struct JoinRefusal {
    /// Whose input it is about: V1's, V2's, or 0 for the output.
    pub board: u16,
    /// The line's index from 0; the number of lines for a missing 01 and for
    /// 30; 0 for the output.
    pub line: usize,
    pub answer: u32,
    /// The position of a 22, counted from 0 at the colon; 0 for any other.
    pub position: u32,
}

/// A refusal of an input whose board is not yet named.
struct Fault {
    line: usize,
    answer: Answer,
}

impl Fault {
    fn new(line: usize, answer: impl Into<Answer>) -> Fault {
        let answer = answer.into();
        Fault { line, answer }
    }
}

/// Data as it stands in the output: at least one byte, and no multiple of
/// 65,536 within.
struct Piece {
    address: u32,
    data: Vec<u8>,
}

impl Piece {
    fn upper(&self) -> u16 {
        (self.address >> 16) as u16
    }

    fn lower(&self) -> u16 {
        self.address as u16
    }
}

/// Writes the Universal Hex of both inputs and gives its length. A refusal
/// writes nothing, and what lies past the output stays.
pub fn join(v1: &[u8], v2: &[u8], out: &mut [u8]) -> Result<usize, JoinRefusal> {
    let first = pieces_of(V1, v1)?;
    let second = pieces_of(V2, v2)?;
    let mut text = Vec::new();
    section(V1, &first, &mut text);
    section(V2, &second, &mut text);
    record(END_OF_FILE, 0, &[], &mut text);
    let room = out.get_mut(..text.len());
    match room.filter(|room| room.len() <= MAX_FILE_LEN as usize) {
        Some(room) => room.copy_from_slice(&text),
        None => {
            return Err(JoinRefusal {
                board: 0,
                line: 0,
                answer: FILE_TOO_LONG.into(),
                position: 0,
            })
        }
    }
    Ok(text.len())
}

/// The board's input whole: its lines, then whether it has a data byte.
fn pieces_of(board: u16, file: &[u8]) -> Result<Vec<Piece>, JoinRefusal> {
    plain(file).map_err(|fault| JoinRefusal {
        board,
        line: fault.line,
        answer: fault.answer.number.into(),
        position: fault.answer.position.into(),
    })
}

fn plain(file: &[u8]) -> Result<Vec<Piece>, Fault> {
    let mut pieces = Vec::new();
    let mut base = 0;
    let mut offset = 0;
    let mut ended = false;
    let mut lines = 0;
    // "A line ends with its LF or the file", so that there is none after the
    // last LF, and an empty file has none.
    for (line, handed) in file.split_inclusive(|&byte| byte == b'\n').enumerate() {
        let fault = |number: u8| Fault::new(line, number);
        if ended {
            return Err(fault(AFTER_END));
        }
        offset += handed.len();
        if offset > MAX_FILE_LEN as usize {
            return Err(fault(FILE_TOO_LONG));
        }
        let record = read(without_ending(handed)).map_err(|answer| Fault::new(line, answer))?;
        match (record.kind(), record.data()) {
            (DATA, data) => {
                if usize::from(record.address()) + data.len() > SEGMENT_LEN {
                    return Err(fault(CROSSES));
                }
                // No sum passes 32 bits: an upper address is a multiple of
                // 65,536, and a segment's is under 1,048,576.
                split(base + u32::from(record.address()), data, &mut pieces);
            }
            (END_OF_FILE, []) => ended = true,
            // "The latest 02 or 04 ruling": one takes the other's place. The
            // end of a segment's 20 bits is no limit to the linear address.
            (SEGMENT_ADDRESS, &[high, low]) => base = u32::from_be_bytes([0, 0, high, low]) << 4,
            (UPPER_ADDRESS, &[high, low]) => base = u32::from_be_bytes([high, low, 0, 0]),
            (START_SEGMENT | START_LINEAR, [_, _, _, _]) => {}
            _ => return Err(fault(OUT_OF_PLACE)),
        }
        lines = line + 1;
    }
    if !ended {
        return Err(Fault::new(lines, OUT_OF_PLACE));
    }
    if pieces.is_empty() {
        return Err(Fault::new(lines, MISSING_BOARD));
    }
    Ok(pieces)
}

/// Adds the data in one piece, or in two where it crosses a multiple of 65,536;
/// empty data adds none.
fn split(address: u32, data: &[u8], pieces: &mut Vec<Piece>) {
    let room = SEGMENT_LEN - address as usize % SEGMENT_LEN;
    let (here, beyond) = data.split_at(room.min(data.len()));
    if !here.is_empty() {
        let data = here.to_vec();
        pieces.push(Piece { address, data });
    }
    if !beyond.is_empty() {
        split(address + room as u32, beyond, pieces);
    }
}

/// Adds the board's section, which ends at a multiple of 512 bytes as it begins
/// at one.
fn section(board: u16, pieces: &[Piece], text: &mut Vec<u8>) {
    // An input without data has been refused.
    let mut upper = pieces.first().map_or(0, Piece::upper);
    record(UPPER_ADDRESS, 0, &upper.to_be_bytes(), text);
    record(SECTION_START, 0, &board.to_be_bytes(), text);
    for piece in pieces {
        if piece.upper() != upper {
            upper = piece.upper();
            record(UPPER_ADDRESS, 0, &upper.to_be_bytes(), text);
        }
        record(data_kind(board), piece.lower(), &piece.data, text);
    }
    let end = text.len() + line_len(0);
    let mut missing = end.next_multiple_of(SECTION_LEN as usize) - end;
    while missing > 2 * MAX_DATA {
        record(PADDING, 0, &[0xFF; FILLING], text);
        missing -= FILLING_LINE;
    }
    // All lines are even, so that nothing is left beside these pairs.
    record(SECTION_END, 0, &[0xFF; MAX_DATA][..missing / 2], text);
}

/// The characters of a record with that many data bytes, its LF included.
const fn line_len(data_len: usize) -> usize {
    MIN_CHARS + 2 * data_len + 1
}

/// Adds a right record as a line.
fn record(kind: u8, address: u16, data: &[u8], text: &mut Vec<u8>) {
    let [high, low] = address.to_be_bytes();
    let head = [data.len() as u8, high, low, kind];
    let mut sum = 0u8;
    text.push(b':');
    for &byte in head.iter().chain(data) {
        sum = sum.wrapping_add(byte);
        digits(byte, text);
    }
    digits(sum.wrapping_neg(), text);
    text.push(b'\n');
}

fn digits(byte: u8, text: &mut Vec<u8>) {
    const DIGITS: &[u8; 16] = b"0123456789ABCDEF";
    text.push(DIGITS[usize::from(byte >> 4)]);
    text.push(DIGITS[usize::from(byte & 15)]);
}

#[cfg(test)]
mod tests;
