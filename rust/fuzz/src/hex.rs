//! uhex_new, uhex_line and uhex_join.

use reference::hex::{fresh, line as answered, Answer, Boards, Reader, Stand};
use reference::join::{join as joined, JoinRefusal};

use crate::board::{put, word_at};
use crate::calls;
use crate::input::Input;
use crate::receiver::Desk;

pub const MOST_IMAGE: usize = 4096;
pub const MOST_TEXT: usize = 65_536;
const READER: usize = 16;

/// The bytes of a reader.
fn bytes_of(reader: Reader) -> [u8; READER] {
    let (state, failure, half) = match reader.stand {
        Stand::Between => (0, 0, 0),
        Stand::Opened => (1, 0, 0),
        Stand::Inside(board) => (2, 0, board),
        Stand::Padded(board) => (3, 0, board),
        Stand::Ended => (4, 0, 0),
        Stand::Failed(answer) => (5, answer.number, answer.position),
    };
    let mut bytes = [0; READER];
    put(
        &mut bytes,
        0,
        u32::from(reader.own) | u32::from(reader.upper) << 16,
    );
    put(&mut bytes, 4, reader.offset);
    (bytes[8], bytes[9]) = (state, failure);
    bytes[10..12].copy_from_slice(&half.to_le_bytes());
    let Boards { v1, v2 } = reader.came;
    (bytes[12], bytes[13]) = (v1.into(), v2.into());
    let Boards { v1, v2 } = reader.gave;
    (bytes[14], bytes[15]) = (v1.into(), v2.into());
    bytes
}

/// The reader that bytes are; what is none is one of no board.
fn reader_of(bytes: &[u8]) -> Reader {
    if bytes.len() != READER {
        return fresh(0);
    }
    let half = u16::from_le_bytes([bytes[10], bytes[11]]);
    let stand = match bytes[8] {
        0 => Stand::Between,
        1 => Stand::Opened,
        2 => Stand::Inside(half),
        3 => Stand::Padded(half),
        4 => Stand::Ended,
        5 => Stand::Failed(Answer {
            number: bytes[9],
            position: if bytes[9] == 22 { half } else { 0 },
        }),
        _ => return fresh(0),
    };
    let boards = |at: usize| Boards {
        v1: bytes[at] != 0,
        v2: bytes[at + 1] != 0,
    };
    Reader {
        own: word_at(bytes, 0) as u16,
        offset: word_at(bytes, 4),
        stand,
        upper: (word_at(bytes, 0) >> 16) as u16,
        came: boards(12),
        gave: boards(14),
    }
}

pub fn new(desk: &mut Desk, input: &mut Input) {
    let (own, length, byte) = (input.word16(), usize::from(input.byte() % 34), input.byte());
    let reader = desk.small.fill(length, byte);
    calls::uhex_new(own, reader);
    if length == READER {
        desk.small.holds(&bytes_of(fresh(own)), "reader");
    } else {
        desk.small.holds(&vec![byte; length], "reader");
    }
}

/// A reader of any content, mostly one that a file leads to.
fn reader(input: &mut Input) -> Vec<u8> {
    let mut bytes = vec![0; READER];
    let shape = input.byte();
    let own: u32 = if shape & 1 == 0 { 0x9900 } else { 0x9903 };
    put(&mut bytes, 0, own);
    if shape < 128 {
        return bytes;
    }
    bytes[2..4].copy_from_slice(&input.of(&[0u16, 1, 0xFFFF, 0x10]).to_le_bytes());
    put(
        &mut bytes,
        4,
        input.word_of(&[0, 512, 511, 4_194_304, 4_194_290, 4_194_305]),
    );
    bytes[8] = input.byte() % 7;
    bytes[9] = if bytes[8] == 5 {
        17 + input.byte() % 21
    } else {
        input.byte() & 1
    };
    let half = input.of(&[0x9900u16, 0x9903, 0x9901, 0, 1, 520, 521, 0xFFFF]);
    bytes[10..12].copy_from_slice(&half.to_le_bytes());
    let flags = input.byte();
    for (i, byte) in bytes[12..].iter_mut().enumerate() {
        *byte = (flags >> i & 1) * if flags & 128 != 0 { 7 } else { 1 };
    }
    if shape >= 248 {
        bytes[usize::from(input.byte()) % READER] = input.byte();
    }
    bytes.resize(input.length(READER, 64), 0);
    bytes
}

const TYPES: [u8; 16] = [
    0, 0, 0, 1, 2, 3, 4, 5, 0x0A, 0x0B, 0x0C, 0x0D, 0x0E, 0x0F, 4, 0x0A,
];

/// A record as a line, its sum right but where it is spoilt.
fn record(input: &mut Input, out: &mut Vec<u8>) {
    let shape = input.byte();
    let kind = TYPES[usize::from(shape & 15)];
    let length = match kind {
        0 | 0x0C | 0x0D | 0x0E => input.byte() % 34,
        1 | 0x0B => 0,
        3 | 5 | 0x0A => 4,
        _ => 2,
    };
    let length = match shape {
        252.. => 255,
        240.. => input.byte(),
        _ => length,
    };
    let address = if shape & 16 != 0 {
        input.word16()
    } else {
        u16::from(input.byte())
    };
    let mut bytes = vec![length, (address >> 8) as u8, address as u8, kind];
    // up to a line that is longer than any may be
    let most = if shape >= 248 {
        usize::from(length) + usize::from(input.byte() & 3)
    } else {
        usize::from(length.min(40))
    };
    for i in 0..most {
        let any = input.byte();
        bytes.push(match (kind, i) {
            // mostly one of the two boards, and the rest of a section's start
            (0x0A, 0) if any < 250 => 0x99,
            (0x0A, 1) => [0x00, 0x03, 0x01][usize::from(any) % 3],
            (0x0A, 2) => 0xC0,
            (0x0A, 3) => 0xDE,
            (2 | 4, 0) if any < 200 => 0,
            _ => any,
        });
    }
    let sum = bytes.iter().fold(0u8, |sum, &byte| sum.wrapping_add(byte));
    bytes.push(sum.wrapping_neg() ^ u8::from(shape & 0xE0 == 0xC0));
    out.push(b':');
    for byte in bytes {
        let text = if shape & 32 == 0 {
            format!("{byte:02X}")
        } else {
            format!("{byte:02x}")
        };
        out.extend_from_slice(text.as_bytes());
    }
    // any character
    if shape & 0xE0 == 0xA0 {
        let at = out.len() - 1 - usize::from(input.byte()) % out.len().min(80);
        out[at] = input.byte();
    }
    out.extend_from_slice(if shape & 64 == 0 { b"\n" } else { b"\r\n" });
}

/// The records that fill a section up to a multiple of 512.
fn fill(out: &mut Vec<u8>) {
    let missing = out.len().next_multiple_of(512) - out.len();
    if missing >= 12 + 10 {
        let n = ((missing - 12) / 2).min(250);
        let line = format!(":{:02X}00000C", n.min(32));
        out.extend_from_slice(line.as_bytes());
        out.resize(out.len() + 2 * n.min(32), b'F');
        out.extend_from_slice(b"00\n");
    }
}

/// A text: as it is after a first byte of 0, else records; `fills` pads sections.
fn text(input: &mut Input, fills: bool, most: usize) -> Vec<u8> {
    if input.byte() == 0 {
        return input.some(8192).to_vec();
    }
    let mut out = Vec::with_capacity(2048);
    for _ in 0..most {
        if fills && input.byte() >= 240 {
            fill(&mut out);
        }
        record(input, &mut out);
        if input.is_empty() || input.byte() >= 250 {
            break;
        }
    }
    out
}

pub fn line(desk: &mut Desk, input: &mut Input) {
    let mut state = reader(input);
    let image_len = match input.byte() {
        255 => 0,
        b => 1 + 16 * usize::from(b),
    };
    let file = text(input, true, 24);
    let mut image = vec![0xE0; image_len];
    desk.image.fill(image_len, 0xE0);
    for text in file.split_inclusive(|&c| c == b'\n') {
        let before = reader_of(&state);
        let (after, answer) = answered(before, text, &mut image);
        let got = calls::uhex_line(
            desk.small.copy(&state),
            desk.sent.copy(text),
            desk.image.bytes(),
        );
        let wanted = u32::from(answer.number) + 256 * u32::from(answer.position);
        assert_eq!(got, wanted, "answer");
        // 18, 19, 31 and the answer of a reader that had failed leave its bytes as they were lent
        let failed = matches!(before.stand, Stand::Failed(_));
        if !failed && !matches!(answer.number, 18 | 19 | 31) {
            state = bytes_of(after).to_vec();
        }
        desk.small.holds(&state, "reader");
        desk.image.holds(&image, "image");
    }
}

pub fn join(desk: &mut Desk, input: &mut Input) {
    let room = input.length(8192, 16_384);
    let split = usize::from(input.word16());
    let (v1, v2) = if input.byte() == 0 {
        // one text in two: as seeds are
        let rest = input.rest();
        let (v1, v2) = rest.split_at(split.min(rest.len()));
        (
            v1[..v1.len().min(8192)].to_vec(),
            v2[..v2.len().min(8192)].to_vec(),
        )
    } else {
        let ends = input.byte();
        let (mut v1, mut v2) = (text(input, false, 10), text(input, false, 10));
        for (file, bit) in [(&mut v1, 1), (&mut v2, 2)] {
            if ends & bit == 0 {
                file.extend_from_slice(b":00000001FF\n");
            }
        }
        (v1, v2)
    };
    let mut wanted = vec![0x5A; room];
    let made = joined(&v1, &v2, &mut wanted);
    let [first, second, output] = &mut desk.text;
    let got = calls::uhex_join(first.copy(&v1), second.copy(&v2), output.fill(room, 0x5A));
    let number = match made {
        Ok(length) => (length as u64) << 32,
        Err(JoinRefusal {
            board,
            line,
            answer,
            position,
        }) => {
            let board = match board {
                reference::hex::V1 => 1,
                reference::hex::V2 => 2,
                _ => 0u64,
            };
            u64::from(answer) | u64::from(position) << 8 | board << 24 | (line as u64) << 32
        }
    };
    assert_eq!(got, number, "result: {made:?}");
    desk.text[2].holds(&wanted, "output");
}
