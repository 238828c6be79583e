//! Lines of Universal Hex, whole files and damaged ones, and readers of any content, from a seed.

use reference::hex::{Answer, Boards, Reader, Stand, V1, V2};

use crate::Random;

/// The most bytes of a file.
pub const FILE: u32 = 4_194_304;

// ---- readers as bytes, said a second time

pub fn bytes_of(reader: Reader) -> [u8; 16] {
    let (stand, failure, half) = match reader.stand {
        Stand::Between => (0, 0, 0),
        Stand::Opened => (1, 0, 0),
        Stand::Inside(b) => (2, 0, b),
        Stand::Padded(b) => (3, 0, b),
        Stand::Ended => (4, 0, 0),
        Stand::Failed(a) => (5, a.number, a.position),
    };
    let mut bytes = [0; 16];
    let numbers = u128::from(reader.own)
        | u128::from(reader.upper) << 16
        | u128::from(reader.offset) << 32
        | u128::from(stand as u8) << 64
        | u128::from(failure) << 72
        | u128::from(half) << 80;
    bytes.copy_from_slice(&numbers.to_le_bytes());
    let Boards { v1, v2 } = reader.came;
    (bytes[12], bytes[13]) = (v1.into(), v2.into());
    let Boards { v1, v2 } = reader.gave;
    (bytes[14], bytes[15]) = (v1.into(), v2.into());
    bytes
}

/// The reader that bytes are; what is none is one of no board.
pub fn reader_of(bytes: &[u8]) -> Reader {
    let Ok(sixteen) = <[u8; 16]>::try_from(bytes) else {
        return reference::hex::fresh(0);
    };
    let numbers = u128::from_le_bytes(sixteen);
    let half = (numbers >> 80) as u16;
    let stand = match sixteen[8] {
        0 => Stand::Between,
        1 => Stand::Opened,
        2 => Stand::Inside(half),
        3 => Stand::Padded(half),
        4 => Stand::Ended,
        // the two bytes are the position of a 22, and are not read with any other failure
        5 => Stand::Failed(Answer {
            number: sixteen[9],
            position: if sixteen[9] == 22 { half } else { 0 },
        }),
        _ => return reference::hex::fresh(0),
    };
    let flag = |at: usize| sixteen[at] != 0;
    Reader {
        own: numbers as u16,
        offset: (numbers >> 32) as u32,
        stand,
        upper: (numbers >> 16) as u16,
        came: Boards {
            v1: flag(12),
            v2: flag(13),
        },
        gave: Boards {
            v1: flag(14),
            v2: flag(15),
        },
    }
}

/// The reader as a value of the proved side; none where it has no such value, as a reader of a board that is neither V1 nor V2.
pub fn proved_reader(reader: Reader) -> Option<proved::hex::Reader> {
    let boards = |b: Boards| proved::hex::Boards { v1: b.v1, v2: b.v2 };
    Some(proved::hex::Reader {
        own: proved::hex::Board::from_number(reader.own)?,
        offset: reader.offset,
        state: match reader.stand {
            Stand::Between => proved::hex::State::Between,
            Stand::Opened => proved::hex::State::Opened,
            Stand::Inside(b) => proved::hex::State::Inside(b),
            Stand::Padded(b) => proved::hex::State::Padded(b),
            Stand::Ended => proved::hex::State::Ended,
            Stand::Failed(a) => proved::hex::State::Failed(proved::hex::HexAnswer::from_number(
                a.number, a.position,
            )?),
        },
        upper: reader.upper,
        sections: boards(reader.came),
        data: boards(reader.gave),
    })
}

/// Bytes of a reader of any content, of 16 bytes.
pub fn any_reader(r: &mut Random) -> [u8; 16] {
    let number = r.draw();
    let mut bytes = bytes_of(Reader {
        own: any_own(r),
        offset: any_offset(r),
        stand: any_stand(r),
        upper: r.of(&[0, 0, 0, 0, 1, 0xFFFF, 0x0100, number as u16]),
        came: boards(number >> 32),
        gave: boards(number >> 34),
    });
    for flag in &mut bytes[12..] {
        *flag *= r.of(&[1, 1, 2, 128, 255]);
    }
    if r.one_in(12) {
        bytes[8] = r.of(&[5, 5, 5, 5, 6, 7, 128, 255]);
    }
    // the bytes that are written as 0 may be anything
    if bytes[8] == 5 || r.one_in(4) {
        bytes[9] = r.of(&[number as u8, 17 + (number % 21) as u8]);
    }
    if r.one_in(8) {
        bytes[10..12].copy_from_slice(&(number as u16).to_be_bytes());
    }
    if bytes[8] == 5 {
        let position = r.of(&[0, 1, 2, 75, 519, 520, 521, 0xFFFF, number as u16]);
        bytes[10..12].copy_from_slice(&position.to_le_bytes());
    }
    bytes
}

/// A line of digits alone of a length that row 21 lets through, some of them made none, with an ending; row 22 refuses it.
pub fn bad_digits(r: &mut Random) -> Vec<u8> {
    let chars = 11 + 2 * r.below(256) as usize;
    let mut line: Vec<u8> = (0..chars)
        .map(|_| r.of(b"0123456789ABCDEFabcdef"))
        .collect();
    line[0] = b':';
    for _ in 0..r.of(&[1, 1, 2, 3]) {
        let any = 1 + r.below(chars as u64 - 1) as usize;
        let at = r.of(&[1, 2, chars - 1, any]);
        line[at] = r.of(b":/;@GQ`gq Oo.\r\n\0\x7F\x80\xFF");
    }
    line.extend_from_slice(r.of(&ENDINGS));
    line
}

fn any_own(r: &mut Random) -> u16 {
    if r.one_in(16) {
        return r.of(&[0, V1 + 1, V1 + 2, V2 + 1, 0x0099, 0x0399, 0xFFFF]);
    }
    r.of(&[V1, V2])
}

fn any_offset(r: &mut Random) -> u32 {
    match r.below(16) {
        0 => r.of(&[FILE + 1, u32::MAX, FILE, FILE - 1]),
        1 | 2 => FILE - r.below(90) as u32,
        3 | 4 => r.of(&[1, 511, 513, 256]),
        5 => r.draw() as u32 % FILE,
        _ => 512 * (r.draw() as u32 % 8192),
    }
}

fn any_stand(r: &mut Random) -> Stand {
    let board = any_board(r);
    match r.below(16) {
        0 => Stand::Ended,
        1 | 2 => Stand::Padded(board),
        3..=5 => Stand::Between,
        6 | 7 => Stand::Opened,
        _ => Stand::Inside(board),
    }
}

fn boards(bits: u64) -> Boards {
    Boards {
        v1: bits & 1 != 0,
        v2: bits & 2 != 0,
    }
}

fn any_board(r: &mut Random) -> u16 {
    let number = r.draw() as u16;
    r.of(&[V1, V1, V2, V2, V1 + 1, V2 + 1, 0, 0xFFFF, 0x0099, number])
}

// ---- lines

const DIGITS: &[u8; 16] = b"0123456789ABCDEF";
pub const ENDINGS: [&[u8]; 3] = [b"\n", b"\r\n", b""];

/// Bytes as a line with no ending, and after them the sum that they need.
fn spelled(bytes: &[u8]) -> Vec<u8> {
    let sum = bytes.iter().fold(0u8, |s, &b| s.wrapping_sub(b));
    let mut line = vec![b':'];
    for &b in bytes.iter().chain(&[sum]) {
        line.extend([DIGITS[usize::from(b >> 4)], DIGITS[usize::from(b & 15)]]);
    }
    line
}

/// A record as a line with no ending.
pub fn record(kind: u8, address: u16, data: &[u8]) -> Vec<u8> {
    let [high, low] = address.to_be_bytes();
    let mut bytes = vec![data.len() as u8, high, low, kind];
    bytes.extend_from_slice(data);
    spelled(&bytes)
}

fn any_data(r: &mut Random, n: usize) -> Vec<u8> {
    (0..n).map(|_| r.draw() as u8).collect()
}

/// An address that data of n bytes may have, often near the end of the image, or of what one 04 reaches.
fn any_address(r: &mut Random, image: usize, n: usize) -> u16 {
    let end = image.saturating_sub(n) as u64;
    let most = 65_536 - n as u64;
    let at = match r.below(8) {
        0 => 0,
        1 => end,
        2 => end + 1,
        3 => end.saturating_sub(1),
        4 => most,
        _ => r.below(image.max(1) as u64),
    };
    at.min(most).min(65_535) as u16
}

/// A line of random characters, most of them digits, of a length near a bound.
pub fn any_text(r: &mut Random) -> Vec<u8> {
    let n: u64 = match r.below(12) {
        0 => r.below(4),
        1..=3 => r.below(4) + 9,
        4..=6 => r.below(7) + 517,
        7 => r.below(3000),
        _ => r.below(80),
    };
    let odd = r.of(&[1, 30, 1_000_000]);
    let mut line: Vec<u8> = (0..n)
        .map(|_| {
            if r.one_in(odd) {
                r.draw() as u8
            } else {
                r.of(b"0123456789ABCDEFabcdef")
            }
        })
        .collect();
    if !line.is_empty() && !r.one_in(8) {
        line[0] = b':';
    }
    // a length field that says how long the line is, or nearly
    if n >= 11 && r.one_in(2) {
        let len = ((n - 11) / 2 + r.below(3)).saturating_sub(1) as u8;
        line[1] = DIGITS[usize::from(len >> 4)];
        line[2] = DIGITS[usize::from(len & 15)];
    }
    line.extend(r.of(&ENDINGS));
    line
}

/// A record of any type, length and address for a reader that stands anywhere.
pub fn any_record(r: &mut Random, image: usize) -> Vec<u8> {
    let n = r.of(&[0, 1, 2, 2, 2, 3, 4, 16, 31, 32, 33]);
    let kind = r.of(&[0, 0, 13, 13, 1, 4, 10, 11, 12, 14, 2, 3, 5, 15, 255]);
    let mut data = any_data(r, n);
    if n >= 2 && r.one_in(2) {
        let two = if kind == 4 {
            r.below(3) as u16
        } else {
            any_board(r)
        };
        data[..2].copy_from_slice(&two.to_be_bytes());
    }
    let mut address = any_address(r, image, n);
    if r.one_in(8) {
        address = address.wrapping_add(r.below(3) as u16);
    }
    let n = if kind == 1 && !r.one_in(4) { 0 } else { n };
    let mut line = record(kind, address, &data[..n]);
    letters(r, &mut line);
    line.extend(r.of(&ENDINGS));
    line
}

/// Capital letters, small ones or both.
fn letters(r: &mut Random, line: &mut [u8]) {
    match r.below(4) {
        0 => line.make_ascii_lowercase(),
        1 => line
            .iter_mut()
            .filter(|_| r.one_in(2))
            .for_each(|c| c.make_ascii_lowercase()),
        _ => {}
    }
}

// ---- files

/// A file as it is written, line by line.
pub struct Text {
    ending: &'static [u8],
    len: usize,
    pub lines: Vec<Vec<u8>>,
}

impl Text {
    pub fn new(ending: &'static [u8]) -> Text {
        Text {
            ending,
            len: 0,
            lines: Vec::new(),
        }
    }

    pub fn put(&mut self, mut line: Vec<u8>) {
        line.extend_from_slice(self.ending);
        self.len += line.len();
        self.lines.push(line);
    }

    /// A section's opening 04 and its 0A.
    pub fn open(&mut self, upper: u16, board: u16, further: &[u8]) {
        self.put(record(4, 0, &upper.to_be_bytes()));
        let mut data = board.to_be_bytes().to_vec();
        data.extend_from_slice(further);
        self.put(record(10, 0, &data));
    }

    /// A section's 0B, with records 0C before it so that it ends at a multiple of 512.
    pub fn close(&mut self, data: &[u8]) {
        let last = record(11, 0, data);
        let least = 11 + self.ending.len();
        let mut room = (512 - (self.len + last.len() + self.ending.len()) % 512) % 512;
        // as many lines as can fill the room, with up to 32 data bytes each
        let fills = |room: usize, k: usize| {
            k * least <= room
                && (room - k * least).is_multiple_of(2)
                && (room - k * least) / 2 <= 32 * k
        };
        let lines = loop {
            match (0..64).find(|&k| fills(room, k)) {
                Some(k) => break k,
                None => room += 512,
            }
        };
        let mut left = (room - lines * least) / 2;
        for _ in 0..lines {
            let n = left.min(32);
            left -= n;
            self.put(record(12, 0, &vec![0xFF; n]));
        }
        self.put(last);
    }

    pub fn end(&mut self) {
        self.put(record(1, 0, &[]));
    }
}

/// Own or other data, a further 04, or an 0E.
fn any_item(r: &mut Random, board: u16, image: usize) -> Vec<u8> {
    let n = r.of(&[0, 1, 2, 16, 16, 31, 32, 32, 32]);
    let data = any_data(r, n);
    match r.below(10) {
        0 => record(4, 0, &r.of(&[0u16, 0, 0, 1, 15, 16, 0xFFFF]).to_be_bytes()),
        1 => record(14, 0, &data),
        _ => {
            let kind = if board == V1 { 0 } else { 13 };
            // one byte too far, now and then
            let address = match (n, r.one_in(60)) {
                (2.., true) => (65_536 - n + 1) as u16,
                _ => any_address(r, image, n),
            };
            record(kind, address, &data)
        }
    }
}

/// A file for both boards and for further ones, its sections in any order: right, or with sections that are repeated, left out or not
/// aligned.
pub fn any_file(r: &mut Random, image: usize) -> Vec<Vec<u8>> {
    let mut text = Text::new(r.of(&ENDINGS));
    let mut sections = vec![V1, V2];
    for _ in 0..r.of(&[0, 0, 1, 2]) {
        let further = if r.one_in(6) {
            r.of(&[V1, V2])
        } else {
            any_board(r) | 1
        };
        sections.push(further);
    }
    r.shuffle(&mut sections);
    if r.one_in(12) {
        sections.pop();
    }
    for board in sections {
        let further = r.of(&[2, 2, 0, 30]);
        text.open(r.of(&[0, 0, 0, 1]), board, &any_data(r, further));
        let kind = if board == V1 { 0 } else { 13 };
        let first = any_data(r, 1);
        text.put(record(kind, any_address(r, image, 1), &first));
        for _ in 0..r.below(14) {
            text.put(any_item(r, board, image));
        }
        if r.one_in(16) {
            text.put(record(11, 0, &[]));
        } else {
            let n = r.of(&[0, 0, 8]);
            text.close(&any_data(r, n));
        }
    }
    text.end();
    if r.one_in(4) {
        text.end();
    }
    for line in &mut text.lines {
        letters(r, line);
    }
    text.lines
}

// ---- damage

/// One thing in a file changed.
pub fn damage(r: &mut Random, lines: &mut Vec<Vec<u8>>) {
    let k = r.below(lines.len() as u64) as usize;
    let other = r.below(lines.len() as u64) as usize;
    match r.below(12) {
        0 => lines.swap(k, other),
        1 => lines.insert(other, lines[k].clone()),
        2 if lines.len() > 1 => drop(lines.remove(k)),
        3 => lines.insert(k, any_text(r)),
        4..=6 => respell(r, &mut lines[k]),
        7 => {
            let ending = r.of(&[
                b"\r".as_slice(),
                b"\n\r",
                b"\r\r\n",
                b"\n\n",
                b" \n",
                b"\r\n",
                b"",
            ]);
            let text = lines[k].iter().take_while(|&&c| c > 32).count();
            lines[k].truncate(text);
            lines[k].extend_from_slice(ending);
        }
        _ => damage_line(r, &mut lines[k]),
    }
}

/// A character changed, dropped or doubled, or the line cut.
fn damage_line(r: &mut Random, line: &mut Vec<u8>) {
    if line.is_empty() {
        return;
    }
    let at = r.below(line.len() as u64) as usize;
    match r.below(5) {
        0 => drop(line.remove(at)),
        1 => line.insert(at, line[at]),
        2 => line.truncate(at),
        3 => line[at] = r.of(b"0123456789ABCDEFabcdef"),
        _ => line[at] = r.of(b":/;@GQ`gq Oo.\r\n\0\x7F\x80\xFF"),
    }
}

/// A field of a record changed, and its sum made right again, or changed itself.
fn respell(r: &mut Random, line: &mut Vec<u8>) {
    let digits = line.iter().filter_map(|&c| char::from(c).to_digit(16));
    let digits: Vec<u8> = digits.map(|d| d as u8).collect();
    let mut bytes: Vec<u8> = digits.chunks_exact(2).map(|p| p[0] << 4 | p[1]).collect();
    if bytes.len() < 5 {
        return;
    }
    bytes.pop();
    let n = bytes[0];
    match r.below(8) {
        0 => bytes[0] = r.of(&[n.wrapping_sub(1), n.wrapping_add(1), 31, 32, 33, 0, 255]),
        1 | 2 => bytes[3] = r.below(17) as u8,
        3 | 4 => {
            let past = 0u16
                .wrapping_sub(u16::from(n))
                .wrapping_add(r.below(3) as u16);
            let address = r.of(&[past, past, past.wrapping_sub(1), 0, 0xFFFF]);
            bytes[1..3].copy_from_slice(&address.to_be_bytes());
        }
        5 => bytes.truncate(4 + r.below(u64::from(n) + 1) as usize),
        6 if bytes.len() < 250 => bytes.push(r.draw() as u8),
        _ => {}
    }
    if bytes.len() <= 36 && !r.one_in(3) {
        bytes[0] = (bytes.len() - 4) as u8;
    }
    let ending = line
        .iter()
        .skip_while(|&&c| c > 32)
        .copied()
        .collect::<Vec<u8>>();
    *line = spelled(&bytes);
    if r.one_in(6) {
        let at = line.len() - 1;
        line[at] = r.of(DIGITS);
    }
    line.extend(ending);
}
