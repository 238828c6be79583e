//! A plain Rust reader of Universal Hex that finds digits in a table, as the proved one does: the same checks in the same order, so that
//! the form and not the wording is compared. It is for the benchmark alone; the comparison uses `reference`.

use reference::hex::{V1, V2};

/// The value of each byte as a hex digit, 16 where it is none.
static DIGITS: [u8; 256] = digits();

const fn digits() -> [u8; 256] {
    let mut table = [16; 256];
    let mut k = 0;
    while k < 10 {
        table[b'0' as usize + k] = k as u8;
        k += 1;
    }
    k = 0;
    while k < 6 {
        table[b'A' as usize + k] = 10 + k as u8;
        table[b'a' as usize + k] = 10 + k as u8;
        k += 1;
    }
    table
}

#[derive(Clone, Copy)]
enum State {
    Between,
    Opened,
    Inside(u16),
    Padded(u16),
    Ended,
    Failed(u8),
}

pub struct Reader {
    own: u16,
    offset: usize,
    state: State,
    upper: u16,
    sections: [bool; 2],
    data: [bool; 2],
}

fn index(board: u16) -> Option<usize> {
    match board {
        V1 => Some(0),
        V2 => Some(1),
        _ => None,
    }
}

impl Reader {
    pub fn fresh(own: u16) -> Reader {
        Reader {
            own,
            offset: 0,
            state: State::Between,
            upper: 0,
            sections: [false; 2],
            data: [false; 2],
        }
    }

    pub fn line(&mut self, line: &[u8], image: &mut [u8]) -> u8 {
        if !(1..=1_048_576).contains(&image.len()) {
            return 19;
        }
        let remembered =
            !matches!(self.state, State::Failed(n) if !(20..=30).contains(&n) && n != 36);
        if index(self.own).is_none() || self.offset > 4_194_304 || !remembered {
            return 18;
        }
        match self.state {
            State::Failed(answer) => return answer,
            State::Ended => return 31,
            _ => {}
        }
        match self.live(line, image) {
            Ok(answer) => {
                self.offset += line.len();
                answer
            }
            Err(answer) => {
                self.state = State::Failed(answer);
                answer
            }
        }
    }

    fn live(&mut self, line: &[u8], image: &mut [u8]) -> Result<u8, u8> {
        if self.offset + line.len() > 4_194_304 {
            return Err(36);
        }
        let text = match line {
            [text @ .., b'\r', b'\n'] | [text @ .., b'\n'] => text,
            text => text,
        };
        let [b':', digits @ ..] = text else {
            return Err(20);
        };
        if !(11..=521).contains(&text.len()) || text.len().is_multiple_of(2) {
            return Err(21);
        }
        let (bytes, sum) = decode(digits).ok_or(22)?;
        let len = usize::from(bytes[0]);
        if len > 32 {
            return Err(23);
        }
        if text.len() != 11 + 2 * len {
            return Err(24);
        }
        if sum != 0 {
            return Err(25);
        }
        let address = u16::from_be_bytes([bytes[1], bytes[2]]);
        self.follow(bytes[3], address, &bytes[4..4 + len], image)
    }

    fn follow(&mut self, kind: u8, address: u16, data: &[u8], image: &mut [u8]) -> Result<u8, u8> {
        match (self.state, kind, data) {
            (State::Between, 0x04, &[high, low]) => {
                if !self.offset.is_multiple_of(512) {
                    return Err(27);
                }
                self.upper = u16::from_be_bytes([high, low]);
                self.state = State::Opened;
            }
            (State::Between, 0x01, []) => {
                if self.data != [true; 2] {
                    return Err(30);
                }
                self.state = State::Ended;
                return Ok(35);
            }
            (State::Opened, 0x0A, &[high, low, ..]) => {
                let board = u16::from_be_bytes([high, low]);
                if let Some(k) = index(board) {
                    if self.sections[k] {
                        return Err(28);
                    }
                    self.sections[k] = true;
                }
                self.state = State::Inside(board);
            }
            (State::Inside(_), 0x04, &[high, low]) => self.upper = u16::from_be_bytes([high, low]),
            (State::Inside(board), kind, data) if kind == if board == V1 { 0x00 } else { 0x0D } => {
                return self.data(board, address, data, image);
            }
            (State::Inside(board) | State::Padded(board), 0x0C, _) => {
                self.state = State::Padded(board);
            }
            (State::Inside(_) | State::Padded(_), 0x0E, _) => {}
            (State::Inside(_) | State::Padded(_), 0x0B, _) => self.state = State::Between,
            _ => return Err(26),
        }
        Ok(34)
    }

    fn data(&mut self, board: u16, address: u16, data: &[u8], image: &mut [u8]) -> Result<u8, u8> {
        if usize::from(address) + data.len() > 65_536 {
            return Err(29);
        }
        if data.is_empty() {
            return Ok(34);
        }
        if let Some(k) = index(board) {
            self.data[k] = true;
        }
        if board != self.own {
            return Ok(34);
        }
        let start = usize::from(self.upper) << 16 | usize::from(address);
        match image
            .get_mut(start..)
            .and_then(|rest| rest.get_mut(..data.len()))
        {
            Some(place) => {
                place.copy_from_slice(data);
                Ok(33)
            }
            None => Ok(32),
        }
    }
}

/// The bytes that the digits spell, and their sum, unless one is no digit.
fn decode(digits: &[u8]) -> Option<([u8; 37], u8)> {
    let (kept, excess) = digits.split_at(digits.len().min(74));
    let mut bytes = [0; 37];
    let (mut sum, mut met) = (0u8, 0);
    for (byte, pair) in bytes.iter_mut().zip(kept.chunks_exact(2)) {
        let (high, low) = (DIGITS[usize::from(pair[0])], DIGITS[usize::from(pair[1])]);
        met |= high | low;
        *byte = high << 4 | low & 15;
        sum = sum.wrapping_add(*byte);
    }
    for &character in excess {
        met |= DIGITS[usize::from(character)];
    }
    (met < 16).then_some((bytes, sum))
}
