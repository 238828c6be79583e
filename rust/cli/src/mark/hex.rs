//! Lines of Universal Hex: written for a case, read by the proved reader, and by one with a switch for each known mistake.

use super::chance::Chance;
use super::right::{Answer, Played};
use proved::hex::{Board, HexAnswer, Reader, State, FILE_MAX_BYTES};

/// The image of the program `hexlines`.
pub const IMAGE_BYTES: usize = 262_144;

/// The bytes of hex digits, two each.
pub fn bytes_of(digits: &str) -> Option<Vec<u8>> {
    let digits: Option<Vec<u8>> = digits
        .chars()
        .map(|c| c.to_digit(16).map(|x| x as u8))
        .collect();
    let digits = digits.filter(|digits| digits.len() % 2 == 0)?;
    Some(
        digits
            .chunks(2)
            .map(|pair| 16 * pair[0] + pair[1])
            .collect(),
    )
}

/// A record as a line, without its ending.
pub fn record(kind: u8, address: u16, data: &[u8]) -> String {
    let mut bytes = vec![data.len() as u8];
    bytes.extend_from_slice(&address.to_be_bytes());
    bytes.push(kind);
    bytes.extend_from_slice(data);
    let sum = bytes.iter().fold(0u8, |sum, x| sum.wrapping_add(*x));
    bytes.push(sum.wrapping_neg());
    let digits: String = bytes.iter().map(|x| format!("{x:02X}")).collect();
    format!(":{digits}")
}

/// The lines of a case.
pub fn records(text: &[&str]) -> Result<Vec<Vec<u8>>, String> {
    let mut lines = Vec::new();
    for line in text {
        one(line, &mut lines).ok_or(format!("line '{line}'"))?;
    }
    Ok(lines)
}

fn one(line: &str, lines: &mut Vec<Vec<u8>>) -> Option<()> {
    let (word, rest) = line.split_once(' ').unwrap_or((line, ""));
    let (text, ending) = match word {
        "close" => {
            close(lines);
            return Some(());
        }
        "raw" => (rest.to_string(), "\n"),
        "lower" => (written(rest)?.to_lowercase(), "\n"),
        "cr" => (written(rest)?, "\r\n"),
        "bare" => (written(rest)?, ""),
        _ if line.starts_with(':') => (line.to_string(), "\n"),
        _ => (written(line)?, "\n"),
    };
    lines.push((text + ending).into_bytes());
    Some(())
}

/// TYPE DATA or TYPE@ADDRESS DATA.
fn written(text: &str) -> Option<String> {
    let (head, data) = text.split_once(' ').unwrap_or((text, ""));
    let (kind, address) = head.split_once('@').unwrap_or((head, "0000"));
    let kind = u8::from_str_radix(kind, 16).ok()?;
    let address = u16::from_str_radix(address, 16).ok()?;
    Some(record(kind, address, &bytes_of(data)?))
}

/// Filling and the 0B, so that the next line begins at a multiple of 512.
fn close(lines: &mut Vec<Vec<u8>>) {
    let offset: usize = lines.iter().map(Vec::len).sum();
    let mut rest = (512 - (offset + 12) % 512) % 512;
    while rest > 64 {
        lines.push((record(0x0C, 0, &[0xFF; 26]) + "\n").into_bytes());
        rest -= 64;
    }
    lines.push((record(0x0B, 0, &vec![0xFF; rest / 2]) + "\n").into_bytes());
}

/// Plays lines by the proved reader.
pub fn right(own: Board, lines: &[Vec<u8>]) -> Played {
    let mut reader = Reader::new(own);
    let mut contents = vec![0xFF; IMAGE_BYTES];
    let answers = lines
        .iter()
        .map(|line| Answer::hex(reader.line(line, &mut contents)));
    Played {
        answers: answers.collect(),
        end: end(reader),
        contents,
    }
}

/// The last line of the program, after its first word.
fn end(reader: Reader) -> String {
    let state = match reader.state {
        State::Between => "between".into(),
        State::Opened => "opened".into(),
        State::Inside(_) => "inside".into(),
        State::Padded(_) => "padded".into(),
        State::Ended => "ended".into(),
        State::Failed(HexAnswer::BadDigit(position)) => format!("failed 22 position {position}"),
        State::Failed(answer) => format!("failed {}", answer.number()),
    };
    let (v1, v2) = (u8::from(reader.data.v1), u8::from(reader.data.v2));
    format!("{state} offset {} v1 {v1} v2 {v2}", reader.offset)
}

macro_rules! mistakes {
    ($($name:ident $id:literal,)*) => {
        /// A known mistake of a reader of lines.
        #[derive(Clone, Copy, PartialEq, Eq, Debug)]
        pub enum Mistake { $($name),* }

        /// All of them, in the order of mistakes.json.
        pub const ALL: &[Mistake] = &[$(Mistake::$name),*];

        impl Mistake {
            /// Its name in mistakes.json.
            pub fn id(self) -> &'static str {
                match self { $(Mistake::$name => $id),* }
            }
        }
    };
}

mistakes! {
    OtherSection "hex-other-section",
    BothSections "hex-both-sections",
    Type00InV2 "hex-00-in-v2",
    Type0dInV1 "hex-0d-in-v1",
    NoSum "hex-no-sum",
    OffsetWithoutEnding "hex-offset-without-ending",
    SecondSection "hex-second-section",
    Crosses "hex-crosses",
    MissingBoard "hex-missing-board",
    DataAfter0c "hex-data-after-0c",
    UpperKept "hex-upper-kept",
    UpperIgnored "hex-upper-ignored",
    Cr "hex-cr",
    LowerCase "hex-lower-case",
    ReadsOn "hex-reads-on",
    StoresFailed "hex-stores-failed",
    StopsAt32 "hex-stops-at-32",
}

/// Where a student's reader stands.
#[derive(Clone, Copy, PartialEq, Eq)]
enum Stand {
    Between,
    Opened,
    Inside(u16),
    Padded(u16),
    Ended,
    Failed(u32, u32),
}

/// A line taken apart.
struct Line {
    kind: u8,
    address: u16,
    data: Vec<u8>,
}

/// A reader as a student writes it. Nothing of it is proved, and no right answer comes from it.
struct Student<'a> {
    on: &'a [Mistake],
    own: u16,
    stand: Stand,
    offset: usize,
    upper: u32,
    sections: Vec<u16>,
    gave: [bool; 2],
    image: Vec<u8>,
}

/// Plays lines by a reader with switches.
pub fn play(own: Board, lines: &[Vec<u8>], on: &[Mistake]) -> Played {
    let own = match (own, on.contains(&Mistake::OtherSection)) {
        (Board::V1, false) | (Board::V2, true) => 0x9900,
        _ => 0x9903,
    };
    let mut student = Student {
        on,
        own,
        stand: Stand::Between,
        offset: 0,
        upper: 0,
        sections: Vec::new(),
        gave: [false; 2],
        image: vec![0xFF; IMAGE_BYTES],
    };
    let answers = lines.iter().map(|line| student.line(line)).collect();
    Played {
        answers,
        end: student.end(),
        contents: student.image,
    }
}

impl Student<'_> {
    fn has(&self, mistake: Mistake) -> bool {
        self.on.contains(&mistake)
    }

    fn end(&self) -> String {
        let state = match self.stand {
            Stand::Between => "between".into(),
            Stand::Opened => "opened".into(),
            Stand::Inside(_) => "inside".into(),
            Stand::Padded(_) => "padded".into(),
            Stand::Ended => "ended".into(),
            Stand::Failed(22, position) => format!("failed 22 position {position}"),
            Stand::Failed(number, _) => format!("failed {number}"),
        };
        let [v1, v2] = self.gave.map(u8::from);
        format!("{state} offset {} v1 {v1} v2 {v2}", self.offset)
    }

    fn line(&mut self, line: &[u8]) -> Answer {
        if let Stand::Failed(number, more) = self.stand {
            return Answer { number, more };
        }
        let answered = |number: u32| Answer { number, more: 0 };
        if self.stand == Stand::Ended {
            return answered(31);
        }
        let text = line.strip_suffix(b"\n").unwrap_or(line);
        let text = match text.strip_suffix(b"\r") {
            Some(text) if !self.has(Mistake::Cr) => text,
            _ => text,
        };
        let read = match self.offset + line.len() > FILE_MAX_BYTES {
            true => Err(answered(36)),
            false => self
                .read(text)
                .and_then(|line| self.record(&line).map_err(answered)),
        };
        match read {
            Ok(number) => {
                self.offset += match self.has(Mistake::OffsetWithoutEnding) {
                    true => text.len(),
                    false => line.len(),
                };
                if number == 32 && self.has(Mistake::StopsAt32) {
                    self.stand = Stand::Failed(32, 0);
                }
                answered(number)
            }
            Err(failed) => {
                if !self.has(Mistake::ReadsOn) {
                    self.stand = Stand::Failed(failed.number, failed.more);
                }
                failed
            }
        }
    }

    /// Checks 20 to 25.
    fn read(&mut self, text: &[u8]) -> Result<Line, Answer> {
        let failed = |number: u32, more: usize| {
            let more = more as u32;
            Err(Answer { number, more })
        };
        if text.first() != Some(&b':') {
            return failed(20, 0);
        }
        if text.len() < 11 || text.len() > 521 || text.len() % 2 == 0 {
            return failed(21, 0);
        }
        let digit = |c: &u8| match c {
            b'a'..=b'f' if self.has(Mistake::LowerCase) => None,
            _ => char::from(*c).to_digit(16),
        };
        if let Some(at) = text[1..].iter().position(|c| digit(c).is_none()) {
            return failed(22, at + 1);
        }
        let digits: Vec<u8> = text[1..]
            .iter()
            .filter_map(digit)
            .map(|x| x as u8)
            .collect();
        let bytes: Vec<u8> = digits
            .chunks(2)
            .map(|pair| 16 * pair[0] + pair[1])
            .collect();
        if bytes[0] > 32 {
            return failed(23, 0);
        }
        if bytes.len() != 5 + usize::from(bytes[0]) {
            return failed(24, 0);
        }
        let line = Line {
            kind: bytes[3],
            address: u16::from_be_bytes([bytes[1], bytes[2]]),
            data: bytes[4..bytes.len() - 1].to_vec(),
        };
        let sum = bytes.iter().fold(0u8, |sum, x| sum.wrapping_add(*x));
        if sum != 0 && !self.has(Mistake::NoSum) {
            self.store_failed(&line);
            return failed(25, 0);
        }
        Ok(line)
    }

    /// Data of a line that failed, where it is stored.
    fn store_failed(&mut self, line: &Line) {
        if let (Stand::Inside(board), true) = (self.stand, self.has(Mistake::StoresFailed)) {
            if self.is_data(line.kind, board) && board == self.own {
                self.put(line);
            }
        }
    }

    fn is_data(&self, kind: u8, board: u16) -> bool {
        match (kind, board == 0x9900) {
            (0x00, true) | (0x0D, false) => true,
            (0x00, false) => self.has(Mistake::Type00InV2),
            (0x0D, true) => self.has(Mistake::Type0dInV1),
            _ => false,
        }
    }

    /// Whether the data lies in the image, where it is then stored.
    fn put(&mut self, line: &Line) -> bool {
        let upper = if self.has(Mistake::UpperIgnored) {
            0
        } else {
            self.upper
        };
        let at = upper as usize * 65_536 + usize::from(line.address);
        match self.image.get_mut(at..at + line.data.len()) {
            Some(part) => {
                part.copy_from_slice(&line.data);
                true
            }
            None => false,
        }
    }

    /// Checks 26 to 35.
    fn record(&mut self, line: &Line) -> Result<u32, u32> {
        let word = |data: &[u8]| u16::from_be_bytes([data[0], data[1]]);
        match (self.stand, line.kind, line.data.len()) {
            (Stand::Between, 4, 2) => {
                if self.offset % 512 != 0 {
                    return Err(27);
                }
                if !self.has(Mistake::UpperKept) {
                    self.upper = word(&line.data).into();
                }
                self.stand = Stand::Opened;
                Ok(34)
            }
            (Stand::Between, 1, 0) => {
                if self.gave != [true; 2] && !self.has(Mistake::MissingBoard) {
                    return Err(30);
                }
                self.stand = Stand::Ended;
                Ok(35)
            }
            (Stand::Opened, 0x0A, 2..) => {
                let board = word(&line.data);
                let known = board == 0x9900 || board == 0x9903;
                if known && self.sections.contains(&board) && !self.has(Mistake::SecondSection) {
                    return Err(28);
                }
                self.sections.push(board);
                self.stand = Stand::Inside(board);
                Ok(34)
            }
            (Stand::Inside(_), 4, 2) => {
                self.upper = word(&line.data).into();
                Ok(34)
            }
            (Stand::Inside(board), 0x0C, _) => {
                if !self.has(Mistake::DataAfter0c) {
                    self.stand = Stand::Padded(board);
                }
                Ok(34)
            }
            (Stand::Inside(_) | Stand::Padded(_), 0x0E, _) | (Stand::Padded(_), 0x0C, _) => Ok(34),
            (Stand::Inside(_) | Stand::Padded(_), 0x0B, _) => {
                self.stand = Stand::Between;
                Ok(34)
            }
            (Stand::Inside(board), kind, _) if self.is_data(kind, board) => self.data(board, line),
            _ => Err(26),
        }
    }

    fn data(&mut self, board: u16, line: &Line) -> Result<u32, u32> {
        let len = line.data.len();
        if usize::from(line.address) + len > 65_536 && !self.has(Mistake::Crosses) {
            self.store_failed(line);
            return Err(29);
        }
        if len == 0 {
            return Ok(34);
        }
        match board {
            0x9900 => self.gave[0] = true,
            0x9903 => self.gave[1] = true,
            _ => {}
        }
        if board != self.own && !self.has(Mistake::BothSections) {
            return Ok(34);
        }
        Ok(if self.put(line) { 33 } else { 32 })
    }
}

/// A random file, whole or damaged in a few lines.
pub fn chance(seed: u64, list: u64) -> (Board, Vec<Vec<u8>>) {
    let mut chance = Chance::new(seed, list);
    let own = chance.one(&[Board::V1, Board::V2]);
    let mut lines = Vec::new();
    let boards = if chance.below(2) == 0 {
        [0x9900u16, 0x9903]
    } else {
        [0x9903, 0x9900]
    };
    for board in boards {
        section(&mut chance, board, &mut lines);
    }
    lines.push((record(1, 0, &[]) + "\n").into_bytes());
    for _ in 0..chance.below(3) {
        damage(&mut chance, &mut lines);
    }
    (own, lines)
}

fn section(chance: &mut Chance, board: u16, lines: &mut Vec<Vec<u8>>) {
    let mut put = |text: String| lines.push((text + "\n").into_bytes());
    put(record(4, 0, &[0, chance.below(3) as u8]));
    let [high, low] = board.to_be_bytes();
    put(record(0x0A, 0, &[high, low, 0xC0, 0xDE]));
    for _ in 0..1 + chance.below(6) {
        let data: Vec<u8> = (0..1 + chance.below(31))
            .map(|_| chance.below(256) as u8)
            .collect();
        let kind = if board == 0x9900 { 0 } else { 0x0D };
        match chance.below(6) {
            0 => put(record(4, 0, &[0, chance.below(5) as u8])),
            1 => put(record(0x0E, 0, &data)),
            _ => put(record(kind, chance.below(60_000) as u16, &data)),
        }
    }
    close(lines);
}

/// A line that is changed, dropped, doubled or written otherwise.
fn damage(chance: &mut Chance, lines: &mut Vec<Vec<u8>>) {
    let at = chance.below(lines.len() as u32) as usize;
    let line = &mut lines[at];
    match chance.below(6) {
        0 => {
            let k = chance.below(line.len() as u32) as usize;
            line[k] = chance.one(b"0123456789ABCDEFGx:");
        }
        1 => {
            lines.remove(at);
        }
        2 => {
            let copy = line.clone();
            lines.insert(at, copy);
        }
        3 => line.make_ascii_lowercase(),
        4 => {
            let end = line.len() - 1;
            line.insert(end, b'\r');
        }
        _ => {
            let other = chance.below(lines.len() as u32) as usize;
            lines.swap(at, other);
        }
    }
    // a line is one line
    for line in lines.iter_mut() {
        if !line.ends_with(b"\n") {
            line.push(b'\n');
        }
    }
}
