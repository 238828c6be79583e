//! Lines of Universal Hex one by one: each answer 18 to 36 with its limits, and
//! the order of the checks.

use super::Random;
use crate::hex::{fresh, line, Answer, Boards, Reader, Stand, V1, V2};

const FILE_LIMIT: u32 = 4_194_304;
const IMAGE_LIMIT: usize = 1_048_576;
/// A board that is neither V1 nor V2.
const V9: u16 = 0x9999;

const BOTH: Boards = Boards { v1: true, v2: true };

/// The stands in which a reader reads on.
const READING: [Stand; 8] = [
    Stand::Between,
    Stand::Opened,
    Stand::Inside(V1),
    Stand::Inside(V2),
    Stand::Inside(V9),
    Stand::Padded(V1),
    Stand::Padded(V2),
    Stand::Padded(V9),
];

const END: &str = ":00000001FF";

/// The bytes as a line without an ending, as they are but for the sum, which
/// is added.
pub fn summed(bytes: &[u8]) -> String {
    let sum: u32 = bytes.iter().map(|&byte| u32::from(byte)).sum();
    let last = (256 - sum % 256) % 256;
    let digits: String = bytes.iter().map(|byte| format!("{byte:02X}")).collect();
    format!(":{digits}{last:02X}")
}

/// A right record as a line without an ending.
pub fn record(kind: u8, address: u16, data: &[u8]) -> String {
    let [high, low] = address.to_be_bytes();
    summed(&[&[data.len() as u8, high, low, kind], data].concat())
}

/// A failed reader's stand; with 22 at the first character.
pub fn failed(number: u8) -> Stand {
    let position = u16::from(number == 22);
    Stand::Failed(Answer { number, position })
}

/// The position that goes with a number, told from the line as handed.
fn position(number: u8, bytes: &[u8]) -> u16 {
    match number {
        22 => (1..)
            .find(|&at: &u16| !bytes[usize::from(at)].is_ascii_hexdigit())
            .unwrap(),
        _ => 0,
    }
}

/// A reader with the image that is lent to it.
#[derive(Clone, PartialEq, Debug)]
pub struct Panel {
    pub reader: Reader,
    pub image: Vec<u8>,
}

impl Panel {
    pub fn new(own: u16) -> Panel {
        Panel {
            reader: fresh(own),
            image: vec![0xA7; 262_144],
        }
    }

    /// Own board V1, standing there at a section's offset.
    fn at(stand: Stand) -> Panel {
        let mut panel = Panel::new(V1);
        panel.reader.stand = stand;
        panel.reader.offset = 1024;
        panel
    }

    fn with_image(mut self, len: usize) -> Panel {
        self.image = vec![0xA7; len];
        self
    }

    fn with_offset(mut self, offset: u32) -> Panel {
        self.reader.offset = offset;
        self
    }

    /// Sends a line as handed, and checks what an answer says of the reader and
    /// the image whatever the line, and where its position points.
    pub fn send(&mut self, bytes: impl AsRef<[u8]>) -> u8 {
        let bytes = bytes.as_ref();
        let before = self.clone();
        let (next, full) = line(self.reader, bytes, &mut self.image);
        self.reader = next;
        let answer = full.number;
        match answer {
            20..=30 | 36 if matches!(before.reader.stand, Stand::Failed(_)) => {
                assert_eq!(before.reader.stand, Stand::Failed(full));
                assert_eq!(next, before.reader);
                assert!(self.image == before.image);
                return answer;
            }
            _ => assert_eq!(full.position, position(answer, bytes)),
        }
        match answer {
            18 | 19 | 31 => assert_eq!(next, before.reader),
            20..=30 | 36 => {
                let stand = Stand::Failed(full);
                let failed = Reader {
                    stand,
                    ..before.reader
                };
                assert_eq!(next, failed);
            }
            32..=35 => {
                assert_eq!(next.own, before.reader.own);
                assert_eq!(
                    next.offset as usize,
                    before.reader.offset as usize + bytes.len()
                );
                assert_eq!(answer == 35, next.stand == Stand::Ended);
            }
            _ => panic!("answer {answer}"),
        }
        if answer != 33 {
            assert!(self.image == before.image, "answer {answer} stored");
        }
        answer
    }
}

/// The answer to a line where the reader stands.
fn answer_at(stand: Stand, bytes: impl AsRef<[u8]>) -> u8 {
    Panel::at(stand).send(bytes)
}

/// The answer to a line in a V1 section, where most records may come.
fn answer(bytes: impl AsRef<[u8]>) -> u8 {
    answer_at(Stand::Inside(V1), bytes)
}

#[test]
fn fresh_reader() {
    let none = Boards {
        v1: false,
        v2: false,
    };
    for own in [V1, V2, V9] {
        let reader = Reader {
            own,
            offset: 0,
            stand: Stand::Between,
            upper: 0,
            came: none,
            gave: none,
        };
        assert_eq!(fresh(own), reader);
    }
    assert_eq!((V1, V2), (0x9900, 0x9903));
}

#[test]
fn examples() {
    assert_eq!(
        record(0x0A, 0, &[0x99, 0, 0xC0, 0xDE]),
        ":0400000A9900C0DEBB"
    );
    assert_eq!(record(0x04, 0, &[0x10, 0]), ":020000041000EA");
    assert_eq!(record(0x01, 0, &[]), ":00000001FF");

    let mut panel = Panel::new(V1);
    assert_eq!(panel.send(":020000041000EA\n"), 34);
    assert_eq!(panel.reader.stand, Stand::Opened);
    assert_eq!(panel.reader.upper, 0x1000);
    assert_eq!(panel.send(":0400000A9900C0DEBB\n"), 34);
    assert_eq!(panel.reader.stand, Stand::Inside(V1));
    assert_eq!((panel.reader.came.v1, panel.reader.came.v2), (true, false));
    assert_eq!(panel.send(record(0x00, 0x10C0, &[0x7C])), 32);
    assert_eq!((panel.reader.gave.v1, panel.reader.gave.v2), (true, false));
    assert_eq!(panel.reader.offset, 16 + 20 + 13);

    let mut panel = Panel::at(Stand::Between);
    panel.reader.gave = BOTH;
    assert_eq!(panel.send(":00000001FF"), 35);
}

#[test]
fn bad_image() {
    for (len, expected) in [(0, 19), (1, 34), (IMAGE_LIMIT, 34), (IMAGE_LIMIT + 1, 19)] {
        let mut panel = Panel::at(Stand::Inside(V1)).with_image(len);
        assert_eq!(panel.send(record(0x0E, 0, &[])), expected);
    }
}

#[test]
fn bad_image_goes_before_all_else() {
    let readers = [Stand::Between, Stand::Ended, failed(24), failed(1)];
    for stand in readers {
        for offset in [0, u32::MAX] {
            let mut panel = Panel::at(stand).with_image(0).with_offset(offset);
            assert_eq!(panel.send(""), 19);
            panel.reader.own = V9;
            assert_eq!(panel.send(END), 19);
        }
    }
}

#[test]
fn bad_reader_by_board() {
    let stands = [Stand::Ended, failed(24), failed(1)];
    for stand in READING.into_iter().chain(stands) {
        for own in [0, 0x9901, 0x9902, 0x9904, 0x0399, V9, u16::MAX] {
            let mut panel = Panel::at(stand);
            panel.reader.own = own;
            assert_eq!(panel.send(END), 18);
        }
    }
}

#[test]
fn bad_reader_by_offset() {
    for stand in READING {
        for offset in [FILE_LIMIT + 1, u32::MAX] {
            assert_eq!(Panel::at(stand).with_offset(offset).send(END), 18);
            assert_eq!(Panel::at(stand).with_offset(offset).send(""), 18);
        }
    }
    for (stand, good) in [(Stand::Ended, 31), (failed(36), 36)] {
        assert_eq!(Panel::at(stand).with_offset(FILE_LIMIT).send(END), good);
        assert_eq!(Panel::at(stand).with_offset(FILE_LIMIT + 1).send(END), 18);
    }
}

#[test]
fn remembered_failure() {
    for number in 0..=u8::MAX {
        let expected = match number {
            20..=30 | 36 => number,
            _ => 18,
        };
        for offset in [0, FILE_LIMIT] {
            for text in [END, "", "\n", "x", &record(0x0E, 0, &[1, 2])] {
                let mut panel = Panel::at(failed(number)).with_offset(offset);
                assert_eq!(panel.send(text), expected);
                assert_eq!(panel.send(text), expected);
            }
        }
    }
}

#[test]
fn remembered_position() {
    for position in 0..=u16::MAX {
        let failure = Answer {
            number: 22,
            position,
        };
        let good = (1..=520).contains(&position);
        let mut panel = Panel::at(Stand::Failed(failure));
        panel.image.truncate(1);
        // `send` checks that the position is repeated.
        assert_eq!(panel.send("x"), if good { 22 } else { 18 });
        assert_eq!(panel.send(END), if good { 22 } else { 18 });
    }
    // Beside another number it doesn't make a bad reader.
    for number in [20, 21, 23, 30, 36] {
        for position in [0, 1, 521, u16::MAX] {
            let mut panel = Panel::at(Stand::Failed(Answer { number, position }));
            assert_eq!(panel.send(END), number);
        }
    }
    for number in [0, 19, 31, 35, 37] {
        let failure = Answer {
            number,
            position: 1,
        };
        assert_eq!(answer_at(Stand::Failed(failure), END), 18);
    }
}

/// The first of several counts, also past the longest record.
#[test]
fn positions() {
    for chars in [11, 75, 77, 79, 521] {
        for first in 1..chars {
            let mut text = format!(":{}", "0".repeat(chars - 1)).into_bytes();
            text[first] = b'g';
            text[chars - 1] = b'g';
            for ending in ["", "\n", "\r\n"] {
                let mut panel = Panel::at(Stand::Inside(V1)).with_image(1);
                assert_eq!(panel.send([&text[..], ending.as_bytes()].concat()), 22);
                let failure = Answer {
                    number: 22,
                    position: first as u16,
                };
                assert_eq!(panel.reader.stand, Stand::Failed(failure));
            }
        }
    }
    // An ending that isn't dropped is no digit.
    let mut panel = Panel::at(Stand::Inside(V1)).with_image(1);
    assert_eq!(panel.send(":00000001FF\r\r\r\n"), 22);
    let at_11 = Answer {
        number: 22,
        position: 11,
    };
    assert_eq!(panel.reader.stand, Stand::Failed(at_11));
}

#[test]
fn after_end() {
    for offset in [0, 1, FILE_LIMIT] {
        for text in [END, "", "\n", "x", &record(0x04, 0, &[0, 0])] {
            let mut panel = Panel::at(Stand::Ended).with_offset(offset);
            assert_eq!(panel.send(text), 31);
        }
    }
}

#[test]
fn file_too_long() {
    let text = record(0x0E, 0, &[1, 2, 3]);
    for (ending, len) in [("", 17), ("\n", 18), ("\r\n", 19)] {
        let handed = format!("{text}{ending}");
        let mut panel = Panel::at(Stand::Inside(V1)).with_offset(FILE_LIMIT - len);
        assert_eq!(panel.send(&handed), 34);
        assert_eq!(panel.reader.offset, FILE_LIMIT);
        let mut panel = Panel::at(Stand::Inside(V1)).with_offset(FILE_LIMIT - len + 1);
        assert_eq!(panel.send(&handed), 36);
        assert_eq!(panel.reader.offset, FILE_LIMIT - len + 1);
    }
}

#[test]
fn file_too_long_goes_before_the_line() {
    let mut panel = Panel::at(Stand::Between).with_offset(FILE_LIMIT);
    assert_eq!(panel.send("x"), 36);
    // A line of no bytes passes no limit.
    let mut panel = Panel::at(Stand::Between).with_offset(FILE_LIMIT);
    assert_eq!(panel.send(""), 20);

    let mut long = vec![b':'; FILE_LIMIT as usize];
    assert_eq!(Panel::new(V1).send(&long), 21);
    assert_eq!(Panel::new(V1).with_offset(1).send(&long), 36);
    long.push(b'\n');
    assert_eq!(Panel::new(V1).send(&long), 36);
}

#[test]
fn no_colon() {
    for text in [
        "",
        "\n",
        "\r\n",
        "\r",
        "\n\n",
        "0",
        " :00000001FF",
        "00000001FF",
        ";00000001FF",
    ] {
        assert_eq!(answer(text), 20, "{text:?}");
    }
}

#[test]
fn bad_shape() {
    for chars in 1..=600 {
        let text = format!(":{}", "0".repeat(chars - 1));
        // Zeros only are a right sum and an empty data record.
        let expected = match chars {
            11 => 34,
            12..=521 if chars % 2 == 1 => 24,
            _ => 21,
        };
        assert_eq!(answer(&text), expected, "{chars}");
        assert_eq!(answer(text + "\r\n"), expected, "{chars}");
    }
}

#[test]
fn bad_shape_goes_before_digits() {
    assert_eq!(answer(":0000000xFF0"), 21);
    assert_eq!(answer(":x"), 21);
    assert_eq!(answer(format!(":{}", "x".repeat(522))), 21);
    assert_eq!(answer(format!(":{}", "x".repeat(520))), 22);
}

#[test]
fn digits() {
    let good = record(0x0E, 0x12, &[0xAB, 0xCD, 0xEF, 0x09]);
    assert_eq!(answer(&good), 34);
    assert_eq!(answer(good.to_lowercase()), 34);
    assert_eq!(answer(":00000001fF"), 26);
    for at in 1..good.len() {
        for character in 0..=u8::MAX {
            let mut text = good.clone().into_bytes();
            text[at] = character;
            text.extend(b"\r\n");
            let is_digit = b"0123456789ABCDEFabcdef".contains(&character);
            assert_eq!(answer(text) != 22, is_digit, "{at} {character}");
        }
    }
}

#[test]
fn lower_case_data() {
    let data: Vec<u8> = (0xA0..0xC0).collect();
    let text = record(0x00, 0xABCD, &data);
    let mut panels = [text.to_lowercase(), text.to_uppercase()].map(|text| {
        let mut panel = Panel::at(Stand::Inside(V1));
        assert_eq!(panel.send(text), 33);
        panel
    });
    assert_eq!(panels[0], panels[1]);
    panels[0].image[0xABCD..][..32].fill(0xA7);
    assert!(panels[0].image.iter().all(|&byte| byte == 0xA7));
}

#[test]
fn digits_past_the_longest_record() {
    for chars in [11, 75, 77, 79, 521] {
        for at in 1..chars {
            let mut text = format!(":{}", "F".repeat(chars - 1)).into_bytes();
            assert_eq!(answer(&text), 23);
            text[at] = b'g';
            assert_eq!(answer(&text), 22, "{chars} {at}");
        }
    }
}

#[test]
fn too_long() {
    for len in 0..=255usize {
        let text = record(0x0E, 0, &vec![0x5A; len]);
        assert_eq!(text.len(), 11 + 2 * len);
        let expected = if len > 32 { 23 } else { 34 };
        assert_eq!(answer(&text), expected, "{len}");
        // Over 32 the digits that follow don't matter.
        let expected = if len > 32 { 23 } else { 24 };
        let mut bytes = vec![0; 80];
        bytes[0] = len as u8;
        assert_eq!(answer(summed(&bytes)), expected, "{len}");
    }
}

#[test]
fn bad_length_goes_before_the_sum() {
    for len in 0..=32u8 {
        for more in 0..=40u8 {
            let mut bytes = vec![0; 4 + usize::from(more)];
            (bytes[0], bytes[3]) = (len, 0x0E);
            let good = summed(&bytes);
            let bad_sum = good[..good.len() - 2].to_string() + "AB";
            let expected = if more == len { (34, 25) } else { (24, 24) };
            assert_eq!((answer(good), answer(bad_sum)), expected);
        }
    }
}

#[test]
fn bad_sum() {
    let good = record(0x0E, 0x1234, &[0xFF; 32]);
    for sum in 0..=u8::MAX {
        let text = format!("{}{sum:02X}", &good[..73]);
        let expected = if text == good { 34 } else { 25 };
        assert_eq!(answer(text), expected);
    }
    // The sum goes before the place: 01 isn't allowed in a section.
    assert_eq!(answer(":00000001FE"), 25);
    assert_eq!(answer(":00000001FF"), 26);
}

#[test]
fn endings() {
    let text = record(0x0E, 0, &[]);
    for (ending, expected) in [
        ("", 34),
        ("\n", 34),
        ("\r\n", 34),
        // Not an ending, so the characters are even in number.
        ("\r", 21),
        ("\n\n", 21),
        ("\r\r\n", 21),
        ("\n\r\n", 21),
        (" \n", 21),
        // Or odd, but no digits.
        ("\n\r", 22),
        ("\r\n\n", 22),
        ("\n\n\n", 22),
        ("\r\r\r\n", 22),
    ] {
        let mut panel = Panel::at(Stand::Inside(V1));
        assert_eq!(
            panel.send(format!("{text}{ending}")),
            expected,
            "{ending:?}"
        );
    }
}

/// The types and lengths of document 01's section, told from its words.
fn allowed(stand: Stand, kind: u8, len: usize) -> bool {
    let types: &[u8] = match stand {
        Stand::Between => &[0x04, 0x01],
        Stand::Opened => &[0x0A],
        Stand::Inside(V1) => &[0x04, 0x00, 0x0E, 0x0C, 0x0B],
        Stand::Inside(_) => &[0x04, 0x0D, 0x0E, 0x0C, 0x0B],
        Stand::Padded(_) => &[0x0C, 0x0E, 0x0B],
        _ => &[],
    };
    let lengths = match kind {
        0x01 => 0..=0,
        0x04 => 2..=2,
        0x0A => 2..=32,
        _ => 0..=32,
    };
    types.contains(&kind) && lengths.contains(&len)
}

#[test]
fn out_of_place() {
    for stand in READING {
        for kind in 0..=u8::MAX {
            for len in 0..=32 {
                let mut panel = Panel::at(stand).with_image(40);
                panel.reader.gave = BOTH;
                let answer = panel.send(record(kind, 0, &vec![0x99; len]));
                let expected = match (allowed(stand, kind, len), stand, kind) {
                    (false, _, _) => 26,
                    (true, Stand::Inside(V1), 0x00) if len > 0 => 33,
                    (true, _, 0x01) => 35,
                    (true, _, _) => 34,
                };
                assert_eq!(answer, expected, "{stand:?} {kind} {len}");
            }
        }
    }
}

#[test]
fn where_a_record_leads() {
    for board in [V1, V2, V9] {
        let [high, low] = board.to_be_bytes();
        let (inside, padded) = (Stand::Inside(board), Stand::Padded(board));
        let data = if board == V1 { 0x00 } else { 0x0D };
        for (from, kind, bytes, to) in [
            (Stand::Between, 0x04, &[high, low][..], Stand::Opened),
            (Stand::Opened, 0x0A, &[high, low], inside),
            (Stand::Opened, 0x0A, &[high, low, 0xFF], inside),
            (inside, 0x04, &[high, low], inside),
            (inside, data, &[1], inside),
            (inside, 0x0E, &[1], inside),
            (inside, 0x0C, &[1], padded),
            (inside, 0x0B, &[1], Stand::Between),
            (padded, 0x0C, &[1], padded),
            (padded, 0x0E, &[1], padded),
            (padded, 0x0B, &[1], Stand::Between),
        ] {
            let mut panel = Panel::at(from);
            panel.reader.upper = 0xABCD;
            let before = panel.reader;
            assert!((32..=34).contains(&panel.send(record(kind, 0, bytes))));
            let mut expected = Reader {
                stand: to,
                offset: panel.reader.offset,
                ..before
            };
            match kind {
                0x04 => expected.upper = board,
                0x0A => (expected.came.v1, expected.came.v2) = (board == V1, board == V2),
                _ if kind == data => {
                    (expected.gave.v1, expected.gave.v2) = (board == V1, board == V2)
                }
                _ => {}
            }
            assert_eq!(panel.reader, expected, "{from:?} {kind}");
        }
    }
}

#[test]
fn unaligned() {
    let opening = record(0x04, 0, &[0, 0]);
    for offset in 0..=2048 {
        let mut panel = Panel::new(V1).with_offset(offset);
        let expected = if offset % 512 == 0 { 34 } else { 27 };
        assert_eq!(panel.send(&opening), expected);
    }
    // Only an opening 04 is held to it, and only one of the right length.
    let mut panel = Panel::at(Stand::Inside(V1)).with_offset(1);
    assert_eq!(panel.send(&opening), 34);
    let mut panel = Panel::new(V1).with_offset(1);
    assert_eq!(panel.send(record(0x04, 0, &[0, 0, 0])), 26);
    let mut panel = Panel::new(V1).with_offset(1);
    panel.reader.gave = BOTH;
    assert_eq!(panel.send(END), 35);
}

#[test]
fn repeated() {
    for v1 in [false, true] {
        for v2 in [false, true] {
            for (board, came) in [(V1, v1), (V2, v2), (V9, false)] {
                let mut panel = Panel::at(Stand::Opened);
                panel.reader.came = Boards { v1, v2 };
                let expected = if came { 28 } else { 34 };
                let start = record(0x0A, 0, &board.to_be_bytes());
                assert_eq!(panel.send(start), expected);
            }
        }
    }
    let mut panel = Panel::at(Stand::Opened);
    panel.reader.came = BOTH;
    assert_eq!(panel.send(record(0x0A, 0, &[0x99])), 26);
}

#[test]
fn crosses() {
    for (stand, kind, good) in [
        (Stand::Inside(V1), 0x00, 33),
        (Stand::Inside(V2), 0x0D, 34),
        (Stand::Inside(V9), 0x0D, 34),
    ] {
        for len in 1..=32u16 {
            let data = vec![0x5A; len.into()];
            let last = 0u16.wrapping_sub(len);
            assert_eq!(answer_at(stand, record(kind, last, &data)), good);
            if len > 1 {
                assert_eq!(answer_at(stand, record(kind, last + 1, &data)), 29);
                assert_eq!(answer_at(stand, record(kind, 0xFFFF, &data)), 29);
            }
        }
        assert_eq!(answer_at(stand, record(kind, 0xFFFF, &[])), 34);
    }
    // A record that is no data has no place to cross from.
    for kind in [0x0B, 0x0C, 0x0E] {
        assert_eq!(answer(record(kind, 0xFFFF, &[0; 32])), 34);
    }
}

#[test]
fn crosses_goes_before_outside() {
    let mut panel = Panel::at(Stand::Inside(V1)).with_image(1);
    panel.reader.upper = 0xFFFF;
    assert_eq!(panel.send(record(0x00, 0xFFFF, &[1, 2])), 29);
    let mut panel = Panel::at(Stand::Inside(V1)).with_image(1);
    panel.reader.upper = 0xFFFF;
    assert_eq!(panel.send(record(0x00, 0xFFFF, &[1])), 32);
    let mut panel = Panel::at(Stand::Inside(V1)).with_image(1);
    panel.reader.upper = 0xFFFF;
    assert_eq!(panel.send(record(0x00, 0xFFE0, &[1; 32])), 32);
}

#[test]
fn missing_board() {
    for v1 in [false, true] {
        for v2 in [false, true] {
            let mut panel = Panel::new(V1);
            panel.reader.came = BOTH;
            panel.reader.gave = Boards { v1, v2 };
            assert_eq!(panel.send(END), if v1 && v2 { 35 } else { 30 });
        }
    }
    // With data it isn't allowed in the first place.
    assert_eq!(answer_at(Stand::Between, record(0x01, 0, &[0])), 26);
}

#[test]
fn a_data_byte_given() {
    for own in [V1, V2] {
        for (board, kind) in [(V1, 0x00), (V2, 0x0D), (V9, 0x0D)] {
            for upper in [0, 0x1000] {
                let mut panel = Panel::new(own);
                panel.reader.stand = Stand::Inside(board);
                panel.reader.upper = upper;
                assert_eq!(panel.send(record(kind, 0, &[])), 34);
                assert_eq!(panel.reader.gave, fresh(own).gave);
                let expected = match (board == own, upper) {
                    (true, 0) => 33,
                    (true, _) => 32,
                    (false, _) => 34,
                };
                assert_eq!(panel.send(record(kind, 0, &[1])), expected);
                let gave = (panel.reader.gave.v1, panel.reader.gave.v2);
                assert_eq!(gave, (board == V1, board == V2));
            }
        }
    }
}

#[test]
fn stored_or_outside() {
    for image_len in [1, 31, 32, 33, 64, 65_536, 65_567, IMAGE_LIMIT] {
        let mut image = vec![0xA7; image_len];
        for address in (0..70).chain(65_504..65_570).chain(1_048_540..1_048_600) {
            for len in (1..=32).filter(|len| address % 65_536 + len <= 65_536) {
                check_store(&mut image, address, len);
            }
        }
    }
}

/// Sends own data to the image, looks around its place, and clears it again.
fn check_store(image: &mut [u8], address: usize, len: usize) {
    let data: Vec<u8> = (1..=len as u8).collect();
    let mut reader = fresh(V1);
    reader.stand = Stand::Inside(V1);
    reader.upper = (address / 65_536) as u16;
    let text = record(0x00, (address % 65_536) as u16, &data);
    let fits = address + len <= image.len();
    let answer = line(reader, text.as_bytes(), image).1;
    assert_eq!(answer.number, if fits { 33 } else { 32 });
    let around = address.saturating_sub(100)..address + 100;
    for (at, byte) in image
        .iter_mut()
        .enumerate()
        .take(around.end)
        .skip(around.start)
    {
        let stored = fits && (address..address + len).contains(&at);
        let expected = if stored { data[at - address] } else { 0xA7 };
        assert_eq!(*byte, expected);
        *byte = 0xA7;
    }
}

#[test]
fn outside_goes_on() {
    let mut panel = Panel::at(Stand::Inside(V1)).with_image(16);
    assert_eq!(panel.send(record(0x00, 8, &[1; 9])), 32);
    assert_eq!(panel.send(record(0x00, 8, &[2; 8])), 33);
    assert_eq!(panel.send(record(0x00, 16, &[3])), 32);
    // Empty data is neither stored nor outside.
    assert_eq!(panel.send(record(0x00, 9000, &[])), 34);
    assert_eq!(panel.image, [[0xA7; 8], [2; 8]].concat());
}

#[test]
fn earlier_stores_stay() {
    let mut panel = Panel::at(Stand::Inside(V1)).with_image(4);
    assert_eq!(panel.send(record(0x00, 1, &[1, 2])), 33);
    assert_eq!(panel.send(record(0x0D, 1, &[3, 4])), 26);
    assert_eq!(panel.send(record(0x00, 1, &[5, 6])), 26);
    assert_eq!(panel.image, [0xA7, 1, 2, 0xA7]);
}

/// A line with all faults at once, mended one by one: each answer shows that
/// its check goes before those whose faults are still there.
#[test]
fn order_of_the_checks() {
    let mut panel = Panel::new(V9).with_image(0).with_offset(FILE_LIMIT + 1);
    assert_eq!(panel.send(""), 19);
    panel.image = vec![0xA7; 4];
    assert_eq!(panel.send(""), 18);
    panel.reader.own = V1;
    assert_eq!(panel.send(""), 18);
    panel.reader.offset = FILE_LIMIT - 1;
    for (text, expected) in [("xx", 36), ("x", 20), (":", 21)] {
        assert_eq!(panel.clone().send(text), expected);
    }
    panel.reader.offset = 513;
    for (text, expected) in [
        ("x1000001x", 20),
        (":21000001x", 21),
        (":2100000100x0", 22),
        (":210000010000", 23),
        (":020000010000", 24),
        (":010000010000", 25),
        (":0100000100FE", 26),
        (":020000040000FA", 27),
        (":00000001FF", 30),
    ] {
        assert_eq!(panel.clone().send(text), expected, "{text}");
    }
}

fn any_stand(random: &mut Random) -> Stand {
    let board = random.pick(&[V1, V2, V9, 0]);
    match random.below(12) {
        0 => Stand::Ended,
        1 => Stand::Failed(Answer {
            number: if random.yes() {
                22
            } else {
                random.next() as u8
            },
            position: random.pick(&[0, 1, 520, 521, u16::MAX]),
        }),
        2 | 3 => Stand::Between,
        4 => Stand::Opened,
        5 | 6 => Stand::Padded(board),
        _ => Stand::Inside(board),
    }
}

fn any_reader(random: &mut Random) -> Reader {
    let near = FILE_LIMIT - 60 + random.below(80) as u32;
    let any = random.next() as u32;
    let mut boards = || Boards {
        v1: random.yes(),
        v2: random.yes(),
    };
    let (came, gave) = (boards(), boards());
    Reader {
        own: random.pick(&[V1, V1, V2, V2, V9]),
        offset: random.pick(&[0, 512, 512, 1000, near, any, u32::MAX]),
        stand: any_stand(random),
        upper: random.pick(&[0, 0, 0, 1, 0x1000, u16::MAX]),
        came,
        gave,
    }
}

/// A right record, often with a few bytes changed, cut off or put in.
fn any_line(random: &mut Random) -> Vec<u8> {
    let kind = random.pick(&[0x00, 0x01, 0x04, 0x0A, 0x0B, 0x0C, 0x0D, 0x0E, 0x05]);
    let len = random.pick(&[0, 2, 2, 16, 32, 33]);
    let data: Vec<u8> = (0..len).map(|_| random.next() as u8).collect();
    let address = random.pick(&[0, 0, 1, 5, 0x10C0, 0xFFE0, 0xFFE1, 0xFFFF]);
    let mut text = record(kind, address, &data).into_bytes();
    text.extend_from_slice(random.pick(&["", "\n", "\r\n", "\r", "\n\n"]).as_bytes());
    for _ in 0..random.pick(&[0, 0, 1, 2]) {
        let at = random.below(text.len().max(1));
        match random.below(3) {
            0 => text.insert(at, random.next() as u8),
            1 => text.truncate(at),
            _ => text.extend(random.next().to_ne_bytes().map(|byte| b'0' + byte % 10)),
        }
    }
    text
}

#[test]
fn any_reader_and_line_get_an_answer() {
    let mut random = Random(0x9900_9903);
    let mut met = [0; 37];
    for _ in 0..200_000 {
        let image_len = random.pick(&[0, 1, 2, 40, 40, 40, 5000]);
        let mut panel = Panel {
            reader: any_reader(&mut random),
            image: vec![0xA7; image_len],
        };
        // `send` checks what the answer promises.
        met[usize::from(panel.send(any_line(&mut random)))] += 1;
    }
    assert!(met[18..].iter().all(|&count| count > 0), "{met:?}");
}
