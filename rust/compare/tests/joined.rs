//! One file from two: the proved join beside the reference's on random and damaged pairs and at the limits, and what it writes back through
//! the proved reader of each board. COMPARE_JOINS sets how many pairs are compared.

use compare::hex::record;
use compare::plain::any_plain;
use compare::Random;
use proved::hex::{Board, HexAnswer, Reader};
use reference::hex::{V1, V2};
use reference::join::JoinRefusal;
use tools::HEX_FILE_BYTES;

const UNTOUCHED: u8 = 0xA7;

fn number() -> usize {
    let asked = std::env::var("COMPARE_JOINS").ok();
    asked.and_then(|n| n.parse().ok()).unwrap_or(60_000)
}

/// A refusal of the proved side as the reference has it.
fn refusal(refusal: tools::JoinRefusal) -> JoinRefusal {
    let answer = refusal.number().into();
    match refusal {
        tools::JoinRefusal::Plain {
            board,
            line,
            refusal,
        } => JoinRefusal {
            board: match board {
                tools::Board::V1 => V1,
                tools::Board::V2 => V2,
            },
            line,
            answer,
            position: match refusal {
                tools::PlainRefusal::BadDigit(position) => position.into(),
                _ => 0,
            },
        },
        tools::JoinRefusal::OutputTooLong => JoinRefusal {
            board: 0,
            line: 0,
            answer,
            position: 0,
        },
    }
}

/// Both joins of two files into so much room: the same answer, and the same room afterwards.
fn both(v1: &[u8], v2: &[u8], room: usize) -> (Result<usize, JoinRefusal>, Vec<u8>) {
    let mut ours = vec![UNTOUCHED; room];
    let mut theirs = ours.clone();
    let answer = tools::join(v1, v2, &mut ours).map_err(refusal);
    assert_eq!(answer, reference::join::join(v1, v2, &mut theirs));
    assert!(ours == theirs, "the two rooms");
    let written = answer.unwrap_or(0);
    assert!(ours[written..].iter().all(|&b| b == UNTOUCHED));
    (answer, ours)
}

/// More room than the two can come to, as far as a file may have it.
fn enough(v1: &[u8], v2: &[u8]) -> usize {
    (8 * (v1.len() + v2.len()) + 2048).min(HEX_FILE_BYTES + 1000)
}

/// The image that a board's reader makes of a file, which it reads to its end.
fn image_of(own: Board, file: &[u8], image_len: usize) -> Vec<u8> {
    let mut image = vec![UNTOUCHED; image_len];
    let mut reader = Reader::new(own);
    let mut last = HexAnswer::BadReader;
    for line in file.split_inclusive(|&c| c == b'\n') {
        last = reader.line(line, &mut image);
        assert!(last.number() >= 32, "{last:?}");
    }
    assert_eq!(last, HexAnswer::Ended);
    image
}

/// The image that a plain file makes: each record, cut at a multiple of 65,536, is stored where each part lies wholly in the image.
fn plain_image(file: &[u8], image_len: usize) -> Vec<u8> {
    let mut image = vec![UNTOUCHED; image_len];
    let mut base = 0;
    for line in file.split(|&c| c == b'\n') {
        let text = std::str::from_utf8(line.trim_ascii_end()).expect("digits");
        let Some(digits) = text.strip_prefix(':') else {
            continue;
        };
        let bytes: Vec<usize> = (0..digits.len() / 2)
            .map(|i| usize::from_str_radix(&digits[2 * i..2 * i + 2], 16).expect("a digit"))
            .collect();
        let data = &bytes[4..4 + bytes[0]];
        match bytes[3] {
            0 => {
                let at = base + 256 * bytes[1] + bytes[2];
                let (here, beyond) = data.split_at(data.len().min(65_536 - at % 65_536));
                for (at, part) in [(at, here), (at + here.len(), beyond)] {
                    if let Some(place) = image.get_mut(at..at + part.len()) {
                        for (byte, &x) in place.iter_mut().zip(part) {
                            *byte = x as u8;
                        }
                    }
                }
            }
            2 => base = 16 * (256 * data[0] + data[1]),
            4 => base = 65_536 * (256 * data[0] + data[1]),
            _ => {}
        }
    }
    image
}

#[test]
fn pairs_agree() {
    let mut r = Random(24);
    // of no board, V1 and V2: how often each answer came; 0 is a file that is written
    let mut met = [[0; 37]; 3];
    let mut images = 0;
    for _ in 0..number() {
        let (v1, v2) = (any_plain(&mut r), any_plain(&mut r));
        let (answer, out) = both(&v1, &v2, enough(&v1, &v2));
        match answer {
            Ok(n) => {
                met[0][0] += 1;
                assert_eq!(n % 512, 12);
                assert_eq!(both(&v1, &v2, n).0, Ok(n));
                assert_eq!(both(&v1, &v2, n - 1).0.map_err(|e| e.answer), Err(36));
                if r.one_in(4) {
                    let len = r.of(&[1, 16, 65_536, 65_537, 262_144, 1_048_576]);
                    assert!(image_of(Board::V1, &out[..n], len) == plain_image(&v1, len));
                    assert!(image_of(Board::V2, &out[..n], len) == plain_image(&v2, len));
                    images += 1;
                }
            }
            Err(e) => {
                let board = [0, V1, V2].iter().position(|&b| b == e.board);
                met[board.expect("a board")][e.answer as usize] += 1;
            }
        }
    }
    assert!(met[0][0] > number() / 20, "{met:?}");
    assert!(images > number() / 100, "{images}");
    for answer in [20, 21, 22, 23, 24, 25, 26, 29, 30, 31] {
        assert!(
            met[1][answer] > 0 && met[2][answer] > 0,
            "{answer}: {met:?}"
        );
    }
}

fn lf(mut line: Vec<u8>) -> Vec<u8> {
    line.push(b'\n');
    line
}

/// A plain file of so many bytes: records without data and a last one with one byte, before an 01 with so many characters after it.
fn of_length(len: usize) -> Vec<u8> {
    let end = lf(record(1, 0, &[]));
    let one = lf(record(0, 0, &[1]));
    let empty = lf(record(0, 0, &[]));
    let mut file = Vec::with_capacity(len);
    let rest = len - end.len() - one.len();
    // a record of no data has 12 characters, with CR 13; an 03 has 20
    let crs = rest % 12;
    for k in 0..rest / 12 {
        file.extend_from_slice(&empty[..11]);
        if k < crs {
            file.push(b'\r');
        }
        file.push(b'\n');
    }
    file.extend(one);
    file.extend(end);
    assert_eq!(file.len(), len);
    file
}

#[test]
fn inputs_at_the_limit() {
    let small = of_length(200);
    for (len, answer) in [
        (HEX_FILE_BYTES - 1, None),
        (HEX_FILE_BYTES, None),
        (HEX_FILE_BYTES + 1, Some(36)),
        (HEX_FILE_BYTES + 40, Some(36)),
    ] {
        let long = of_length(len);
        let (first, _) = both(&long, &small, 4096);
        let (second, _) = both(&small, &long, 4096);
        assert_eq!(
            first.err().map(|e| (e.board, e.answer)),
            answer.map(|a| (V1, a))
        );
        assert_eq!(
            second.err().map(|e| (e.board, e.answer)),
            answer.map(|a| (V2, a))
        );
    }
    // one line past the limit, and an empty one after the end
    let line = vec![b'0'; HEX_FILE_BYTES + 1];
    assert_eq!(both(&line, &small, 10).0.map_err(|e| e.answer), Err(36));
    assert_eq!(
        both(&line[1..], &small, 10).0.map_err(|e| e.answer),
        Err(20)
    );
    let late = [&small[..], b"\n"].concat();
    assert_eq!(both(&late, &small, 4096).0.map_err(|e| e.answer), Err(31));
}

/// Data of so many records of 32 bytes, and one of so many.
fn of_records(count: usize, last: usize) -> Vec<u8> {
    let mut file = lf(record(0, 0, &[7; 32])).repeat(count);
    file.extend(lf(record(0, 0, &vec![9; last])));
    file.extend(lf(record(1, 0, &[])));
    file
}

#[test]
fn outputs_at_the_limit() {
    let small = of_records(0, 1);
    // 512 n + 12 bytes: the longest output that a file may have is 8,191 times 512, and the 01
    let longest = 512 * 8191 + 12;
    let mut met = [0; 2];
    for count in 55_170..55_180 {
        for last in [1, 15, 16, 17, 31, 32] {
            let file = of_records(count, last);
            let (answer, _) = both(&file, &small, HEX_FILE_BYTES + 4096);
            match answer {
                Ok(n) => {
                    assert!(n <= longest);
                    met[usize::from(n == longest)] += 1;
                    assert_eq!(both(&small, &file, n).0, Ok(n));
                    assert_eq!(both(&small, &file, n - 1).0.map_err(|e| e.answer), Err(36));
                }
                Err(e) => assert_eq!((e.board, e.line, e.answer), (0, 0, 36)),
            }
        }
    }
    assert!(met[1] > 0, "{met:?}");
    // two inputs that are each within the limit
    let half = of_records(28_000, 1);
    let (answer, _) = both(&half, &half, HEX_FILE_BYTES + 100_000);
    assert_eq!(answer.map_err(|e| (e.board, e.answer)), Err((0, 36)));
}

/// Every even number of characters that may be missing to a multiple of 512.
#[test]
fn fillings() {
    let mut met = [0; 512];
    for bytes in 1..600 {
        let file = of_records(bytes / 32, bytes % 32);
        let data = 76 * (bytes / 32)
            + if bytes % 32 == 0 {
                0
            } else {
                12 + 2 * (bytes % 32)
            };
        met[(512 - (32 + data + 12) % 512) % 512] += 1;
        let small = of_records(0, 1);
        assert!(both(&file, &small, 8192).0.is_ok());
        assert!(both(&small, &file, 8192).0.is_ok());
    }
    assert!((0..512).step_by(2).all(|m| met[m] > 0));
}

/// What is asked first: V1's lines, V1's 30, V2's lines, V2's 30, the room.
#[test]
fn order() {
    let fine = of_records(0, 1);
    let none = lf(record(1, 0, &[]));
    let bad = b"x\n".to_vec();
    for (v1, v2, wanted) in [
        (&bad, &bad, (V1, 20)),
        (&none, &bad, (V1, 30)),
        (&fine, &bad, (V2, 20)),
        (&bad, &none, (V1, 20)),
        (&none, &none, (V1, 30)),
        (&fine, &none, (V2, 30)),
        (&fine, &fine, (0, 36)),
    ] {
        let (answer, _) = both(v1, v2, 0);
        assert_eq!(answer.map_err(|e| (e.board, e.answer)), Err(wanted));
    }
    assert_eq!(both(&fine, &fine, 1036).0, Ok(1036));
}
