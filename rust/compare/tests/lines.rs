//! Lines of Universal Hex: after each, answer, next reader and every lent byte are the same. COMPARE_LINES sets how many lines are
//! compared, at least.

use compare::hex::{
    any_file, any_reader, any_record, any_text, bad_digits, bytes_of, damage, proved_reader,
    reader_of, ENDINGS,
};
use compare::Random;
use proved::hex::{Board, Reader};
use reference::hex::{fresh, Stand, V1, V2};

/// The number of lines that a run compares.
fn number() -> usize {
    let asked = std::env::var("COMPARE_LINES").ok();
    asked.and_then(|n| n.parse().ok()).unwrap_or(3_000_000)
}

/// Two images, and how often each answer came.
struct Pair {
    ours: Vec<u8>,
    theirs: Vec<u8>,
    answers: [usize; 37],
}

impl Pair {
    fn new(image: Vec<u8>) -> Pair {
        Pair {
            ours: image.clone(),
            theirs: image,
            answers: [0; 37],
        }
    }

    /// Hands both the line, with a reader that is bytes, and says what both answered.
    fn take(&mut self, reader: &mut [u8], line: &[u8]) -> u8 {
        let lent = reader.to_vec();
        let was = reader_of(reader);
        let (next, wanted) = reference::hex::line(was, line, &mut self.theirs);
        let got = proved::hex::bytes::line(reader, line, &mut self.ours);
        let result = u32::from(wanted.number) | u32::from(wanted.position) << 8;
        assert_eq!(got, result, "answer and position of {line:?} of {was:?}");
        let wanted = wanted.number;
        let failed = matches!(was.stand, Stand::Failed(_));
        let changed = match wanted {
            32..=35 => true,
            20..=30 | 36 => !failed,
            _ => false,
        };
        if changed {
            assert_eq!(reader, bytes_of(next), "reader after {line:?} of {was:?}");
        } else {
            assert_eq!(reader, lent, "reader as lent after {line:?} of {was:?}");
            assert_eq!(next, was);
        }
        assert!(self.ours == self.theirs, "image after {line:?} of {was:?}");
        self.answers[usize::from(wanted)] += 1;
        wanted
    }
}

fn any_image(r: &mut Random) -> Vec<u8> {
    let n = r.of(&[1, 2, 31, 32, 33, 64, 100, 255, 256, 1000, 2048]);
    vec![r.draw() as u8; n]
}

/// Adds up how often each answer came.
fn tell(all: &mut [usize; 37], pair: &Pair) {
    for (sum, n) in all.iter_mut().zip(pair.answers) {
        *sum += n;
    }
}

/// Whole files, right and damaged. A reader that failed is mostly put back to where it stood before.
#[test]
fn files_agree() {
    let mut r = Random(11);
    let mut answers = [0; 37];
    let (mut lines, wanted) = (0, number() / 2);
    while lines < wanted {
        let mut pair = Pair::new(any_image(&mut r));
        let mut file = any_file(&mut r, pair.ours.len());
        for _ in 0..r.of(&[0, 1, 2, 5]) {
            damage(&mut r, &mut file);
        }
        let mut reader = bytes_of(fresh(r.of(&[V1, V2])));
        let mut failures = 0;
        for line in &file {
            let before = reader;
            let answer = pair.take(&mut reader, line);
            lines += 1;
            if matches!(answer, 20..=30) {
                failures += 1;
                if !r.one_in(8) {
                    reader = before;
                }
            }
            if failures > 8 {
                break;
            }
        }
        tell(&mut answers, &pair);
    }
    // every answer that a file can come to, but 36
    let often = number() / 6_000;
    assert!(answers[20..36].iter().all(|&n| n > often), "{answers:?}");
}

/// Readers of any content, and lines of any.
#[test]
fn any_lines_agree() {
    let mut r = Random(12);
    let mut answers = [0; 37];
    let (mut lines, wanted) = (0, number() / 2);
    while lines < wanted {
        let mut pair = Pair::new(any_image(&mut r));
        for _ in 0..64 {
            let mut reader = any_reader(&mut r);
            let line = if r.one_in(4) {
                any_text(&mut r)
            } else {
                any_record(&mut r, pair.ours.len())
            };
            pair.take(&mut reader, &line);
        }
        lines += 64;
        tell(&mut answers, &pair);
    }
    let often = number() / 6_000;
    assert!(answers[20..].iter().all(|&n| n > often), "{answers:?}");
    assert!(answers[18] > often);
}

/// Lines with bad digits, to fresh readers: the position is the same.
#[test]
fn positions_agree() {
    let mut r = Random(16);
    let mut pair = Pair::new(vec![5; 64]);
    let mut bad = 0;
    while bad < number() / 3 {
        let mut reader = bytes_of(fresh(V1));
        // a bad character at the end may be taken for the line's ending
        if pair.take(&mut reader, &bad_digits(&mut r)) == 22 {
            bad += 1;
            // and a failed reader repeats it
            assert_eq!(pair.take(&mut reader, b":00000001FF\n"), 22);
        }
    }
}

/// One bad character, or two, at chosen places of lines of chosen lengths, with each ending.
#[test]
fn chosen_positions() {
    let mut ours = [0; 8];
    for chars in [75, 77, 521] {
        for at in [1, 2, 74, 75, 76, 520].into_iter().filter(|&at| at < chars) {
            for second in [None, Some(chars - 1)] {
                for ending in ENDINGS {
                    let mut line = vec![b'0'; chars];
                    line[0] = b':';
                    line[at] = b'g';
                    second.into_iter().for_each(|k| line[k] = b'G');
                    line.extend_from_slice(ending);
                    let mut reader = bytes_of(fresh(V1));
                    let got = proved::hex::bytes::line(&mut reader, &line, &mut ours);
                    assert_eq!(got, 22 + 256 * at as u32);
                    Pair::new(vec![0; 8]).take(&mut bytes_of(fresh(V1)), &line);
                }
            }
        }
    }
}

/// Positions that are handed in, with 22 and with 24: 18 outside 1 to 520, and not read beside another failure.
#[test]
fn handed_positions() {
    for (position, kept) in [
        (0u16, false),
        (1, true),
        (520, true),
        (521, false),
        (0xFFFF, false),
    ] {
        for (failure, repeats) in [(22, kept), (24, true)] {
            let mut reader = bytes_of(fresh(V2));
            (reader[8], reader[9]) = (5, failure);
            reader[10..12].copy_from_slice(&position.to_le_bytes());
            let number = if repeats { failure } else { 18 };
            let told = if number == 22 { position } else { 0 };
            let got = proved::hex::bytes::line(&mut reader.clone(), b"?", &mut [0; 4]);
            assert_eq!(got, u32::from(number) | u32::from(told) << 8);
            Pair::new(vec![0; 4]).take(&mut reader, b"?");
        }
    }
}

/// Every byte for where a reader stands, with every byte for the failure.
#[test]
fn every_stand_and_failure() {
    let mut pair = Pair::new(vec![3; 40]);
    let lines = [b":00000001FF\n".as_slice(), b":020000040000FA\r\n", b"?"];
    for stand in 0..=255 {
        for failure in 0..=255 {
            let mut reader = bytes_of(fresh(V2));
            (reader[8], reader[9]) = (stand, failure);
            pair.take(&mut reader, lines[usize::from(failure) % 3]);
        }
    }
}

/// What is no reader by its length is refused by 18, after 19, and stays as lent.
#[test]
fn readers_of_every_length() {
    let mut r = Random(13);
    for n in (0..80).chain([255, 256, 4096]).filter(|&n| n != 16) {
        for _ in 0..50 {
            let mut reader = bytes_of(fresh(V1)).to_vec();
            reader.resize(n, r.draw() as u8);
            let line = any_record(&mut r, 100);
            assert_eq!(Pair::new(vec![1; 100]).take(&mut reader, &line), 18);
            assert_eq!(Pair::new(vec![]).take(&mut reader, &line), 19);
        }
    }
}

/// Images of one byte to the most, and of a length that 19 refuses.
#[test]
fn images_of_every_length() {
    let mut r = Random(14);
    for n in [
        0, 1, 2, 65_535, 65_536, 65_537, 1_048_575, 1_048_576, 1_048_577,
    ] {
        let mut pair = Pair::new(vec![7; n]);
        for _ in 0..300 {
            let mut reader = any_reader(&mut r);
            let upper = r.of(&[n.saturating_sub(1) >> 16, n >> 16]) as u16;
            reader[2..4].copy_from_slice(&upper.to_le_bytes());
            let line = any_record(&mut r, n % 65_536);
            let answer = pair.take(&mut reader, &line);
            assert_eq!(answer == 19, n == 0 || n == 1_048_577);
        }
    }
}

/// Lines of every length to 600 and of some longer ones, with digits alone, at offsets up to where the file is too long.
#[test]
fn lines_of_every_length() {
    let mut pair = Pair::new(vec![7; 50]);
    for n in (0..600usize).chain([4_096, 65_536, 4_194_303, 4_194_304, 4_194_305]) {
        for ending in ENDINGS {
            for left in [n, n + 1, n + 2, n.max(1) - 1, 4_194_304] {
                let mut line = vec![b'0'; n];
                line.iter_mut().take(1).for_each(|c| *c = b':');
                line.extend_from_slice(ending);
                let mut reader = fresh(V1);
                reader.offset = 4_194_304u32.saturating_sub(left as u32);
                pair.take(&mut bytes_of(reader), &line);
            }
        }
    }
}

/// Readers as values go in and come back as the reference's do, bad ones too.
#[test]
fn values_agree() {
    let mut r = Random(15);
    let mut values = 0;
    for _ in 0..number() / 12 {
        let was = reader_of(&any_reader(&mut r));
        let mut theirs = any_image(&mut r);
        let mut ours = theirs.clone();
        let line = any_record(&mut r, ours.len());
        let (next, wanted) = reference::hex::line(was, &line, &mut theirs);
        // a reader that is bad in a way that has no value is handed over as bytes alone
        let Some(mut reader) = proved_reader(was) else {
            assert_eq!(wanted.number, 18);
            continue;
        };
        values += 1;
        let got = reader.line(&line, &mut ours);
        let told = (wanted.number, wanted.position, proved_reader(next));
        assert_eq!((got.number(), got.position(), Some(reader)), told);
        assert!(ours == theirs);
    }
    assert!(values > number() / 16);
}

/// A fresh reader of every board, and nothing where there are not 16 bytes.
#[test]
fn fresh_readers() {
    for own in 0..=u16::MAX {
        let mut reader = [9; 16];
        proved::hex::bytes::new(own, &mut reader);
        assert_eq!(reader, bytes_of(fresh(own)));
    }
    for board in [Board::V1, Board::V2] {
        let wanted = proved_reader(fresh(board.number()));
        assert_eq!(Some(Reader::new(board)), wanted);
    }
    for n in (0..40).filter(|&n| n != 16) {
        let mut reader = vec![9; n];
        proved::hex::bytes::new(V1, &mut reader);
        assert!(reader.iter().all(|&b| b == 9));
    }
}
