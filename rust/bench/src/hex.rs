//! A line of Universal Hex: 1 MiB of data in records of 32 bytes, `uhex_line` beside the plain Rust reader and beside one with a
//! table, with the same slices.

use compare::hex::{record, Text};
use compare::Random;
use reference::hex::{fresh, V1, V2};

use crate::table::Reader;
use crate::{pair, timed, Work};

const IMAGE: usize = 1_048_576;

/// A file of a whole image of random data for V1, and one byte for V2.
fn file() -> Vec<Vec<u8>> {
    let mut r = Random(21);
    let mut text = Text::new(b"\n");
    text.open(0, V1, &[0xC0, 0xDE]);
    for at in (0..IMAGE).step_by(32) {
        if at % 65_536 == 0 && at > 0 {
            text.put(record(4, 0, &((at >> 16) as u16).to_be_bytes()));
        }
        let data: Vec<u8> = (0..32).map(|_| r.draw() as u8).collect();
        text.put(record(0, at as u16, &data));
    }
    text.close(&[]);
    text.open(0, V2, &[0xC0, 0xDE]);
    text.put(record(13, 0, &[1]));
    text.close(&[]);
    text.end();
    text.lines
}

/// The same in lower case, as some tools write it.
fn small(lines: &[Vec<u8>]) -> Vec<Vec<u8>> {
    lines.iter().map(|l| l.to_ascii_lowercase()).collect()
}

fn ours(lines: &[Vec<u8>], image: &mut [u8]) -> (f64, u64) {
    image.fill(0);
    let mut reader = [0; 16];
    proved::hex::bytes::new(V1, &mut reader);
    let answer = |line: &Vec<u8>| proved::hex::bytes::line(&mut reader, line, image);
    timed(|| lines.iter().map(answer).map(u64::from).sum())
}

fn plain(lines: &[Vec<u8>], image: &mut [u8]) -> (f64, u64) {
    image.fill(0);
    let mut reader = fresh(V1);
    let answer = |line: &Vec<u8>| {
        let (next, answer) = reference::hex::line(reader, line, image);
        reader = next;
        u64::from(answer.number) | u64::from(answer.position) << 8
    };
    timed(|| lines.iter().map(answer).sum())
}

fn by_table(lines: &[Vec<u8>], image: &mut [u8]) -> (f64, u64) {
    image.fill(0);
    let mut reader = Reader::fresh(V1);
    let answer = |line: &Vec<u8>| u64::from(reader.line(line, image));
    timed(|| lines.iter().map(answer).sum())
}

/// Each line with its last digit bad, to a fresh reader.
fn bad_digits(lines: &[Vec<u8>]) {
    let mut bad = lines.to_vec();
    bad.iter_mut().for_each(|l| {
        let last = l.len() - 2;
        l[last] = b'g';
    });
    let (mut one, mut other) = (vec![0; 64], vec![0; 64]);
    let mut reader = [0; 16];
    proved::hex::bytes::new(V1, &mut reader);
    let work = Work {
        rounds: crate::CALLS,
        calls: bad.len(),
        bytes: Some(bad.iter().map(Vec::len).sum()),
    };
    pair(
        &format!("a line of {} with a bad last digit", bad.len()),
        work,
        || {
            let answer = |l: &Vec<u8>| proved::hex::bytes::line(&mut reader.clone(), l, &mut one);
            timed(|| bad.iter().map(answer).map(u64::from).sum())
        },
        || {
            let answer = |l: &Vec<u8>| {
                let (_, a) = reference::hex::line(fresh(V1), l, &mut other);
                u64::from(a.number) | u64::from(a.position) << 8
            };
            timed(|| bad.iter().map(answer).sum())
        },
    );
}

pub fn rows() {
    let upper = file();
    bad_digits(&upper);
    let lower = small(&upper);
    let (mut one, mut other) = (vec![0; IMAGE], vec![0; IMAGE]);
    for (case, lines) in [("", &upper), (", lower case", &lower)] {
        let name = format!("a line of {}, 1 MiB of Universal Hex{case}", lines.len());
        let work = || Work {
            rounds: crate::CALLS,
            calls: lines.len(),
            bytes: Some(lines.iter().map(Vec::len).sum()),
        };
        pair(
            &name,
            work(),
            || ours(lines, &mut one),
            || plain(lines, &mut other),
        );
        assert!(one == other, "the two store the same");
        pair(
            &format!("{name}, plain Rust with a table"),
            work(),
            || ours(lines, &mut one),
            || by_table(lines, &mut other),
        );
        assert!(one == other, "the two store the same");
    }
}
