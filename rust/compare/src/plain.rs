//! Plain Intel Hex files, right and damaged, from a seed.

use crate::hex::{damage, record, ENDINGS};
use crate::Random;

fn any_data(r: &mut Random, n: usize) -> Vec<u8> {
    (0..n).map(|_| r.draw() as u8).collect()
}

/// Data that does not cross the 65,536 bytes that one 02 or 04 reaches, often up to their end or near it.
fn any_bytes(r: &mut Random) -> Vec<u8> {
    let n = r.of(&[0, 1, 2, 15, 16, 16, 16, 31, 32, 32]);
    let most = 65_536 - n as u64;
    let any = r.below(65_536);
    let at = r
        .of(&[
            0,
            1,
            most,
            most.saturating_sub(1),
            most.saturating_sub(8),
            any,
        ])
        .min(most);
    let data = any_data(r, n);
    record(0, at.min(65_535) as u16, &data)
}

/// One record of a right file, the 01 excepted.
fn any_item(r: &mut Random) -> Vec<u8> {
    let word = r.draw() as u16;
    let address = r.of(&[0, 0, 0, word]);
    match r.below(12) {
        // a base near a multiple of 65,536, so that data crosses it
        0 | 1 => {
            let segment: u16 = r.of(&[0, 1, 0x0FFF, 0x1001, 0x3000, 0xFFFF, word]);
            record(2, address, &segment.to_be_bytes())
        }
        2 | 3 => {
            let upper: u16 = r.of(&[0, 0, 1, 2, 15, 16, 0xFFFF, word]);
            record(4, address, &upper.to_be_bytes())
        }
        4 => {
            let kind = r.of(&[3, 5]);
            record(kind, address, &any_data(r, 4))
        }
        _ => any_bytes(r),
    }
}

/// One record that no plain file has there: a type over 05, a length that the type does not have, or data that crosses.
fn any_wrong(r: &mut Random) -> Vec<u8> {
    let n = r.of(&[0, 1, 2, 3, 4, 5, 16, 32]);
    let kind = r.of(&[1, 2, 3, 4, 5, 6, 10, 13, 255]);
    let data = any_data(r, n);
    match r.below(4) {
        0 => record(0, (65_536 - n.max(2) + 1) as u16, &data),
        _ => record(kind, 0, &data),
    }
}

/// A plain file: right, with an ending of each line, or with a line damaged, a wrong record, no 01 or something after it.
pub fn any_plain(r: &mut Random) -> Vec<u8> {
    let ending = r.of(&ENDINGS[..2]);
    let mut lines: Vec<Vec<u8>> = (0..r.of(&[0, 1, 2, 5, 20, 60]))
        .map(|_| any_item(r))
        .collect();
    if r.one_in(8) {
        lines.push(any_wrong(r));
    }
    if !r.one_in(12) {
        lines.push(record(1, 0, &[]));
    }
    if r.one_in(12) {
        lines.push(r.of(&[&b""[..], b":00000001FF", b"x"]).to_vec());
    }
    for line in &mut lines {
        if r.one_in(3) {
            line.make_ascii_lowercase();
        }
        line.extend_from_slice(ending);
    }
    if !lines.is_empty() && r.one_in(4) {
        damage(r, &mut lines);
    }
    let mut file = lines.concat();
    // the last line may have no LF
    if r.one_in(3) {
        while file.last().is_some_and(|&c| c == b'\n' || c == b'\r') {
            file.pop();
        }
    }
    file
}
