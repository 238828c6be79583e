//! Blocks with extension tags, from a seed.

use crate::Random;

/// A UF2 block with these flags and this payload size, and whatever data.
pub fn block(flags: u32, size: u32, mut data: impl FnMut() -> u8) -> [u8; 512] {
    let mut block = [0; 512];
    block[32..508].fill_with(&mut data);
    for (at, x) in [(0, 0x0A32_4655), (4, 0x9E5D_5157), (8, flags), (16, size)] {
        block[at..at + 4].copy_from_slice(&u32::to_le_bytes(x));
    }
    block[508..].copy_from_slice(&0x0AB1_6F30u32.to_le_bytes());
    block
}

/// Writes tags from a place on, while there is room; the last of them may be cut, short or past the room.
pub fn lay(r: &mut Random, block: &mut [u8; 512], mut at: usize) {
    while at < 508 {
        let size = match r.below(40) {
            0 => 0,
            1 => r.below(4) as u8,
            2 => r.draw() as u8,
            _ => 4 + r.below(24) as u8,
        };
        let kind = r.of(&[0, 0x9f_c7bc, 0x65_0d9d, 1, r_kind(r.0)]);
        let head = [size, kind as u8, (kind >> 8) as u8, (kind >> 16) as u8];
        let n = (508 - at).min(4);
        block[at..at + n].copy_from_slice(&head[..n]);
        at += usize::from(size).next_multiple_of(4).max(4);
    }
}

fn r_kind(x: u64) -> u32 {
    x as u32 & 0xFF_FFFF
}

/// A block of any kind, mostly one with tags, and sometimes of another length.
pub fn any_block(r: &mut Random) -> Vec<u8> {
    let flags = r.of(&[
        0x8000, 0xC000, 0xA000, 0xE000, 0x8001, 0x9000, 0x2000, 0x4000,
    ]);
    let any = r.draw() as u32;
    let size = 4 * r.below(120) as u32;
    let size = r.of(&[
        size, size, size, 0, 252, 256, 448, 452, 472, 476, 477, 480, !3, any,
    ]);
    let fill = r.draw() as u8;
    let mut bytes = if r.one_in(3) {
        block(flags, size, || r.draw() as u8)
    } else {
        block(flags, size, || fill)
    };
    if size < 476 {
        lay(r, &mut bytes, 32 + size as usize);
    }
    if r.one_in(50) {
        let at = r.of(&[0, 3, 4, 7, 508, 511, 9]);
        bytes[at] ^= 1 << r.below(8);
    }
    let mut bytes = bytes.to_vec();
    if r.one_in(50) {
        let n = r.of(&[0, 1, 19, 20, 511, 513, 600]);
        bytes.resize(n, 0);
    }
    bytes
}
