//! Blocks that name a region of flash and its digest (flag 0x4000).

use reference::md5::md5;
use reference::WINDOW;

use crate::Random;

fn field(a: &[u8], at: usize) -> u32 {
    u32::from_le_bytes([a[at], a[at + 1], a[at + 2], a[at + 3]])
}

/// The block with flag 0x4000 and a region in the last 24 bytes of its data.
pub fn put_region(a: &mut [u8], start: u32, len: u32, digest: [u8; 16]) {
    a[9] |= 0x40;
    a[484..488].copy_from_slice(&start.to_le_bytes());
    a[488..492].copy_from_slice(&len.to_le_bytes());
    a[492..508].copy_from_slice(&digest);
}

/// The digest of the flash where a region lies, whether or not it is a good one; zeros where that is not all in the flash. The place of its
/// family begins at this byte.
pub fn digest_there(flash: &[u8], place: usize, start: u32, len: u32) -> [u8; 16] {
    let from = (place + start as usize).checked_sub(WINDOW as usize);
    let end = from.and_then(|from| from.checked_add(len as usize));
    let part = from.zip(end).and_then(|(from, end)| flash.get(from..end));
    part.map_or([0; 16], md5)
}

/// Any region for a block, mostly whole sectors around it with the digest of what the flash has there, else off in one way or another.
pub fn any_region(r: &mut Random, a: &mut [u8], flash: &[u8], place: usize) {
    let sector = field(a, 12) & !4095;
    let mut start = sector.wrapping_sub(4096 * r.of(&[0, 0, 1, 2]));
    let mut len = 4096 * r.of(&[1, 1, 2, 3]);
    match r.below(12) {
        0 => start = start.wrapping_add_signed(r.of(&[-2048, -256, -1, 1, 256, 2048])),
        1 => len += r.of(&[1, 256, 2048, 4095]),
        2 => len = r.of(&[0, 0x8000_0000, 0xffff_f000]),
        3 => start = r.of(&[0, 0x0fff_f000, 0x1000_0000, 0x1200_0000, 0xffff_f000]),
        _ => {}
    }
    let mut digest = digest_there(flash, place, start, len);
    if r.one_in(8) {
        digest[r.below(16) as usize] ^= 1 << r.below(8);
    }
    put_region(a, start, len, digest);
}
