//! Blocks from an input, and lists of them.

use crate::board::put;
use crate::input::Input;

pub const BLOCK: usize = 512;

/// The edges of the windows.
const EDGES: [u32; 8] = [
    0x1000_0000,
    0x1200_0000,
    0x13ff_c000,
    0x1400_0000,
    0x2000_0000,
    0x2008_2000,
    0,
    0xffff_ff00,
];

/// A block, mostly one that some board takes, of 512 bytes; `flash` is what its region may name the digest of.
pub fn block(input: &mut Input, flash: &[u8]) -> [u8; BLOCK] {
    let mut a = [0; BLOCK];
    put(&mut a, 0, 0x0A32_4655);
    put(&mut a, 4, 0x9E5D_5157);
    put(&mut a, 508, 0x0AB1_6F30);
    let shape = input.byte();
    let flags = match shape >> 5 {
        7 => input.word(),
        6 => input.of(&[
            0,
            0x3000,
            0x3001,
            0x2000_2000,
            0x1001,
            0xA000,
            0xE000,
            0xC000,
        ]),
        5 => 0x2001,
        4 => 0x6000,
        _ => 0x2000,
    };
    put(&mut a, 8, flags);
    let number = match input.byte() {
        255 => input.word(),
        254 => u32::from(input.word16()),
        b => u32::from(b) % 32,
    };
    let total = input.word_of(&[
        2,
        3,
        4,
        8,
        16,
        1,
        32,
        64,
        65,
        2080,
        2081,
        128,
        129,
        0,
        131_072,
        0x0100_0000,
    ]);
    let address = match shape & 7 {
        0..=3 => 0x1000_0000u32.wrapping_add(256 * number),
        4 => 0x1000_0000 + 256 * u32::from(input.byte()),
        5 => 0x2000_0000 + u32::from(input.word16()),
        6 => 0x13ff_c000 + u32::from(input.word16()) % 16_500,
        _ => input
            .word_of(&EDGES)
            .wrapping_add_signed((input.byte() as i8).into()),
    };
    put(&mut a, 12, address);
    let size = if shape & 24 == 24 {
        input.word_of(&[255, 257, 476, 0, 256])
    } else {
        256
    };
    put(&mut a, 16, size);
    put(&mut a, 20, number);
    put(&mut a, 24, total);
    put(&mut a, 28, input.family());
    let seed = input.byte();
    for (i, byte) in a[32..508].iter_mut().enumerate() {
        *byte = seed ^ (i as u8).wrapping_mul(seed | 1);
    }
    if flags & 0x4000 != 0 {
        region(input, &mut a, address, flash);
    }
    // any byte of it, the magic numbers too
    if shape & 24 == 16 {
        let at = usize::from(input.word16()) % BLOCK;
        a[at] ^= input.byte();
    }
    a
}

/// A region around the block with the digest of what the flash has there, or off in one way.
fn region(input: &mut Input, a: &mut [u8; BLOCK], address: u32, flash: &[u8]) {
    let shape = input.byte();
    let start = match shape >> 4 {
        15 => input.word(),
        14 => address,
        13 => (address & !4095).wrapping_add(4096),
        12 => (address & !4095).wrapping_sub(4096),
        _ => address & !4095,
    };
    let len = match shape & 15 {
        15 => input.word(),
        14 => 0,
        13 => 4095,
        n => 4096 * (1 + u32::from(n) % 3),
    };
    let from = start.wrapping_sub(0x1000_0000) as usize;
    let there = flash.get(from..from.saturating_add(len as usize));
    let mut digest = there.map_or([0; 16], reference::md5::md5);
    digest[usize::from(shape & 15)] ^= input.byte() & 1;
    put(a, 484, start);
    put(a, 488, len);
    a[492..508].copy_from_slice(&digest);
}

/// A list of blocks as they would stand in a file, up to a number of them; now and then the last is short or long.
pub fn list(input: &mut Input, flash: &[u8], most: usize) -> Vec<u8> {
    let mut list = Vec::with_capacity(BLOCK * 4);
    let tail = input.byte();
    for _ in 0..most {
        list.extend_from_slice(&block(input, flash));
        if input.is_empty() {
            break;
        }
    }
    let right = list.len();
    let length = match tail {
        240..=247 => right - usize::from(tail - 239),
        248..=255 => right + 64 * usize::from(tail - 247),
        _ => right,
    };
    list.resize(length, 0);
    list
}
