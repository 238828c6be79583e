//! Files checked through the wrapper: each answer once, just met, and beside it the nearest file that is valid.

use vantorel_tools::check::{check, check_bytes, Checked, Lens};
use vantorel_tools::check::{CELLS_BYTES, NUMBERS_BYTES, OFFSETS_BYTES, TOLD_BYTES};

const ARM_S: u32 = 0xe48b_ff59;
const BOARD: Lens = Lens {
    flash: 65_536,
    main: 532_480,
    xip: 16_384,
};

/// Both architectures, Arm current, no table.
fn settings() -> Vec<u8> {
    let mut bytes = vantorel::Settings::ARM.bytes().to_vec();
    bytes[1] = 1;
    bytes
}

fn made(start: u32, blocks: usize) -> Vec<u8> {
    let image: Vec<u8> = (0..256 * blocks).map(|i| (i / 256 + i) as u8).collect();
    let mut file = vec![0; 512 * blocks];
    assert_eq!(
        vantorel_tools::make(&image, ARM_S, start, &mut file),
        Ok(blocks)
    );
    file
}

fn put(file: &mut [u8], piece: usize, at: usize, value: u32) {
    file[512 * piece + at..][..4].copy_from_slice(&value.to_le_bytes());
}

/// The answer to a file of 8 blocks in which one field of a piece was changed.
fn with(piece: usize, at: usize, value: u32) -> Checked {
    let mut file = made(0x1000_0000, 8);
    put(&mut file, piece, at, value);
    check(&settings(), &file, BOARD)
}

#[test]
fn one_field_wrong() {
    assert_eq!(with(3, 20, 3), Checked::Valid);
    assert_eq!(with(3, 0, 0), Checked::Refused(3, 4));
    assert_eq!(with(3, 8, 0x3000), Checked::Refused(3, 5));
    assert_eq!(with(3, 8, 0), Checked::Refused(3, 7));
    assert_eq!(with(3, 28, 0xe48b_ff56), Checked::Refused(3, 8));
    assert_eq!(with(3, 16, 255), Checked::Refused(3, 9));
    assert_eq!(with(3, 20, 8), Checked::Refused(3, 10));
    assert_eq!(with(3, 12, 0x1000_0301), Checked::Refused(3, 11));
    assert_eq!(with(3, 28, 0xe48b_ff5a), Checked::OtherFamily(3));
    assert_eq!(with(3, 24, 9), Checked::OtherTotal(3));
    assert_eq!(with(3, 12, 0x2000_0000), Checked::OtherKind(3));
    assert_eq!(with(3, 20, 5), Checked::SameNumber(5, 3));
    assert_eq!(with(3, 20, 1), Checked::SameNumber(3, 1));
    assert_eq!(with(6, 12, 0x1000_0200), Checked::Overlap(6, 2));
    assert_eq!(with(6, 12, 0x1000_0800), Checked::Valid);
}

#[test]
fn lengths() {
    let file = made(0x1000_0000, 8);
    let answer = |n: usize| check(&settings(), &file[..n], BOARD);
    assert_eq!(answer(0), Checked::Empty);
    assert_eq!(answer(511), Checked::Ragged);
    assert_eq!(answer(512), Checked::Missing(1));
    assert_eq!(answer(4096), Checked::Valid);
    assert_eq!(check(&[], &file, BOARD), Checked::BadSettings);
    for main in [1, 532_479] {
        assert_eq!(
            check(&settings(), &file, Lens { main, ..BOARD }),
            Checked::BadBuffers
        );
    }
    assert_eq!(
        check(&settings(), &file, Lens { flash: 0, ..BOARD }),
        Checked::BadBuffers
    );
}

/// In RAM a range may start anywhere: two that start less than 256 bytes apart overlap, whichever cells they start in.
#[test]
fn ranges_in_ram() {
    for first in [
        0x2000_0000,
        0x2000_0001,
        0x2000_00ff,
        0x2008_1dff,
        0x13ff_c000,
        0x13ff_c07f,
    ] {
        for apart in [0, 1, 255, 256, 257] {
            for back in [false, true] {
                let mut file = made(0x1000_0000, 2);
                let addresses = if back {
                    [first + apart, first]
                } else {
                    [first, first + apart]
                };
                for (piece, address) in addresses.into_iter().enumerate() {
                    put(&mut file, piece, 12, address);
                }
                let expected = if apart < 256 {
                    Checked::Overlap(1, 0)
                } else {
                    Checked::Valid
                };
                assert_eq!(
                    check(&settings(), &file, BOARD),
                    expected,
                    "{first:#x} {apart} {back}"
                );
            }
        }
    }
}

#[test]
fn comments() {
    let mut file = made(0x1000_0000, 4);
    put(&mut file, 2, 8, 0x2001);
    put(&mut file, 2, 12, 0x1000_0000);
    assert_eq!(check(&settings(), &file, BOARD), Checked::Valid);
    put(&mut file, 2, 20, 1);
    assert_eq!(check(&settings(), &file, BOARD), Checked::SameNumber(2, 1));
    let mut ram = made(0x1000_0000, 4);
    for piece in 0..4 {
        put(&mut ram, piece, 12, 0x2000_0000 + 256 * piece as u32);
    }
    assert_eq!(check(&settings(), &ram, BOARD), Checked::Valid);
    put(&mut ram, 3, 8, 0x2001);
    assert_eq!(check(&settings(), &ram, BOARD), Checked::OtherKind(3));
}

#[test]
fn regions() {
    let mut file = made(0x1000_0000, 16);
    put(&mut file, 5, 8, 0x6000);
    put(&mut file, 5, 484, 0x1000_0000);
    put(&mut file, 5, 488, 4096);
    assert_eq!(check(&settings(), &file, BOARD), Checked::Guarded(5));
    put(&mut file, 5, 488, 4095);
    assert_eq!(check(&settings(), &file, BOARD), Checked::Valid);
}

/// The whole flash in order and backwards, and what the maps hold after a call.
#[test]
fn many_blocks() {
    let board = Lens {
        flash: 33_554_432,
        ..BOARD
    };
    let mut file = made(0x1000_0000, 131_072);
    assert_eq!(check(&settings(), &file, board), Checked::Valid);
    let half = file.len() / 2;
    let (low, high) = file.split_at_mut(half);
    low.swap_with_slice(high);
    assert_eq!(check(&settings(), &file, board), Checked::Valid);
    put(&mut file, 131_071, 20, 7);
    assert_eq!(
        check(&settings(), &file, board),
        Checked::SameNumber(131_071, 65_543)
    );
    let (mut numbers, mut cells, mut offsets) = (
        vec![9; NUMBERS_BYTES],
        vec![9; CELLS_BYTES],
        vec![9; OFFSETS_BYTES],
    );
    let maps = [&mut numbers[..], &mut cells[..], &mut offsets[..]];
    let mut told = [0; TOLD_BYTES];
    assert_eq!(check_bytes(&settings(), &file, board, maps, &mut told), 85);
    assert!([numbers, cells, offsets]
        .concat()
        .iter()
        .all(|&byte| byte == 0));
}
