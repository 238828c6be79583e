//! A file checked before it is sent (include/uf2_check.h): whether its pieces are the blocks of a file of which demand 3 speaks.
//!
//! ```
//! use vantorel_tools::check::{check, Checked, Lens};
//! let board = Lens { flash: 32_768, main: 0, xip: 0 };
//! let settings = vantorel::Settings::ARM.bytes();
//! let mut file = [0; 1024];
//! vantorel_tools::make(&[7; 512], 0xe48b_ff59, 0x1000_0000, &mut file).unwrap();
//! assert_eq!(check(&settings, &file, board), Checked::Valid);
//!
//! file.copy_within(12..16, 512 + 12); // both blocks name one address
//! assert_eq!(check(&settings, &file, board), Checked::Overlap(1, 0));
//! assert_eq!(check(&settings, &file[..512], board), Checked::Missing(1));
//! assert_eq!(check(&settings, &file[..1023], board).number(), 80);
//! ```

use crate::ffi::{len, Len};

extern "C" {
    fn uf2_check(
        settings: *const u8,
        settings_len: Len,
        file: *const u8,
        file_len: Len,
        flash_len: Len,
        main_len: Len,
        xip_len: Len,
        numbers: *mut u8,
        numbers_len: Len,
        cells: *mut u8,
        cells_len: Len,
        offsets: *mut u8,
        offsets_len: Len,
        told: *mut u8,
        told_len: Len,
    ) -> u32;
}

/// The bytes of the map of numbers.
pub const NUMBERS_BYTES: usize = 16_384;
/// The bytes of the map of cells.
pub const CELLS_BYTES: usize = 16_384;
/// The bytes of the map of offsets.
pub const OFFSETS_BYTES: usize = 2080;
/// The bytes of what is told.
pub const TOLD_BYTES: usize = 16;

/// The lengths of a board's buffers: its flash, and each RAM, 0 for none.
#[derive(Clone, Copy, PartialEq, Eq, Debug)]
pub struct Lens {
    /// The flash.
    pub flash: usize,
    /// Main RAM, 532,480 bytes or none.
    pub main: usize,
    /// XIP RAM, 16,384 bytes or none.
    pub xip: usize,
}

/// What is wrong with a file. The first number is the piece, counted from 0, and the second the earlier piece that it collides with.
#[derive(Clone, Copy, PartialEq, Eq, Debug)]
pub enum Checked {
    /// Nothing: delivered in any order and with repeats, it ends complete with every payload at its address.
    Valid,
    /// A wrong length of flash or RAM.
    BadBuffers,
    /// No good settings for this flash, or bytes that are none.
    BadSettings,
    /// The file's length is no multiple of 512.
    Ragged,
    /// It has no piece.
    Empty,
    /// An Idle board answers the piece so: 4 to 11.
    Refused(usize, u8),
    /// Its family is not the first piece's.
    OtherFamily(usize),
    /// Its total is not.
    OtherTotal(usize),
    /// Its memory is not; a comment's is flash.
    OtherKind(usize),
    /// The other piece has its number.
    SameNumber(usize, usize),
    /// Both are data, and the other has a byte address of it.
    Overlap(usize, usize),
    /// Fewer pieces than the total: the least number that no piece has.
    Missing(usize),
    /// A valid file, but the piece names a region that counts: that its digest is right was not checked.
    Guarded(usize),
}

impl Checked {
    /// The number of the answer; 0 for a valid file.
    pub fn number(self) -> u32 {
        match self {
            Checked::Valid => 0,
            Checked::BadBuffers => 1,
            Checked::BadSettings => 2,
            Checked::Ragged => 80,
            Checked::Empty => 81,
            Checked::Refused(_, answer) => u32::from(answer),
            Checked::OtherFamily(_) => 82,
            Checked::OtherTotal(_) => 83,
            Checked::OtherKind(_) => 84,
            Checked::SameNumber(..) => 85,
            Checked::Overlap(..) => 86,
            Checked::Missing(_) => 87,
            Checked::Guarded(_) => 88,
        }
    }
}

fn word(told: &[u8; TOLD_BYTES], at: usize) -> usize {
    let byte = |i: usize| (told[at + i] as usize) << (8 * i);
    (0..8).map(byte).sum()
}

fn told(number: u32, told: &[u8; TOLD_BYTES]) -> Checked {
    let (piece, other) = (word(told, 0), word(told, 8));
    match number {
        0 => Checked::Valid,
        1 => Checked::BadBuffers,
        2 => Checked::BadSettings,
        80 => Checked::Ragged,
        81 => Checked::Empty,
        82 => Checked::OtherFamily(piece),
        83 => Checked::OtherTotal(piece),
        84 => Checked::OtherKind(piece),
        85 => Checked::SameNumber(piece, other),
        86 => Checked::Overlap(piece, other),
        87 => Checked::Missing(piece),
        88 => Checked::Guarded(piece),
        answer => Checked::Refused(piece, answer as u8),
    }
}

/// What is wrong with a file, for settings as bytes and a board with buffers of such lengths. The maps that the call needs, 34,848 bytes, stand on
/// the stack.
pub fn check(settings: &[u8], file: &[u8], lens: Lens) -> Checked {
    let mut bytes = [0; TOLD_BYTES];
    let (mut numbers, mut cells, mut offsets) =
        ([0; NUMBERS_BYTES], [0; CELLS_BYTES], [0; OFFSETS_BYTES]);
    let maps = [&mut numbers[..], &mut cells[..], &mut offsets[..]];
    let number = check_bytes(settings, file, lens, maps, &mut bytes);
    told(number, &bytes)
}

/// The same with the maps of numbers, cells and offsets, which are left all zero, and the bytes of what is told, which are written where there are
/// [`TOLD_BYTES`].
pub fn check_bytes(
    settings: &[u8],
    file: &[u8],
    lens: Lens,
    maps: [&mut [u8]; 3],
    told: &mut [u8],
) -> u32 {
    let [numbers, cells, offsets] = maps;
    // SAFETY: each pointer is of a slice with its length, and what is written overlaps nothing, since it is borrowed alone.
    unsafe {
        uf2_check(
            settings.as_ptr(),
            len(settings),
            file.as_ptr(),
            len(file),
            lens.flash as Len,
            lens.main as Len,
            lens.xip as Len,
            numbers.as_mut_ptr(),
            len(numbers),
            cells.as_mut_ptr(),
            len(cells),
            offsets.as_mut_ptr(),
            len(offsets),
            told.as_mut_ptr(),
            len(told),
        )
    }
}
