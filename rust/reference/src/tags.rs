//! The extension tags of a UF2 block, read at handed places (02, L4).
//!
//! A reader of tags is a block and a place in it: [`first_place`] is where it
//! begins, and each tag found names the place after it. A refusal or the end
//! leaves the place as it is, so that every later call finds it again.

use crate::{read_block, Arrival, BAD_BUFFERS, BAD_STATE, FLAG_MD5, NOT_BLOCK};

/// The payload size is over 476 or no multiple of 4.
pub const BAD_SIZE: u32 = 61;
/// A tag's size is 1 to 3.
pub const SHORT_TAG: u32 = 62;
/// A tag's size is 0, but its type isn't.
pub const TYPED_END: u32 = 63;
/// A tag runs past the room.
pub const PAST_ROOM: u32 = 64;
/// Under 4 bytes are left where a tag should start.
pub const NO_ROOM: u32 = 65;

const FLAG_TAGS: u32 = 0x8000;

/// Where a block's data begins, and how long it is.
const DATA_START: usize = 32;
const DATA_LEN: usize = 476;
/// The bytes at the data's end that a block with the MD5 flag uses otherwise.
const MD5_LEN: usize = 24;
/// The size byte and the type; also the step of the places.
const HEAD: usize = 4;

/// What is at a place. All places are offsets in the block of 512 bytes.
#[derive(Clone, Copy, PartialEq, Eq, Debug)]
pub enum Found {
    /// A tag of that type, with its contents and the place after it.
    Tag {
        kind: u32,
        start: usize,
        len: usize,
        next: usize,
    },
    End,
    Refused(u32),
}

/// Where a fresh reader of the block stands: after the payload, whatever size
/// the block claims; 0 if it is too short to have that field.
pub fn first_place(block: &[u8]) -> usize {
    // 02 asks for the place of a block of 512 bytes only. Any other is refused
    // wherever its reader stands; it is read alike as far as it goes.
    match block.get(16..20) {
        Some(&[a, b, c, d]) => DATA_START.saturating_add(u32::from_le_bytes([a, b, c, d]) as usize),
        _ => 0,
    }
}

/// What is at the place `at`, with every check of every call.
pub fn tag_at(block: &[u8], at: usize) -> Found {
    found(block, at).unwrap_or_else(Found::Refused)
}

fn found(block: &[u8], at: usize) -> Result<Found, u32> {
    let bytes = <&Arrival>::try_from(block).map_err(|_| u32::from(BAD_BUFFERS))?;
    let block = read_block(bytes).ok_or(u32::from(NOT_BLOCK))?;
    if block.flags & FLAG_TAGS == 0 {
        return Ok(Found::End);
    }
    let size = block.size as usize;
    if size > DATA_LEN || !size.is_multiple_of(HEAD) {
        return Err(BAD_SIZE);
    }
    if at < DATA_START + size || !at.is_multiple_of(HEAD) {
        return Err(BAD_STATE.into());
    }
    // "Tags may use data up to byte 475, or 451": the last byte they may use.
    let room = if block.flags & FLAG_MD5 == 0 {
        DATA_START + DATA_LEN
    } else {
        DATA_START + DATA_LEN - MD5_LEN
    };
    // A place past the room has no byte left either.
    let left = bytes[..room].get(at..).unwrap_or_default();
    let &[size, low, middle, high, ref after @ ..] = left else {
        return Err(NO_ROOM);
    };
    let kind = u32::from_le_bytes([low, middle, high, 0]);
    let size = usize::from(size);
    match size {
        1..HEAD => return Err(SHORT_TAG),
        0 if kind != 0 => return Err(TYPED_END),
        0 => return Ok(Found::End),
        _ => {}
    }
    let len = size - HEAD;
    if len > after.len() {
        return Err(PAST_ROOM);
    }
    Ok(Found::Tag {
        kind,
        start: at + HEAD,
        len,
        next: at + size.next_multiple_of(HEAD),
    })
}

#[cfg(test)]
mod tests {
    use super::*;

    /// 000's example: version 0.1.2 for the ACME Toaster mk3. Its second type
    /// is 0x659d9d, though 000's list has 0x650d9d for a device's description.
    const ACME: [u8; 36] = [
        0x09, 0xbc, 0xc7, 0x9f, 0x30, 0x2e, 0x31, 0x2e, 0x32, 0x00, 0x00, 0x00, //
        0x14, 0x9d, 0x9d, 0x65, 0x41, 0x43, 0x4d, 0x45, 0x20, 0x54, 0x6f, 0x61, 0x73, 0x74, 0x65,
        0x72, 0x20, 0x6d, 0x6b, 0x33, //
        0x00, 0x00, 0x00, 0x00,
    ];

    /// A block with `bytes` from that offset on; the rest of its data is 0xEE.
    fn block(flags: u32, size: u32, at: usize, bytes: &[u8]) -> [u8; 512] {
        let mut block = [0xEE; 512];
        let header = [0x0A32_4655, 0x9E5D_5157, flags, 0, size, 0, 1, 0];
        for (i, field) in header.into_iter().enumerate() {
            block[4 * i..4 * i + 4].copy_from_slice(&u32::to_le_bytes(field));
        }
        block[508..].copy_from_slice(&0x0AB1_6F30u32.to_le_bytes());
        block[at..at + bytes.len()].copy_from_slice(bytes);
        block
    }

    /// All that is found from the first place on, the last found repeated.
    fn all(block: &[u8]) -> Vec<Found> {
        let mut at = first_place(block);
        let mut list = vec![];
        loop {
            let found = tag_at(block, at);
            list.push(found);
            match found {
                Found::Tag { next, .. } => at = next,
                _ => return list,
            }
        }
    }

    #[test]
    fn acme() {
        for size in [0, 4, 256, 440] {
            let start = 32 + size as usize;
            let block = block(0x8000, size, start, &ACME);
            assert_eq!(first_place(&block), start);
            let version = Found::Tag {
                kind: 0x9f_c7bc,
                start: start + 4,
                len: 5,
                next: start + 12,
            };
            let device = Found::Tag {
                kind: 0x65_9d9d,
                start: start + 16,
                len: 16,
                next: start + 32,
            };
            assert_eq!(all(&block), [version, device, Found::End]);
            assert_eq!(block[start + 4..][..5], *b"0.1.2");
            assert_eq!(block[start + 16..][..16], *b"ACME Toaster mk3");
        }
    }

    #[test]
    fn first_places() {
        for len in 0..20 {
            assert_eq!(first_place(&vec![0xFF; len]), 0);
        }
        let all = 32 + u32::MAX as usize;
        assert_eq!(first_place(&[0xFF; 20]), all);
        for (size, place) in [(0, 32), (1, 33), (476, 508), (477, 509), (u32::MAX, all)] {
            assert_eq!(first_place(&block(0, size, 32, &[])), place);
        }
    }

    #[test]
    fn every_call_makes_every_check() {
        let good = block(0x8000, 256, 288, &ACME);
        for at in [0, 3, 288, 508, usize::MAX] {
            for len in [0, 19, 20, 511, 513, 1024] {
                assert_eq!(tag_at(&vec![0; len], at), Found::Refused(1));
            }
            for byte in [0, 7, 508, 511] {
                let mut bytes = good;
                bytes[byte] ^= 1;
                assert_eq!(tag_at(&bytes, at), Found::Refused(4));
            }
            // A clear flag goes before the size and the place.
            for flags in [0, 0x2000, 0x4000, !0x8000] {
                for size in [256, 2, 480, u32::MAX] {
                    assert_eq!(tag_at(&block(flags, size, 288, &ACME), at), Found::End);
                }
            }
            for size in [1, 2, 3, 255, 257, 475, 477, 480, u32::MAX, u32::MAX - 3] {
                let bytes = block(0x8000, size, 288, &[]);
                assert_eq!(tag_at(&bytes, at), Found::Refused(61), "{size}");
            }
        }
        for at in (0..288).chain([289, 290, 291, 293, 505, 509, usize::MAX]) {
            assert_eq!(tag_at(&good, at), Found::Refused(3), "{at}");
        }
        assert!(matches!(tag_at(&good, 288), Found::Tag { .. }));
    }

    /// Other flags don't keep a block from having tags.
    #[test]
    fn other_flags() {
        for flags in [0x8001, 0x9000, 0xB001, 0xA000, 0xC000, u32::MAX] {
            assert_eq!(all(&block(flags, 256, 288, &ACME)).len(), 3);
        }
    }

    #[test]
    fn sizes_and_types() {
        for size in 0..=255u8 {
            for kind in [0, 1, 0x100, 0x1_0000, 0xFF_FFFF] {
                let [low, middle, high, _] = u32::to_le_bytes(kind);
                let found = tag_at(&block(0x8000, 0, 100, &[size, low, middle, high]), 100);
                let expected = match size {
                    0 if kind == 0 => Found::End,
                    0 => Found::Refused(63),
                    1..=3 => Found::Refused(62),
                    _ => Found::Tag {
                        kind,
                        start: 104,
                        len: usize::from(size) - 4,
                        next: 100 + usize::from(size).div_ceil(4) * 4,
                    },
                };
                assert_eq!(found, expected);
            }
        }
    }

    #[test]
    fn the_room() {
        for (flags, room) in [(0x8000, 508), (0xC000, 484)] {
            for left in (4..=100).step_by(4) {
                let at = room - left;
                for size in 4..=104 {
                    let found = tag_at(&block(flags, 256, at, &[size, 1, 2, 3]), at);
                    if usize::from(size) > left {
                        assert_eq!(found, Found::Refused(64));
                        continue;
                    }
                    let Found::Tag {
                        start, len, next, ..
                    } = found
                    else {
                        panic!("{found:?}");
                    };
                    assert_eq!((start, len), (at + 4, usize::from(size) - 4));
                    assert!(next <= room && start + len <= next && next < start + len + 4);
                }
            }
            // Nothing is left at the room's end, nor past it.
            for at in (room..600).step_by(4).chain([usize::MAX - 3]) {
                assert_eq!(tag_at(&block(flags, 256, 32, &[]), at), Found::Refused(65));
            }
        }
        // The whole of the data may be payload, even that of the MD5.
        for (flags, size) in [(0x8000, 476), (0xC000, 476), (0xC000, 456), (0xC000, 452)] {
            assert_eq!(all(&block(flags, size, 32, &[])), [Found::Refused(65)]);
        }
        assert_eq!(all(&block(0x8000, 472, 504, &[0; 4])), [Found::End]);
        assert_eq!(all(&block(0xC000, 448, 480, &[0; 4])), [Found::End]);
    }

    /// Tags that fill the room leave no place for an end.
    #[test]
    fn tags_up_to_the_last_byte() {
        for (flags, room) in [(0x8000, 508), (0xC000, 484)] {
            let mut bytes = block(flags, 256, 32, &[]);
            for at in (288..room).step_by(4) {
                bytes[at] = 4;
            }
            let list = all(&bytes);
            assert_eq!(list.len(), (room - 288) / 4 + 1);
            assert_eq!(list.last(), Some(&Found::Refused(65)));
        }
    }
}
