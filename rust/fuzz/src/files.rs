//! uf2_make, uf2_make_check, uf2_make_block, uf2_md5 and uf2_check; uf2_store_read and uf2_store_write; the calls of uf2_tags.h.

use reference::check::{check as checked, Found};
use reference::make;
use reference::store::{read_store, write_store};
use reference::tags::{first_place, tag_at, Found as Tag};

use crate::arrivals::{self, BLOCK};
use crate::board::{self, bytes_of_stored, settings_of, stored_of, SETTINGS};
use crate::calls;
use crate::input::Input;
use crate::receiver::Desk;

// ---- files from images

/// A start at or beside an edge of the window, or any.
fn start(input: &mut Input) -> u32 {
    let edge = input.word_of(&[
        0x1000_0000,
        0x1000_1000,
        0x1200_0000,
        0x11FF_FF00,
        0,
        0x2000_0000,
    ]);
    edge.wrapping_add_signed(input.of(&[0, 0, 0, 256, -256, 1, -1, 128, 4096]))
}

/// What the reference says of lengths alone: an image is made where it is short, and judged by its length where it is long.
fn make_answer(image_len: u64, start: u32, output_len: u64) -> u32 {
    if image_len == 0 || !image_len.is_multiple_of(256) {
        return make::BAD_PAGES;
    }
    let window = 0x1000_0000..0x1200_0000u32;
    if !window.contains(&start) || !start.is_multiple_of(256) {
        return make::BAD_START;
    }
    if image_len > u64::from(window.end - start) {
        return make::PAST_WINDOW;
    }
    if output_len / 512 < image_len / 256 {
        make::SHORT_OUTPUT
    } else {
        0
    }
}

pub fn make_check(_: &mut Desk, input: &mut Input) {
    let pages = match input.byte() {
        255 => input.word64(),
        254 => u64::from(input.word()),
        253 => 131_072,
        b => u64::from(b) % 8,
    };
    let image_len = pages
        .wrapping_mul(256)
        .wrapping_add(input.of(&[0, 0, 0, 1, 255]));
    let start = start(input);
    let output_len = match input.byte() {
        255 => input.word64(),
        b => pages
            .wrapping_mul(512)
            .wrapping_add_signed(i64::from(b as i8) / 64),
    };
    let got = calls::uf2_make_check(image_len, start, output_len);
    assert_eq!(got, make_answer(image_len, start, output_len), "answer");
    if image_len <= 2048 && output_len <= 4096 {
        let (image, mut output) = (vec![0; image_len as usize], vec![0; output_len as usize]);
        let made = make::make(&image, 1, start, &mut output);
        assert_eq!(got, made.err().unwrap_or(0), "the reference's");
    }
}

/// A maker of files, with the answer R: image, family, start and output.
type Maker<R> = fn(&[u8], u32, u32, &mut [u8]) -> R;

/// An image, and what the call and the reference make of it.
fn make_with(
    desk: &mut Desk,
    input: &mut Input,
    reference: Maker<Result<usize, u32>>,
    call: Maker<u32>,
) {
    let (family, start) = (input.family(), start(input));
    let room = input.byte();
    let image = input.some(2048).to_vec();
    let output_len =
        (image.len() / 256 * 512 + usize::from(room >> 2)).saturating_sub(usize::from(room & 3));
    let mut wanted = vec![0x5A; output_len];
    let made = reference(&image, family, start, &mut wanted);
    let output = desk.sent.fill(output_len, 0x5A);
    let got = call(desk.small.copy(&image), family, start, output);
    assert_eq!(got, made.err().unwrap_or(0), "answer");
    desk.sent.holds(&wanted, "output");
    desk.small.holds(&image, "image");
}

pub fn make(desk: &mut Desk, input: &mut Input) {
    make_with(desk, input, make::make, calls::uf2_make);
}

pub fn make_regions(desk: &mut Desk, input: &mut Input) {
    make_with(desk, input, make::make_regions, calls::uf2_make_regions);
}

/// The block of a page: that of a file of one page, with number and total put in their places.
pub fn make_block(desk: &mut Desk, input: &mut Input) {
    let [address, number, total] = [input.word(), input.word(), input.word()];
    let family = input.family();
    let (page_len, block_len) = (input.length(256, 600), input.length(BLOCK, 1200));
    let mut page = input.some(page_len).to_vec();
    page.resize(page_len, 9);
    let mut wanted = vec![0x5A; block_len];
    if page_len == 256 && block_len == BLOCK {
        let made = make::make(&page, family, 0x1000_0000, &mut wanted);
        assert_eq!(made, Ok(1), "the reference's");
        for (at, word) in [(12, address), (20, number), (24, total)] {
            board::put(&mut wanted, at, word);
        }
    }
    let block = desk.sent.fill(block_len, 0x5A);
    let page = desk.small.copy(&page);
    calls::uf2_make_block(address, number, total, family, page, block);
    desk.sent.holds(&wanted, "block");
}

pub fn md5(desk: &mut Desk, input: &mut Input) {
    let length = input.length(16, 64);
    let (times, bytes) = (usize::from(input.byte() % 8) + 1, input.some(4096));
    let bytes = bytes.repeat(times);
    let digest = desk.small.fill(length, 0x5A);
    calls::uf2_md5(desk.sent.copy(&bytes), digest);
    if length == 16 {
        desk.small.holds(&reference::md5::md5(&bytes), "digest");
    } else {
        desk.small.holds(&vec![0x5A; length], "digest");
    }
}

// ---- a file checked

const MAPS: [usize; 3] = [16_384, 16_384, 2080];
const TOLD: usize = 16;

/// What is told of what is found.
fn told(found: Found) -> [u64; 2] {
    let (piece, other) = match found {
        Found::Refused { piece, .. }
        | Found::OtherFamily { piece }
        | Found::OtherTotal { piece }
        | Found::OtherKind { piece }
        | Found::Guarded { piece } => (piece, 0),
        Found::SameNumber { piece, other } | Found::Overlap { piece, other } => (piece, other),
        Found::Missing { number } => (number as usize, 0),
        _ => (0, 0),
    };
    [piece as u64, other as u64]
}

pub fn check(desk: &mut Desk, input: &mut Input) {
    let raw = input.byte() == 0;
    let settings = if raw {
        board::plain_settings()
    } else {
        board::settings(input)
    };
    let (mut flash_len, mut main, mut xip) = (32_768, 0, 0);
    let (mut map_lens, mut told_len, mut byte) = (MAPS, TOLD, 0);
    let file = if raw {
        input.some(32 * BLOCK).to_vec()
    } else {
        flash_len = input.flash_len();
        main = input.of(&[0, 532_480, 0, 532_480, 1, 532_479]);
        xip = input.of(&[0, 16_384, 0, 16_384, 16_383, 32_768]);
        told_len = input.length(TOLD, 64);
        byte = input.byte();
        if byte >= 240 {
            let which = usize::from(input.byte() % 3);
            map_lens[which] = input.length(MAPS[which], 2 * MAPS[0]);
        }
        arrivals::list(input, &[0xFF; 32_768], 24)
    };
    let wanted = if map_lens == MAPS && told_len == TOLD {
        let lens = [flash_len, main, xip].map(|n| n as usize);
        checked(&settings_of(&settings), &file, lens[0], lens[1], lens[2])
    } else {
        Found::BadBuffers
    };
    let [numbers, cells, offsets] = &mut desk.maps;
    let got = calls::uf2_check(
        desk.settings.copy(&settings),
        desk.sent.copy(&file),
        flash_len,
        main,
        xip,
        numbers.fill(map_lens[0], byte),
        cells.fill(map_lens[1], byte),
        offsets.fill(map_lens[2], byte),
        desk.small.fill(told_len, 0x5A),
    );
    assert_eq!(got, wanted.number().into(), "answer: {wanted:?}");
    for (map, len) in desk.maps.iter_mut().zip(map_lens) {
        map.holds(&vec![0; len], "map");
    }
    if told_len == TOLD {
        let words = told(wanted).map(u64::to_le_bytes);
        desk.small.holds(words.as_flattened(), "what is told");
    } else {
        desk.small.holds(&vec![0x5A; told_len], "what is told");
    }
}

// ---- a store of settings

pub fn store_read(desk: &mut Desk, input: &mut Input) {
    let flash_len = input.flash_len();
    let settings_len = input.length(SETTINGS, 2 * SETTINGS);
    let bytes = match input.byte() {
        // any bytes
        0..=63 => input.some(512).to_vec(),
        // of good settings, with some of them spoilt
        shape => {
            let settings = board::settings(input);
            let mut bytes = vec![0; 354];
            let stored = stored_of(&settings);
            let written = write_store(&stored, flash_len as usize, &mut bytes);
            bytes.truncate(written.unwrap_or(2));
            for _ in 0..shape & 3 {
                let at = usize::from(input.word16()) % bytes.len();
                bytes[at] ^= input.byte();
            }
            let right = bytes.len();
            bytes.resize(input.length(right, 512), 0);
            bytes
        }
    };
    let wanted = if settings_len == SETTINGS {
        read_store(&bytes, flash_len as usize)
    } else {
        Err(1)
    };
    let settings = desk.settings.fill(settings_len, 0x5A);
    let got = calls::uf2_store_read(desk.small.copy(&bytes), flash_len, settings);
    assert_eq!(got, wanted.err().unwrap_or(0), "answer");
    let left = wanted.map_or(vec![0x5A; settings_len], |s| bytes_of_stored(&s).to_vec());
    desk.settings.holds(&left, "settings");
    desk.small.holds(&bytes, "store");
}

pub fn store_write(desk: &mut Desk, input: &mut Input) {
    let bytes = board::settings(input);
    let flash_len = input.flash_len();
    let store_len = input.length(354, 708);
    let store_len = if input.byte() >= 128 {
        usize::from(input.byte())
    } else {
        store_len
    };
    let mut wanted = vec![0x5A; store_len];
    let written = write_store(&stored_of(&bytes), flash_len as usize, &mut wanted);
    let store = desk.small.fill(store_len, 0x5A);
    let got = calls::uf2_store_write(desk.settings.copy(&bytes), flash_len, store);
    assert_eq!(got, written.err().unwrap_or(0), "answer");
    desk.small.holds(&wanted, "store");
}

// ---- tags

const TAG: usize = 16;

/// A block with tags: laid from the payload's end on, then bytes of any value.
fn tagged(input: &mut Input) -> Vec<u8> {
    if input.byte() == 0 {
        return input.some(600).to_vec();
    }
    let mut block = arrivals::block(input, &[]).to_vec();
    block[9] |= 0x80;
    let size = input.word_of(&[256, 0, 452, 472, 476, 448, 4, 480, 477]);
    board::put(&mut block, 16, size);
    let mut at = 32 + size.min(4096) as usize;
    while at + 4 <= 508 && !input.is_empty() {
        let (length, kind) = (input.byte(), input.word_of(&[0x9f_c7bc, 0x65_0d9d, 0, 1]));
        let head = u32::from(length) | kind << 8;
        board::put(&mut block, at, head);
        at += usize::from(length).next_multiple_of(4).max(4);
        if input.byte() >= 192 {
            break;
        }
    }
    let right = block.len();
    block.resize(input.length(right, 600), 0);
    block
}

pub fn tag_first(desk: &mut Desk, input: &mut Input) {
    let block = tagged(input);
    let got = calls::uf2_tag_first(desk.sent.copy(&block));
    // the header says 32 of under 20 bytes; the reference, 0
    let wanted = if block.len() < 20 {
        32
    } else {
        first_place(&block) as u64
    };
    assert_eq!(got, wanted, "place");
    desk.sent.holds(&block, "block");
}

/// A tag's answer and bytes.
fn tag_of(found: Tag) -> (u32, Option<[u8; TAG]>) {
    match found {
        Tag::End => (60, None),
        Tag::Refused(answer) => (answer, None),
        Tag::Tag {
            kind,
            start,
            len,
            next,
        } => {
            let words = [kind, start as u32, len as u32, next as u32].map(u32::to_le_bytes);
            let mut bytes = [0; TAG];
            bytes.copy_from_slice(words.as_flattened());
            (0, Some(bytes))
        }
    }
}

pub fn tag(desk: &mut Desk, input: &mut Input) {
    let tag_len = input.length(TAG, 64);
    let jump = input.byte();
    let any = input.word64();
    let block = tagged(input);
    let mut place = first_place(&block) as u64;
    if jump >= 192 {
        place = if jump >= 240 {
            any
        } else {
            place.wrapping_add_signed((jump as i8).into())
        };
    }
    // to the end: each tag's next place
    for _ in 0..120 {
        let (answer, bytes) = if tag_len == TAG {
            tag_of(tag_at(&block, usize::try_from(place).unwrap_or(usize::MAX)))
        } else {
            (1, None)
        };
        let tag = desk.small.fill(tag_len, 0x5A);
        let got = calls::uf2_tag(desk.sent.copy(&block), place, tag);
        assert_eq!(got, answer, "answer at {place}");
        let Some(bytes) = bytes else {
            desk.small.holds(&vec![0x5A; tag_len], "tag");
            return;
        };
        desk.small.holds(&bytes, "tag");
        place = board::word_at(&bytes, 12).into();
    }
    panic!("more than 119 tags");
}

pub fn tag_find(desk: &mut Desk, input: &mut Input) {
    let tag_len = input.length(TAG, 64);
    let kind = input.word_of(&[0x9f_c7bc, 0x65_0d9d, 0, 1, 0xFF_FFFF, 0x0100_0000]);
    let block = tagged(input);
    let mut place = first_place(&block);
    let (answer, bytes) = loop {
        let found = if tag_len == TAG {
            tag_at(&block, place)
        } else {
            Tag::Refused(1)
        };
        match found {
            Tag::Tag {
                kind: other, next, ..
            } if other != kind => place = next,
            found => break tag_of(found),
        }
    };
    let tag = desk.small.fill(tag_len, 0x5A);
    let got = calls::uf2_tag_find(desk.sent.copy(&block), kind, tag);
    assert_eq!(got, answer, "answer");
    let wanted = bytes.map_or(vec![0x5A; tag_len], |bytes| bytes.to_vec());
    desk.small.holds(&wanted, "tag");
}
