//! A tag of a block: the 29 tags of one block and their end, call after call, `uf2_tag` beside the plain Rust reader.

use compare::tags::block;
use proved::tags::bytes;
use reference::tags::Found;

use crate::{pair, timed, Work};

const TAGS: usize = 29;
const BLOCKS: usize = 1000;

/// 25 tags of 5 to 8 bytes, 4 of four, and the end: they fill the room after a payload of 256 bytes.
fn tags() -> [u8; 512] {
    let mut bytes = block(0xA000, 256, || 0);
    let mut at = 288;
    for k in 0..TAGS {
        let size = if k < 25 { 5 + k % 4 } else { 4 };
        bytes[at..at + 4].copy_from_slice(&[size as u8, k as u8, 2, 3]);
        at += size.next_multiple_of(4);
    }
    bytes
}

/// Call after call from the first place on: the sum of what they tell, with the end's place.
fn ours(block: &[u8]) -> u64 {
    let mut tag = [0; bytes::TAG_BYTES];
    let field = |tag: &[u8; bytes::TAG_BYTES], at: usize| {
        u64::from(u32::from_le_bytes([
            tag[at],
            tag[at + 1],
            tag[at + 2],
            tag[at + 3],
        ]))
    };
    let mut place = bytes::first_place(block);
    let mut sum = 0;
    while bytes::tag_at(block, place, &mut tag) == 0 {
        sum += field(&tag, 0) + field(&tag, 4) + field(&tag, 8);
        place = field(&tag, 12) as usize;
    }
    sum + place as u64
}

fn theirs(block: &[u8]) -> u64 {
    let mut place = reference::tags::first_place(block);
    let mut sum = 0;
    while let Found::Tag {
        kind,
        start,
        len,
        next,
    } = reference::tags::tag_at(block, place)
    {
        sum += u64::from(kind) + start as u64 + len as u64;
        place = next;
    }
    sum + place as u64
}

pub fn row() {
    let block = tags();
    assert_eq!(ours(&block), theirs(&block), "the two tell the same");
    let blocks = vec![block; BLOCKS];
    let work = Work {
        rounds: crate::CALLS,
        calls: BLOCKS * (TAGS + 1),
        bytes: None,
    };
    pair(
        &format!("a tag of {TAGS} in a block"),
        work,
        || timed(|| blocks.iter().map(|b| ours(b)).sum()),
        || timed(|| blocks.iter().map(|b| theirs(b)).sum()),
    );
}
