//! The proved reader of extension tags beside the reference, at handed places and from tag to tag. COMPARE_ARRIVALS sets how many blocks
//! are made.

use compare::fence::{Fenced, Side};
use compare::tags::{any_block, block};
use compare::Random;
use proved::tags::{bytes, find, kind, tag_at, Refusal, Tag, Tags};
use reference::tags::{self as plain, Found};

/// 000's example: version 0.1.2 for the ACME Toaster mk3.
const ACME: [u8; 36] = *b"\x09\xbc\xc7\x9f0.1.2\0\0\0\x14\x9d\x9d\x65ACME Toaster mk3\0\0\0\0";

fn number() -> usize {
    let asked = std::env::var("COMPARE_ARRIVALS").ok();
    asked.and_then(|n| n.parse().ok()).unwrap_or(1_000_000)
}

fn proved_found(found: Result<Option<Tag>, Refusal>) -> Found {
    match found {
        Ok(Some(tag)) => Found::Tag {
            kind: tag.kind,
            start: tag.start,
            len: tag.contents.len(),
            next: tag.next,
        },
        Ok(None) => Found::End,
        Err(refusal) => Found::Refused(refusal.number().into()),
    }
}

fn same(block: &[u8], at: usize) -> Found {
    let expected = plain::tag_at(block, at);
    let found = tag_at(block, at);
    if let Ok(Some(tag)) = found {
        assert_eq!(tag.contents, &block[tag.start..][..tag.contents.len()]);
    }
    assert_eq!(proved_found(found), expected, "{block:?} at {at}");
    expected
}

/// From the first place on, and some calls more than that; and the search for each type that came, and one that did not.
fn same_from_the_start(block: &[u8]) {
    let mut at = plain::first_place(block);
    // a shorter block has no such field, and is refused wherever its reader stands
    if block.len() >= 20 {
        assert_eq!(bytes::first_place(block), at);
    }
    let mut reader = Tags::new(block);
    let mut kinds = vec![0x12_3456];
    let mut all = vec![];
    let mut left = 2;
    while left > 0 {
        let expected = plain::tag_at(block, at);
        assert_eq!(proved_found(reader.next_tag()), expected, "{block:?}");
        match expected {
            Found::Tag { kind, next, .. } => {
                at = next;
                kinds.push(kind);
                all.push(expected);
            }
            _ => left -= 1,
        }
    }
    let last = plain::tag_at(block, at);
    for &kind in &kinds {
        let of_kind = |f: &&Found| matches!(f, Found::Tag { kind: k, .. } if *k == kind);
        let expected = all.iter().find(of_kind).copied().unwrap_or(last);
        assert_eq!(proved_found(find(block, kind)), expected, "{block:?}");
    }
    // the iterator: each tag, a refusal once, and nothing after
    let mut tags = Tags::new(block);
    for expected in all {
        assert_eq!(proved_found(tags.next().unwrap().map(Some)), expected);
    }
    if let Found::Refused(n) = last {
        assert_eq!(u32::from(tags.next().unwrap().unwrap_err().number()), n);
    }
    assert_eq!((tags.next(), tags.next()), (None, None));
}

#[test]
fn acme_is_0_1_2() {
    let mut bytes = block(0xA000, 256, || 0);
    bytes[288..][..ACME.len()].copy_from_slice(&ACME);
    let tags: Vec<_> = Tags::new(&bytes).map(Result::unwrap).collect();
    let told: Vec<_> = tags.iter().map(|t| (t.kind, t.contents)).collect();
    assert_eq!(
        told,
        [
            (kind::VERSION, &b"0.1.2"[..]),
            (0x65_9d9d, b"ACME Toaster mk3")
        ]
    );
    assert_eq!(
        find(&bytes, kind::VERSION).unwrap().unwrap().contents,
        b"0.1.2"
    );
    // its type stands as printed, which is not the type that 000 lists
    assert_eq!(find(&bytes, kind::DEVICE), Ok(None));
}

#[test]
fn payload_sizes_and_flags() {
    let sizes = [0, 252, 448, 452, 472, 476, 477, 480, u32::MAX - 3];
    for size in sizes {
        for flags in 0..16 {
            // 0x4000 and 0x8000 all ways, with and without 0x1000 and 0x2000
            let flags = flags << 12;
            for fill in [0, 1, 4, 12, 255] {
                let bytes = block(flags, size, || fill);
                same_from_the_start(&bytes);
                for at in [
                    0,
                    31,
                    32,
                    285,
                    287,
                    288,
                    508,
                    512,
                    usize::MAX - 3,
                    usize::MAX,
                ] {
                    same(&bytes, at);
                }
            }
        }
    }
}

#[test]
fn sizes_at_places() {
    for flags in [0x8000, 0xC000] {
        for at in 284..=508 {
            for size in 0..=255 {
                for typed in [0, 7] {
                    let mut bytes = block(flags, 252, || 0x55);
                    let end = (at + 4).min(508);
                    let head = [size, 0, typed, 0];
                    bytes[at..end].copy_from_slice(&head[..end - at]);
                    same(&bytes, at);
                }
            }
        }
    }
}

#[test]
fn any_blocks_and_places() {
    let mut r = Random(0x7A65);
    let mut seen = [0usize; 66];
    for _ in 0..number() {
        let bytes = any_block(&mut r);
        same_from_the_start(&bytes);
        for _ in 0..4 {
            let any = r.draw() as usize;
            let at = 4 * r.below(130) as usize;
            let at = r.of(&[at, at, at, at + 1, at + 2, any, !3 - any % 64]);
            match same(&bytes, at) {
                Found::Tag { .. } => seen[0] += 1,
                Found::End => seen[60] += 1,
                Found::Refused(n) => seen[n as usize] += 1,
            }
        }
    }
    for n in [0, 1, 3, 4, 60, 61, 62, 63, 64, 65] {
        assert!(seen[n] > 0, "answer {n} never came");
    }
}

/// Block and tag lie against pages that may not be touched, and a tag is written by answer 0 alone.
#[test]
fn beside_fences() {
    let mut r = Random(0xFE4C);
    for _ in 0..number() / 50 {
        let plain = any_block(&mut r);
        let side = r.of(&[Side::Start, Side::End]);
        let fenced = Fenced::new(&plain, side, true);
        let len = r.of(&[16, 16, 16, 0, 15, 17]);
        let lent = vec![r.draw() as u8; len];
        let mut out = Fenced::new(&lent, r.of(&[Side::Start, Side::End]), false);
        let mut expected = lent.clone();
        let at = 4 * r.below(130) as usize;
        let wanted = r.of(&[kind::VERSION, 1, 0]);
        let (told, result) = if r.one_in(2) {
            let told = bytes::tag_at(&plain, at, &mut expected);
            (told, bytes::tag_at(fenced.bytes(), at, out.bytes_mut()))
        } else {
            let told = bytes::find(&plain, wanted, &mut expected);
            (told, bytes::find(fenced.bytes(), wanted, out.bytes_mut()))
        };
        assert_eq!(result, told);
        let first = bytes::first_place(&plain);
        assert_eq!(bytes::first_place(fenced.bytes()), first);
        assert_eq!(out.bytes(), expected);
        assert!(out.rest_is_kept() && fenced.rest_is_kept());
        assert!(result == 0 || expected == lent);
        assert!(len == 16 || result == 1);
    }
}
