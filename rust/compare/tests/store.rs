//! The proved store of settings beside the reference: settings both ways, every single bit of stores flipped, every length.

use compare::store::{any_stored, proved_stored, vectors};
use compare::Random;
use proved::store::{self, Refusal};
use reference::store::{read_store, write_store, StoredSettings};

/// The longest store, and some room after it.
const ROOM: usize = 360;

fn refusal(x: Refusal) -> u32 {
    x.number().into()
}

/// Both read the same of bytes: their answer, or the settings; and what is read is written as it was.
fn same_read(bytes: &[u8], flash_len: usize) -> Result<StoredSettings, u32> {
    let wanted = read_store(bytes, flash_len);
    let got = store::read(bytes, flash_len);
    let same = wanted.map(|s| proved_stored(&s));
    assert_eq!(got.clone().map_err(refusal), same, "{bytes:x?}");
    if let Ok(s) = got {
        let mut again = [0; ROOM];
        assert_eq!(store::write(&s, flash_len, &mut again), Ok(bytes.len()));
        assert_eq!(again[..bytes.len()], *bytes);
    }
    wanted
}

/// Both write the same of settings, to as many bytes as are lent: the answer, and every byte.
fn same_written(s: &StoredSettings, flash_len: usize, room: usize) -> Result<Vec<u8>, u32> {
    let (mut ours, mut theirs) = (vec![0xA7; room], vec![0xA7; room]);
    let wanted = write_store(s, flash_len, &mut theirs);
    let got = store::write(&proved_stored(s), flash_len, &mut ours);
    assert_eq!(got.map_err(refusal), wanted, "{s:?}");
    assert_eq!(ours, theirs, "{s:?}");
    ours.truncate(wanted?);
    Ok(ours)
}

/// Settings whose unused entries and slots are zero.
fn neat(s: &StoredSettings) -> proved::Settings {
    let mut s = proved_stored(s);
    let count = usize::from(s.count);
    s.table[count..].fill(proved::Entry::BLANK);
    for entry in &mut s.table[..count] {
        entry.users[usize::from(entry.user_count)..].fill(0);
    }
    s
}

#[test]
fn vectors_of_the_text() {
    for (s, len, bytes) in vectors() {
        assert_eq!(same_written(&s, len, ROOM), Ok(bytes.clone()));
        assert_eq!(same_read(&bytes, len), Ok(s));
    }
}

#[test]
fn settings_both_ways() {
    let mut r = Random(5);
    let mut answers = [0u32; 43];
    for _ in 0..100_000 {
        let (s, len) = any_stored(&mut r);
        let room = r.of(&[0, 1, 2, 23, 24, 100, 353, 354, ROOM, ROOM]);
        let written = same_written(&s, len, room);
        answers[written.as_ref().err().map_or(0, |&n| n as usize)] += 1;
        if let Ok(bytes) = written {
            assert!(same_read(&bytes, len).is_ok());
            assert_eq!(store::read(&bytes, len), Ok(neat(&s)));
            assert_eq!(same_written(&s, len, bytes.len()), Ok(bytes));
        }
    }
    // every answer came, and often
    for answer in [0, 1, 2, 41] {
        assert!(answers[answer] > 5_000, "{answers:?}");
    }
}

/// Stores of several versions and counts, with the flash's length that they are for.
fn stores(r: &mut Random, n: usize) -> Vec<(Vec<u8>, usize)> {
    let mut stores: Vec<_> = vectors()
        .into_iter()
        .map(|(_, len, bytes)| (bytes, len))
        .collect();
    while stores.len() < n {
        let (s, len) = any_stored(r);
        if let Ok(bytes) = same_written(&s, len, ROOM) {
            stores.push((bytes, len));
        }
    }
    stores
}

#[test]
fn every_bit_flipped() {
    let mut r = Random(6);
    let mut answers = [0u32; 43];
    for (bytes, len) in stores(&mut r, 200) {
        for bit in 0..8 * bytes.len() {
            let mut other = bytes.clone();
            other[bit / 8] ^= 0x80 >> (bit % 8);
            let read = same_read(&other, len);
            answers[read.err().unwrap_or(0) as usize] += 1;
        }
    }
    for answer in [0, 2, 40, 41, 42] {
        assert!(answers[answer] > 200, "{answers:?}");
    }
}

#[test]
fn every_length() {
    let mut r = Random(7);
    for (bytes, len) in stores(&mut r, 60) {
        for n in 0..=ROOM {
            let mut other = bytes.clone();
            other.resize(n, 0);
            let read = same_read(&other, len);
            assert_eq!(read.is_ok(), n == bytes.len());
            // a wrong length of the flash goes before
            assert_eq!(same_read(&other, 4097), Err(1));
        }
        let s = read_store(&bytes, len).unwrap();
        for n in 0..=ROOM {
            assert_eq!(same_written(&s, len, n).is_ok(), n >= bytes.len());
        }
    }
}

/// Heads of every kind, before bytes of any content and a right length or another.
#[test]
fn every_head() {
    let mut r = Random(8);
    for head in 0..=u16::MAX {
        let count = usize::from(head >> 7 & 31);
        let mut bytes = vec![0; 2 + 22 * count];
        if r.one_in(4) {
            r.fill(&mut bytes);
        }
        bytes[..2].copy_from_slice(&head.to_be_bytes());
        let _ = same_read(&bytes, 65_536);
        let _ = same_read(&bytes[..2], 65_536);
    }
}

/// Bytes near a store: several bits of one changed.
#[test]
fn near_stores() {
    let mut r = Random(9);
    for (bytes, len) in stores(&mut r, 2_000) {
        for _ in 0..20 {
            let mut other = bytes.clone();
            for _ in 0..1 + r.below(3) {
                let bit = r.below(8 * bytes.len() as u64) as usize;
                other[bit / 8] ^= 0x80 >> (bit % 8);
            }
            let _ = same_read(&other, len);
        }
    }
}

/// The calls as they are: a refusal leaves the settings, and settings of another length are 1.
#[test]
fn settings_as_bytes() {
    let mut r = Random(10);
    let (bytes, len) = stores(&mut r, 40).pop().unwrap();
    for n in (0..600).chain([1100, 65_536]) {
        let mut settings = vec![0xA7; n];
        let number = store::bytes::read(&bytes, len, &mut settings);
        if n == proved::SETTINGS_BYTES {
            assert_eq!(number, 0);
            let mut again = vec![0xA7; ROOM];
            assert_eq!(store::bytes::write(&settings, len, &mut again), 0);
            assert_eq!(again[..bytes.len()], bytes);
            assert!(again[bytes.len()..].iter().all(|&b| b == 0xA7));
        } else {
            assert_eq!(number, 1);
            assert!(settings.iter().all(|&b| b == 0xA7));
            let mut out = [0xA7; ROOM];
            assert_eq!(store::bytes::write(&settings, len, &mut out), 2);
            assert_eq!(store::bytes::write(&settings, 1, &mut out), 1);
            assert_eq!(out, [0xA7; ROOM]);
        }
    }
    let mut settings = [0xA7; proved::SETTINGS_BYTES];
    for (store, number) in [(&[][..], 41), (&[0x30, 0x10], 40), (&[0x20, 0x10], 42)] {
        assert_eq!(store::bytes::read(store, len, &mut settings), number);
        assert_eq!(settings, [0xA7; proved::SETTINGS_BYTES]);
    }
}
