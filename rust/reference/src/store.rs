//! Settings as a packed store (02, L5): fields most significant bit first, a
//! head of 2 bytes and 22 bytes for each used entry.

use crate::{
    flash_len_good, settings_good, Arch, Entry, Link, Settings, BAD_BUFFERS, BAD_SETTINGS,
    MAX_ENTRIES, MAX_USERS,
};

/// The version is neither 1 nor 2.
pub const BAD_VERSION: u32 = 40;
/// The store, or the buffer for it, has a wrong length.
pub const BAD_STORE_LENGTH: u32 = 41;
/// A field has a value that no encoding has.
pub const BAD_STORE: u32 = 42;

pub const HEAD_LEN: usize = 2;
pub const ENTRY_LEN: usize = 22;

const WRONG_LENGTH: u32 = BAD_BUFFERS as u32;
const WRONG_SETTINGS: u32 = BAD_SETTINGS as u32;

/// A partition with the field that only the store knows.
#[derive(Clone, Copy, PartialEq, Eq, Debug)]
pub struct StoredEntry {
    pub entry: Entry,
    pub no_restart: bool,
}

/// The settings with such entries. Of `table` only the first `count` are used.
#[derive(Clone, Copy, PartialEq, Eq, Debug)]
pub struct StoredSettings {
    pub arm: bool,
    pub riscv: bool,
    pub current: Arch,
    pub auto_switch: bool,
    pub absolute: bool,
    pub count: u8,
    pub table: [StoredEntry; 16],
}

impl StoredEntry {
    pub const EMPTY: StoredEntry = StoredEntry {
        entry: Entry::EMPTY,
        no_restart: false,
    };
}

impl StoredSettings {
    /// The settings that the receiver works with: the new field changes none
    /// of its answers.
    pub fn settings(&self) -> Settings {
        Settings {
            arm: self.arm,
            riscv: self.riscv,
            current: self.current,
            auto_switch: self.auto_switch,
            absolute: self.absolute,
            count: self.count,
            table: self.table.map(|stored| stored.entry),
        }
    }

    /// Cut at the table's end, as bad settings may claim more.
    fn used(&self) -> &[StoredEntry] {
        &self.table[..MAX_ENTRIES.min(self.count.into())]
    }
}

/// Writes the store and gives its length. A refusal writes nothing, and what
/// lies past the store stays.
pub fn write_store(s: &StoredSettings, flash_len: usize, out: &mut [u8]) -> Result<usize, u32> {
    if !flash_len_good(flash_len) {
        return Err(WRONG_LENGTH);
    }
    if !settings_good(&s.settings(), flash_len) {
        return Err(WRONG_SETTINGS);
    }
    let used = s.used();
    let len = HEAD_LEN + ENTRY_LEN * used.len();
    let out = out.get_mut(..len).ok_or(BAD_STORE_LENGTH)?;
    let version = version_for(used);
    let (head, entries) = out.split_at_mut(HEAD_LEN);
    let mut bits = BitWriter::over(head);
    bits.put(4, version);
    bits.put(5, s.count.into());
    bits.flag(s.auto_switch);
    bits.flag(s.absolute);
    bits.flag(s.arm);
    bits.flag(s.riscv);
    bits.flag(s.current == Arch::RiscV);
    bits.put(2, 0);
    for (stored, bytes) in used.iter().zip(entries.chunks_exact_mut(ENTRY_LEN)) {
        write_entry(stored, &mut BitWriter::over(bytes));
    }
    Ok(len)
}

/// "Version 2 is used exactly if some used entry has it."
fn version_for(used: &[StoredEntry]) -> u32 {
    if used.iter().any(|stored| stored.no_restart) {
        2
    } else {
        1
    }
}

fn write_entry(stored: &StoredEntry, bits: &mut BitWriter) {
    let entry = &stored.entry;
    let (kind, index) = match entry.link {
        Link::None => (0, 0),
        Link::OwnedBy(k) => (1, k),
        Link::BOf(k) => (2, k),
    };
    bits.put(13, entry.first);
    bits.put(14, entry.sectors);
    bits.put(2, kind);
    bits.put(4, index.into());
    bits.flag(entry.data);
    bits.flag(entry.arm_s);
    bits.flag(entry.riscv);
    bits.flag(entry.arm_ns);
    bits.flag(entry.not_bootable_arm);
    bits.flag(entry.not_bootable_riscv);
    bits.put(3, entry.user_count.into());
    for (slot, &family) in entry.users.iter().enumerate() {
        let used = slot < usize::from(entry.user_count);
        bits.put(32, if used { family } else { 0 });
    }
    // In a store of version 1 no entry has it, so that the bit is one of the
    // six zeros.
    bits.flag(stored.no_restart);
    bits.put(5, 0);
}

/// The settings that the whole of `bytes` stores.
pub fn read_store(bytes: &[u8], flash_len: usize) -> Result<StoredSettings, u32> {
    if !flash_len_good(flash_len) {
        return Err(WRONG_LENGTH);
    }
    let (head, entries) = bytes.split_at_checked(HEAD_LEN).ok_or(BAD_STORE_LENGTH)?;
    let mut bits = BitReader::over(head);
    let version = bits.take(4);
    if !matches!(version, 1 | 2) {
        return Err(BAD_VERSION);
    }
    let count = bits.take(5) as u8;
    if usize::from(count) > MAX_ENTRIES {
        return Err(BAD_STORE);
    }
    if entries.len() != ENTRY_LEN * usize::from(count) {
        return Err(BAD_STORE_LENGTH);
    }
    let mut s = StoredSettings {
        auto_switch: bits.flag(),
        absolute: bits.flag(),
        arm: bits.flag(),
        riscv: bits.flag(),
        current: if bits.flag() { Arch::RiscV } else { Arch::Arm },
        count,
        table: [StoredEntry::EMPTY; MAX_ENTRIES],
    };
    let stray = bits.take(2);
    for (stored, bytes) in s.table.iter_mut().zip(entries.chunks_exact(ENTRY_LEN)) {
        *stored = read_entry(&mut BitReader::over(bytes)).ok_or(BAD_STORE)?;
    }
    // This finds the new field's bit in version 1 too, where it is a stray one.
    if stray != 0 || version != version_for(s.used()) {
        return Err(BAD_STORE);
    }
    if !settings_good(&s.settings(), flash_len) {
        return Err(WRONG_SETTINGS);
    }
    Ok(s)
}

/// The entry as version 2 has it, unless a field has a value or a bit that is
/// not allowed.
fn read_entry(bits: &mut BitReader) -> Option<StoredEntry> {
    let first = bits.take(13);
    let sectors = bits.take(14);
    let (kind, index) = (bits.take(2), bits.take(4) as u8);
    let link = match (kind, index) {
        (0, 0) => Link::None,
        (1, k) => Link::OwnedBy(k),
        (2, k) => Link::BOf(k),
        // An index without a link, or kind 3.
        _ => return None,
    };
    let entry = Entry {
        first,
        sectors,
        link,
        data: bits.flag(),
        arm_s: bits.flag(),
        riscv: bits.flag(),
        arm_ns: bits.flag(),
        not_bootable_arm: bits.flag(),
        not_bootable_riscv: bits.flag(),
        user_count: bits.take(3) as u8,
        users: [0; MAX_USERS].map(|_| bits.take(32)),
    };
    let no_restart = bits.flag();
    let stray = bits.take(5);
    let unused = entry.users.get(entry.user_count.into()..)?;
    let clean = stray == 0 && unused.iter().all(|&family| family == 0);
    clean.then_some(StoredEntry { entry, no_restart })
}

/// Bits of the bytes from the first one's top on, each put once.
struct BitWriter<'a> {
    bytes: &'a mut [u8],
    at: usize,
}

impl BitWriter<'_> {
    fn over(bytes: &mut [u8]) -> BitWriter<'_> {
        bytes.fill(0);
        BitWriter { bytes, at: 0 }
    }

    fn flag(&mut self, yes: bool) {
        self.bytes[self.at / 8] |= u8::from(yes) << (7 - self.at % 8);
        self.at += 1;
    }

    fn put(&mut self, width: u32, value: u32) {
        for place in (0..width).rev() {
            self.flag(value >> place & 1 == 1);
        }
    }
}

/// The same bits, taken one after the other.
struct BitReader<'a> {
    bytes: &'a [u8],
    at: usize,
}

impl BitReader<'_> {
    fn over(bytes: &[u8]) -> BitReader<'_> {
        BitReader { bytes, at: 0 }
    }

    fn flag(&mut self) -> bool {
        let bit = self.bytes[self.at / 8] >> (7 - self.at % 8) & 1;
        self.at += 1;
        bit == 1
    }

    fn take(&mut self, width: u32) -> u32 {
        (0..width).fold(0, |value, _| value << 1 | u32::from(self.flag()))
    }
}

#[cfg(test)]
mod tests {
    use super::*;

    const FLASH: usize = 65_536;
    const LARGEST: usize = 33_554_432;
    const USER: u32 = 0x1234_5678;

    const NO_TABLE: StoredSettings = StoredSettings {
        arm: true,
        riscv: false,
        current: Arch::Arm,
        auto_switch: false,
        absolute: true,
        count: 0,
        table: [StoredEntry::EMPTY; 16],
    };

    fn entry(first: u32, sectors: u32) -> StoredEntry {
        let entry = Entry {
            first,
            sectors,
            ..Entry::EMPTY
        };
        StoredEntry {
            entry,
            no_restart: false,
        }
    }

    fn with_table(entries: &[StoredEntry]) -> StoredSettings {
        let mut s = NO_TABLE;
        s.count = entries.len() as u8;
        s.table[..entries.len()].copy_from_slice(entries);
        s
    }

    /// The store of good settings; what lies past it has to stay.
    fn written(s: &StoredSettings, flash_len: usize) -> Vec<u8> {
        let mut out = vec![0xA7; 400];
        let len = write_store(s, flash_len, &mut out).unwrap();
        assert_eq!(len, 2 + 22 * usize::from(s.count));
        assert!(out[len..].iter().all(|&byte| byte == 0xA7));
        out.truncate(len);
        out
    }

    /// The bits as text, so that a field stands where the paper says.
    fn text(bytes: &[u8]) -> String {
        bytes.iter().map(|byte| format!("{byte:08b}")).collect()
    }

    fn from_text(text: &str) -> Vec<u8> {
        let byte = |at| u8::from_str_radix(&text[at..at + 8], 2).unwrap();
        (0..text.len()).step_by(8).map(byte).collect()
    }

    #[test]
    fn heads() {
        let mut s = NO_TABLE;
        assert_eq!(text(&written(&s, FLASH)), "0001000000110000");
        assert_eq!(written(&s, FLASH), [0x10, 0x30]);
        (s.auto_switch, s.absolute) = (true, false);
        assert_eq!(text(&written(&s, FLASH)), "0001000001010000");
        (s.auto_switch, s.riscv) = (false, true);
        assert_eq!(text(&written(&s, FLASH)), "0001000000011000");
        s.current = Arch::RiscV;
        assert_eq!(text(&written(&s, FLASH)), "0001000000011100");
        s.arm = false;
        assert_eq!(text(&written(&s, FLASH)), "0001000000001100");
    }

    #[test]
    fn an_entry_bit_for_bit() {
        let mut second = entry(5, 3);
        second.entry = Entry {
            link: Link::BOf(0),
            arm_s: true,
            arm_ns: true,
            not_bootable_riscv: true,
            user_count: 2,
            // Of the four only two are used, and only these are stored.
            users: [USER, 0xFFFF_FFFE, 9, crate::ARM_S],
            ..second.entry
        };
        let s = with_table(&[entry(0, 1), second]);
        let store = written(&s, FLASH);
        let bits = text(&store[24..]);
        let families = format!("{USER:032b}{:032b}{:064b}", 0xFFFF_FFFEu32, 0);
        let expected = format!(
            "0000000000101{:014b}100000{}{}010{families}000000",
            3, "0101", "01"
        );
        assert_eq!(bits, expected);
        assert_eq!(text(&store[..2]), "0001000100110000");
        let mut read = s;
        read.table[1].entry.users = [USER, 0xFFFF_FFFE, 0, 0];
        assert_eq!(read_store(&store, FLASH), Ok(read));
    }

    #[test]
    fn the_largest_fields() {
        let mut s = with_table(&[entry(0, 8192)]);
        assert_eq!(read_store(&written(&s, LARGEST), LARGEST), Ok(s));
        s = with_table(&[entry(8191, 1)]);
        assert_eq!(read_store(&written(&s, LARGEST), LARGEST), Ok(s));
        let mut list = [0; 16].map(|_| entry(0, 1));
        for (i, stored) in list.iter_mut().enumerate() {
            stored.entry.first = i as u32;
            stored.entry.users = [USER; 4];
            stored.entry.user_count = 4;
        }
        list[15].entry.link = Link::OwnedBy(14);
        s = with_table(&list);
        let store = written(&s, FLASH);
        assert_eq!(store.len(), 354);
        assert_eq!(read_store(&store, FLASH), Ok(s));
        list[15].entry.link = Link::BOf(14);
        s = with_table(&list);
        assert_eq!(read_store(&written(&s, FLASH), FLASH), Ok(s));
    }

    #[test]
    fn version_2_exactly_if_a_used_entry_has_the_field() {
        let mut s = with_table(&[entry(0, 1), entry(1, 1)]);
        assert_eq!(written(&s, FLASH)[0] >> 4, 1);
        s.table[1].no_restart = true;
        let store = written(&s, FLASH);
        assert_eq!(store[0] >> 4, 2);
        assert_eq!((store[23], store[45]), (0, 0b10_0000));
        assert_eq!(read_store(&store, FLASH), Ok(s));
        // An entry that isn't used doesn't count, and isn't stored.
        s.count = 1;
        let store = written(&s, FLASH);
        assert_eq!(store[0] >> 4, 1);
        assert_eq!(read_store(&store, FLASH), Ok(with_table(&[entry(0, 1)])));
        s.count = 0;
        assert_eq!(written(&s, FLASH), [0x10, 0x30]);
    }

    #[test]
    fn refusals_of_writing_in_order() {
        let mut s = with_table(&[entry(0, 1)]);
        let mut bad = s;
        bad.arm = false;
        for (s, flash_len, room, refusal) in [
            (&bad, 0, 0, 1),
            (&bad, 4097, 0, 1),
            (&bad, LARGEST + 4096, 100, 1),
            (&bad, 4096, 0, 2),
            (&bad, 4096, 100, 2),
            (&s, 4096, 0, 41),
            (&s, 4096, 23, 41),
        ] {
            let mut out = vec![0xA7; room];
            assert_eq!(write_store(s, flash_len, &mut out), Err(refusal));
            assert!(out.iter().all(|&byte| byte == 0xA7));
        }
        assert_eq!(write_store(&s, 4096, &mut [0; 24]), Ok(24));
        for count in 17..=255 {
            s.count = count;
            assert_eq!(write_store(&s, FLASH, &mut [0; 9000]), Err(2));
        }
    }

    #[test]
    fn refusals_of_reading_in_order() {
        for flash_len in [0, 4095, 4097, LARGEST + 4096] {
            assert_eq!(read_store(&[], flash_len), Err(1));
        }
        assert_eq!(read_store(&[], FLASH), Err(41));
        assert_eq!(read_store(&[0xFF], FLASH), Err(41));
        for version in (0..16).filter(|version| ![1, 2].contains(version)) {
            assert_eq!(read_store(&[version << 4 | 0xF, 0xFF], FLASH), Err(40));
        }
        for version in [1, 2] {
            for count in 17..=31u16 {
                let head = version << 12 | count << 7 | 0x7F;
                let mut bytes = vec![0xFF; 2 + 22 * usize::from(count)];
                bytes[..2].copy_from_slice(&head.to_be_bytes());
                assert_eq!(read_store(&bytes, FLASH), Err(42));
                assert_eq!(read_store(&bytes[..2], FLASH), Err(42));
            }
            for count in 0..=16u16 {
                let head = version << 12 | count << 7 | 0x7F;
                let len = 2 + 22 * usize::from(count);
                let mut bytes = vec![0xFF; len + 1];
                bytes[..2].copy_from_slice(&head.to_be_bytes());
                assert_eq!(read_store(&bytes, FLASH), Err(41));
                assert_eq!(read_store(&bytes[..len], FLASH), Err(42));
                if count > 0 {
                    assert_eq!(read_store(&bytes[..len - 1], FLASH), Err(41));
                    assert_eq!(read_store(&bytes[..2], FLASH), Err(41));
                }
            }
        }
    }

    #[test]
    fn stray_bits() {
        let good = written(&with_table(&[entry(0, 1)]), FLASH);
        for bit in 0..8 * good.len() {
            let mut bytes = good.clone();
            bytes[bit / 8] ^= 0x80 >> (bit % 8);
            let expected = match bit {
                // Version 1 becomes 9, 5, 3 and 0.
                0..4 => Err(40),
                4 => Err(42),
                5..9 => Err(41),
                // Auto switch, absolute, RISC-V.
                9 | 10 | 12 => Ok(()),
                // Arm off, or RISC-V current.
                11 | 13 => Err(2),
                14 | 15 => Err(42),
                // The first sector; 1, 2, 4 and 8 are in the flash.
                16..25 => Err(2),
                25..29 => Ok(()),
                // The sectors; 1 becomes 17 and more, 9, 5, 3 or 0.
                29..39 => Err(2),
                39..42 => Ok(()),
                42 => Err(2),
                // Links of the first entry: B of 0, owned by 0.
                43 | 44 => Err(2),
                // An index without a link.
                45..49 => Err(42),
                49..55 => Ok(()),
                // 4, 2 or 1 user families 0.
                55..58 => Ok(()),
                _ => Err(42),
            };
            let read = read_store(&bytes, FLASH);
            assert_eq!(read.map(|_| ()), expected, "{bit}");
            if let Ok(s) = read {
                assert_eq!(written(&s, FLASH), bytes);
            }
        }
    }

    #[test]
    fn kinds_counts_and_versions() {
        let head = |version: u32| format!("{version:04b}00001{}", "0010000");
        let body = |kind: u32, index: u32, users: u32, slots: [u32; 4], tail: &str| {
            let slots: String = slots.iter().map(|slot| format!("{slot:032b}")).collect();
            let span = format!("{:013b}{:014b}", 0, 1);
            format!("{span}{kind:02b}{index:04b}000000{users:03b}{slots}{tail}")
        };
        let clean = "000000";
        for (version, body, answer) in [
            (1, body(0, 0, 0, [0; 4], clean), None),
            (2, body(0, 0, 0, [0; 4], clean), Some(42)),
            (1, body(0, 0, 0, [0; 4], "100000"), Some(42)),
            (2, body(0, 0, 0, [0; 4], "100000"), None),
            (2, body(0, 0, 0, [0; 4], "110000"), Some(42)),
            (2, body(0, 0, 0, [0; 4], "100001"), Some(42)),
            (1, body(0, 0, 4, [USER; 4], clean), None),
            (1, body(0, 0, 3, [USER; 4], clean), Some(42)),
            (1, body(0, 0, 5, [USER; 4], clean), Some(42)),
            (1, body(0, 0, 5, [0; 4], clean), Some(42)),
            (1, body(0, 0, 7, [0; 4], clean), Some(42)),
            (1, body(0, 0, 0, [0, 0, 0, 1], clean), Some(42)),
            (1, body(0, 0, 1, [crate::ARM_S, 0, 0, 0], clean), Some(2)),
            (1, body(0, 1, 0, [0; 4], clean), Some(42)),
            (1, body(1, 0, 0, [0; 4], clean), Some(2)),
            (1, body(2, 5, 0, [0; 4], clean), Some(2)),
            (1, body(3, 0, 0, [0; 4], clean), Some(42)),
            (1, body(3, 1, 0, [0; 4], clean), Some(42)),
        ] {
            let bytes = from_text(&(head(version) + &body));
            assert_eq!(bytes.len(), 24);
            assert_eq!(read_store(&bytes, FLASH).err(), answer, "{body}");
        }
        // A table of none can't have the field.
        assert_eq!(read_store(&[0x20, 0x30], FLASH), Err(42));
        assert_eq!(read_store(&[0x10, 0x30], FLASH), Ok(NO_TABLE));
    }

    /// 42 of a late entry goes before 2 of an early one.
    #[test]
    fn stray_bits_go_before_bad_settings() {
        let mut bytes = written(&with_table(&[entry(0, 1), entry(1, 1)]), FLASH);
        // The last bit of the first entry's sectors, which then has none.
        bytes[5] ^= 0x20;
        assert_eq!(read_store(&bytes, FLASH), Err(2));
        bytes[45] |= 1;
        assert_eq!(read_store(&bytes, FLASH), Err(42));
    }

    fn any(state: &mut u64) -> u64 {
        *state ^= *state << 13;
        *state ^= *state >> 7;
        *state ^= *state << 17;
        *state >> 11
    }

    /// Bytes near a store, and back: what is read is written as it was.
    #[test]
    fn one_encoding() {
        let mut state = 99;
        let mut read = 0;
        for _ in 0..20_000 {
            let mut list = vec![];
            for i in 0..any(&mut state) as u32 % 5 {
                let mut stored = entry(4 * i, 1 + any(&mut state) as u32 % 5);
                stored.no_restart = any(&mut state).is_multiple_of(4);
                let user_count = any(&mut state) as u8 % 5;
                stored.entry.user_count = user_count;
                stored.entry.users = [0; 4].map(|_| any(&mut state) as u32);
                stored.entry.users[usize::from(user_count)..].fill(0);
                stored.entry.link = match any(&mut state) % 4 {
                    0 => Link::OwnedBy(any(&mut state) as u8 % 3),
                    1 => Link::BOf(any(&mut state) as u8 % 3),
                    _ => Link::None,
                };
                let bits = any(&mut state);
                stored.entry.data = bits & 1 == 1;
                stored.entry.riscv = bits & 2 == 2;
                stored.entry.not_bootable_arm = bits & 4 == 4;
                list.push(stored);
            }
            let s = with_table(&list);
            let mut out = [0xA7; 200];
            match write_store(&s, FLASH, &mut out) {
                Ok(len) => {
                    assert_eq!(read_store(&out[..len], FLASH), Ok(s));
                    let bit = any(&mut state) as usize % (8 * len);
                    out[bit / 8] ^= 0x80 >> (bit % 8);
                    if let Ok(other) = read_store(&out[..len], FLASH) {
                        assert_ne!(other, s);
                        assert_eq!(written(&other, FLASH), out[..len]);
                        read += 1;
                    }
                }
                Err(refusal) => assert_eq!(refusal, 2),
            }
        }
        assert!(read > 1000);
    }
}
