//! Regions that flash has already (flag 0x4000): each condition just met and just missed, what the flag and the flash decide, files with
//! regions of which part is there; and digests beside `md5sum`. COMPARE_ARRIVALS sets how many arrivals are compared.

use std::io::Write as _;
use std::process::{Command, Stdio};

use compare::region::{any_region, digest_there, put_region};
use compare::{
    any_arrival, any_settings, any_transfer, arm_only, arrivals_asked, join, page, proved_settings,
    proved_transfer, Buffers, Pair, Ram, Random,
};
use reference::md5::md5;
use reference::{Entry, Kind, Settings, Transfer, ARM_S};

const WINDOW: u32 = 0x1000_0000;
const SECTORS: u64 = 16;

fn field(a: &[u8], at: usize) -> u32 {
    u32::from_le_bytes([a[at], a[at + 1], a[at + 2], a[at + 3]])
}

fn put(a: &mut [u8], at: usize, x: u32) {
    a[at..at + 4].copy_from_slice(&x.to_le_bytes());
}

/// Arm-s has four sectors of flash, from sector 4 on.
fn with_place() -> Settings {
    let mut s = arm_only();
    s.count = 1;
    s.table[0] = Entry {
        first: 4,
        sectors: 4,
        arm_s: true,
        ..Entry::EMPTY
    };
    s
}

/// Settings, and start and length of arm-s's place in 16 sectors.
fn places() -> [(Settings, usize, u32); 2] {
    [(arm_only(), 0, 65_536), (with_place(), 16_384, 16_384)]
}

/// Block 1 of some, at an offset in its place.
fn block(total: u32, offset: u32) -> Vec<u8> {
    let mut a = page(ARM_S, total, 1);
    put(&mut a, 12, WINDOW + offset);
    a
}

fn running(total: u32, count: u32) -> Transfer {
    Transfer::Running {
        family: ARM_S,
        total,
        count,
        kind: Kind::Flash,
    }
}

/// Whether a region counts for a block at an offset in a place of some length: whole sectors, not empty, within the place, around the block.
fn counts(start: u32, len: u32, offset: u32, place_len: u32) -> bool {
    let [start, len, offset, place_len] = [start, len, offset, place_len].map(i128::from);
    let start = start - i128::from(WINDOW);
    let end = start + len;
    start % 4096 == 0
        && len % 4096 == 0
        && len > 0
        && start >= 0
        && end <= place_len
        && start <= offset
        && offset + 256 <= end
}

/// Every start and length near a bound, for blocks at the first and last page of sectors; the digest is always that of what the flash has
/// there, where it is in the flash at all, so that the region alone decides.
#[test]
fn every_condition_just_met_and_just_missed() {
    let mut r = Random(50);
    for (settings, place, place_len) in places() {
        let lent = Buffers::any(&mut r, SECTORS, Ram::NONE);
        let near = |x: u32| {
            [-4096, -2048, -256, -1, 0, 1, 256, 2048, 4096].map(|d| x.wrapping_add_signed(d))
        };
        let (mut kept, mut stored) = (0, 0);
        for offset in [0, 0xF00, 0x1000, 0x1F00, place_len - 4096, place_len - 256] {
            let sector = WINDOW + offset / 4096 * 4096;
            let starts = near(sector).into_iter().chain([
                0,
                WINDOW - 4096,
                WINDOW,
                WINDOW + place_len,
                0xffff_f000,
            ]);
            for start in starts {
                let rest = (WINDOW + place_len).wrapping_sub(start);
                let lens = near(4096)
                    .into_iter()
                    .chain(near(8192))
                    .chain(near(rest))
                    .chain([0x1000_0000, 0xffff_f000, u32::MAX]);
                for len in lens {
                    let mut a = block(5, offset);
                    let digest = digest_there(&lent.flash, place, start, len);
                    put_region(&mut a, start, len, digest);
                    let wanted = if counts(start, len, offset, place_len) {
                        17
                    } else {
                        14
                    };
                    let got = Pair::new(settings, Transfer::Idle, lent.clone()).take(&a);
                    assert_eq!(
                        got, wanted,
                        "start {start:x}, len {len:x}, offset {offset:x}"
                    );
                    *if wanted == 17 { &mut kept } else { &mut stored } += 1;
                }
            }
        }
        assert!(kept > 30 && stored > 1_000, "{kept} {stored}");
    }
}

/// The digest is of all 16 bytes, of the region alone, as the arrival finds the flash.
#[test]
fn every_byte_of_the_digest() {
    let mut r = Random(51);
    for (settings, place, _) in places() {
        let lent = Buffers::any(&mut r, SECTORS, Ram::NONE);
        let (start, len) = (WINDOW + 4096, 8192);
        let answer = |digest: [u8; 16], lent: &Buffers| {
            let mut a = block(5, 4096);
            put_region(&mut a, start, len, digest);
            Pair::new(settings, Transfer::Idle, lent.clone()).take(&a)
        };
        let right = digest_there(&lent.flash, place, start, len);
        assert_eq!(answer(right, &lent), 17);
        for bit in 0..128 {
            let mut wrong = right;
            wrong[bit / 8] ^= 1 << (bit % 8);
            assert_eq!(answer(wrong, &lent), 14, "bit {bit}");
        }
        let mut turned = right;
        turned.chunks_mut(4).for_each(<[u8]>::reverse);
        assert_eq!(answer(turned, &lent), 14);
        // of other parts of the flash, and of the region in the window's terms without the place
        for (start, len) in [
            (start - 4096, len),
            (start + 4096, len),
            (start, 4096),
            (start, len + 4096),
            (start + 4, len),
        ] {
            assert_eq!(
                answer(digest_there(&lent.flash, place, start, len), &lent),
                14
            );
        }
        let elsewhere = if place == 0 { 16_384 } else { 0 };
        assert_eq!(
            answer(digest_there(&lent.flash, elsewhere, start, len), &lent),
            14
        );
        // one bit of the flash: in the region it is another content, beside it it is nothing to the region
        let from = place + 4096;
        for (at, wanted) in [
            (from, 14),
            (from + 8191, 14),
            (from - 1, 17),
            (from + 8192, 17),
        ] {
            let mut other = lent.clone();
            other.flash[at] ^= 0x10;
            assert_eq!(answer(right, &other), wanted, "{at:x}");
        }
    }
}

/// A region is asked for after every check: only a block that would be 14 or 15 is kept, and it clears, marks and counts as ever.
#[test]
fn kept_in_every_transfer() {
    let mut r = Random(52);
    let mut lent = Buffers::any(&mut r, SECTORS, Ram::BOTH);
    lent.seen.fill(0);
    let region = |a: &mut Vec<u8>| {
        put_region(a, WINDOW, 8192, digest_there(&lent.flash, 0, WINDOW, 8192));
    };
    let mut marked = lent.clone();
    marked.seen[0] = 0x40;
    let other_kind = Transfer::Running {
        family: ARM_S,
        total: 5,
        count: 2,
        kind: Kind::MainRam,
    };
    let done = Transfer::Done {
        family: ARM_S,
        total: 5,
        kind: Kind::Flash,
    };
    for (transfer, buffers, total, wanted) in [
        (Transfer::Idle, &lent, 5, (17, false)),
        (running(5, 2), &lent, 5, (17, false)),
        (running(5, 4), &lent, 5, (15, false)),
        (running(5, 4), &marked, 5, (13, false)),
        (running(4, 2), &marked, 5, (17, true)),
        (running(4, 2), &lent, 2, (17, true)),
        (other_kind, &lent, 5, (17, true)),
        (done, &lent, 5, (12, false)),
        (running(5, 5), &lent, 5, (3, false)),
    ] {
        let mut a = block(total, 4096);
        region(&mut a);
        let mut pair = Pair::new(arm_only(), transfer, buffers.clone());
        assert_eq!(pair.told(&a), wanted);
        // nothing is stored, and no sector marked; the maps are cleared where a transfer opens
        let opened = transfer == Transfer::Idle || wanted.1;
        let mut left = buffers.clone();
        if opened {
            left.seen.fill(0);
            left.sectors.fill(0);
        }
        if wanted.0 >= 14 {
            left.seen[0] |= 0x40;
        }
        assert!(pair.ours == left);
    }
    // never for a comment, in RAM or by a refusal
    let off = |at: usize, x: u32| {
        let mut a = block(5, 4096);
        region(&mut a);
        put(&mut a, at, x);
        a
    };
    for (a, wanted) in [
        (off(8, 0x6001), 16),
        (off(12, 0x2000_0000), 14),
        (off(12, 0x13ff_c000), 14),
        (off(8, 0x4000), 7),
        (off(8, 0x7000), 5),
        (off(28, reference::RP2040), 8),
        (off(16, 255), 9),
        (off(20, 5), 10),
        (off(24, 0), 10),
        (off(12, WINDOW + 4097), 11),
        (off(12, 0x1200_0000), 11),
        (off(0, 0), 4),
        (off(8, 0x2000), 14),
        (off(8, 0xE000), 17),
    ] {
        let got = Pair::new(arm_only(), Transfer::Idle, lent.clone()).take(&a);
        assert_eq!(got, wanted);
    }
    // the only block of a file
    let mut only = page(ARM_S, 1, 0);
    region(&mut only);
    assert_eq!(
        Pair::new(arm_only(), Transfer::Idle, lent.clone()).take(&only),
        15
    );
}

/// The same arrival with the flag and without it: the answers but for 14 and 17, "discarded", the next transfer and the next seen map are the
/// same, and where the block is not kept all is.
#[test]
fn the_flag_decides_between_14_and_17_alone() {
    let mut r = Random(53);
    let (mut kept, mut last) = (0, 0);
    let lists = arrivals_asked() / 4 / 20;
    for _ in 0..lists {
        let sectors = r.of(&[1, 2, 5]);
        let settings = any_settings(&mut r, sectors);
        let ram = Ram {
            main: r.one_in(16),
            xip: r.one_in(2),
        };
        let buffers = Buffers::any(&mut r, sectors, ram);
        let transfer = any_transfer(&mut r, sectors * 16);
        let mut pair = Pair::new(settings, transfer, buffers);
        for _ in 0..20 {
            let mut with = any_arrival(&mut r, sectors * 16, ram);
            if r.one_in(3) {
                join(&mut r, &mut with, pair.transfer);
            }
            let flash = &pair.ours.flash;
            let place = reference::ask_place(&settings, flash.len(), field(&with, 28));
            any_region(&mut r, &mut with, flash, place.map_or(0, |p| p.0));
            let mut without = with.clone();
            without[9] &= !0x40;
            let mut plain = Pair::new(settings, pair.transfer, pair.ours.clone());
            let untouched = pair.ours.clone();
            let (a, b) = (pair.told(&with), plain.told(&without));
            let soft = |answer| if answer == 17 { 14 } else { answer };
            assert_eq!((soft(a.0), a.1), b);
            assert_eq!(pair.transfer, plain.transfer);
            assert!(pair.ours.seen == plain.ours.seen);
            let stores_nothing = pair.ours.flash == untouched.flash && pair.ours != plain.ours;
            match a.0 {
                17 => kept += 1,
                15 if stores_nothing => last += 1,
                _ => assert!(pair.ours == plain.ours),
            }
        }
    }
    assert!(kept > lists / 20 && last > lists / 400, "{kept} {last}");
}

/// A file for arm-s at the start of the flash, some of whose sectors are in regions: blocks and the final bytes of its sectors.
struct File {
    blocks: Vec<Vec<u8>>,
    fin: Vec<u8>,
    touched: Vec<bool>,
    regions: Vec<(usize, usize)>,
}

impl File {
    fn any(r: &mut Random, place: usize, sectors: usize) -> File {
        let mut fin = vec![0xFF; sectors * 4096];
        let mut touched = vec![false; sectors];
        // each sector has no block, or from one to 16 of them
        let mut pages = Vec::new();
        for (sector, touched) in touched.iter_mut().enumerate() {
            if r.one_in(5) {
                continue;
            }
            *touched = true;
            let mut own: Vec<usize> = (0..16).map(|k| 16 * sector + k).collect();
            r.shuffle(&mut own);
            own.truncate(r.of(&[1, 2, 5, 15, 16]));
            pages.extend(own);
        }
        if pages.is_empty() {
            touched[0] = true;
            pages.push(3);
        }
        r.shuffle(&mut pages);
        let total = pages.len() as u32;
        let mut blocks: Vec<Vec<u8>> = Vec::new();
        for (number, &at) in (0..).zip(&pages) {
            let mut a = page(ARM_S, total, number);
            put(&mut a, 12, WINDOW + 256 * at as u32);
            r.fill(&mut a[32..508]);
            fin[256 * at..][..256].copy_from_slice(&a[32..288]);
            blocks.push(a);
        }
        // runs of touched sectors become regions, up to three sectors each
        let mut regions = Vec::new();
        let mut sector = 0;
        while sector < sectors {
            let run = touched[sector..].iter().take_while(|&&t| t).count();
            let len = run.min(r.of(&[0, 1, 1, 2, 3]));
            if len > 0 {
                regions.push((sector, len));
            }
            sector += len.max(1);
        }
        for a in &mut blocks {
            let sector = (field(a, 12) - WINDOW) as usize / 4096;
            let region = regions
                .iter()
                .find(|(first, n)| (*first..first + n).contains(&sector));
            let Some(&(first, n)) = region else {
                // with the flag too, where the region is none that counts
                if r.one_in(3) {
                    put_region(a, WINDOW + 256, 4096, [7; 16]);
                }
                continue;
            };
            let digest = md5(&fin[4096 * first..][..4096 * n]);
            put_region(a, WINDOW + 4096 * first as u32, 4096 * n as u32, digest);
        }
        assert!(place + fin.len() <= 4096 * SECTORS as usize);
        File {
            blocks,
            fin,
            touched,
            regions,
        }
    }

    /// A flash in which part of the file is there: a sector is final, erased or old.
    fn lend(&self, r: &mut Random, place: usize) -> Buffers {
        let mut lent = Buffers::any(r, SECTORS, Ram::NONE);
        let most = r.below(4);
        for (sector, fin) in self.fin.chunks(4096).enumerate() {
            let part = &mut lent.flash[place + 4096 * sector..][..4096];
            match r.below(4) {
                k if k < most => part.copy_from_slice(fin),
                3 => part.fill(0xFF),
                _ => {}
            }
        }
        lent
    }

    /// The flash of a whole file: its touched sectors are final, every other byte is as lent.
    fn whole(&self, lent: &Buffers, place: usize) -> Vec<u8> {
        let mut flash = lent.flash.clone();
        for (sector, fin) in self.fin.chunks(4096).enumerate() {
            if self.touched[sector] {
                flash[place + 4096 * sector..][..4096].copy_from_slice(fin);
            }
        }
        flash
    }
}

/// Files with regions of which part is there, in any order, with repeats and foreign arrivals: transfer, seen map and answers, with 17 told
/// as 14, at every arrival; the flash once the file is whole. The same arrivals in pieces by many takes in a call.
#[test]
fn files_with_regions_end_whole() {
    let mut r = Random(54);
    let (mut kept, mut written, mut all_kept) = (0, 0, 0);
    for _ in 0..400 {
        let (settings, place, place_len) = r.of(&places());
        let sectors = 1 + r.below(u64::from(place_len) / 4096) as usize;
        let file = File::any(&mut r, place, sectors);
        let lent = file.lend(&mut r, place);
        let n = file.blocks.len();
        let mut order: Vec<usize> = (0..n)
            .chain((0..n / 2).map(|_| r.below(n as u64) as usize))
            .collect();
        r.shuffle(&mut order);
        let mut pair = Pair::new(settings, Transfer::Idle, lent.clone());
        let mut had = vec![false; n];
        let (mut sent, mut results) = (Vec::new(), Vec::new());
        let mut answers = [0; 18];
        for k in order {
            if r.one_in(6) {
                let mut foreign = file.blocks[k].clone();
                foreign[r.of(&[0, 508])] ^= 1;
                results.push(pair.take(&foreign));
                assert_eq!(results.last(), Some(&4));
                sent.extend(foreign);
            }
            let missing = had.iter().filter(|&&h| !h).count();
            let wanted = match missing {
                0 => 12,
                _ if had[k] => 13,
                1 => 15,
                _ => 14,
            };
            had[k] = true;
            let answer = pair.take(&file.blocks[k]);
            assert_eq!(if answer == 17 { 14 } else { answer }, wanted);
            answers[usize::from(answer)] += 1;
            sent.extend(&file.blocks[k]);
            results.push(answer);
            check_counts(&pair, n as u32, &had);
        }
        assert!(pair.ours.flash == file.whole(&lent, place));
        kept += answers[17];
        written += usize::from(answers[14] > 0 && answers[17] > 0);
        all_kept += usize::from(answers[14] == 0 && answers[17] > 0);
        assert!(answers[17] == 0 || !file.regions.is_empty());

        let mut all = lent;
        let mut transfer = proved_transfer(Transfer::Idle);
        let mut told = vec![0; results.len()];
        let mut done = 0;
        while done < told.len() {
            let part = (done + 1 + r.below(40) as usize).min(told.len());
            let arrivals = &sent[512 * done..512 * part];
            let (p, into) = (proved_settings(&settings), &mut told[done..part]);
            proved::take_all(&p, &mut transfer, arrivals, into, &mut all.lend());
            done = part;
        }
        assert_eq!(told, results);
        assert!(all == pair.ours);
    }
    assert!(
        kept > 1_000 && written > 20 && all_kept > 20,
        "{kept} {written} {all_kept}"
    );
}

/// Transfer and seen map are those of the blocks that came.
fn check_counts(pair: &Pair, total: u32, had: &[bool]) {
    let count = had.iter().filter(|&&h| h).count() as u32;
    let wanted = if count < total {
        running(total, count)
    } else {
        Transfer::Done {
            family: ARM_S,
            total,
            kind: Kind::Flash,
        }
    };
    assert_eq!(pair.transfer, wanted);
    let mut seen = vec![0; reference::SEEN_LEN];
    for number in (0..had.len()).filter(|&k| had[k]) {
        seen[number / 8] |= 0x80 >> (number % 8);
    }
    assert!(pair.ours.seen == seen);
}

/// The digests of the proved library and of the reference beside those of `md5sum`, where it is installed.
#[test]
fn md5sum_agrees() {
    let mut r = Random(55);
    let mut message = vec![0; 1_048_576];
    r.fill(&mut message);
    for len in [0, 1, 55, 56, 57, 63, 64, 65, 119, 120, 128, 4096, 1_048_576] {
        let part = &message[..len];
        let digest = tools::md5(part);
        assert_eq!(digest, md5(part), "{len} bytes");
        let spawned = Command::new("md5sum")
            .stdin(Stdio::piped())
            .stdout(Stdio::piped())
            .spawn();
        let Ok(mut child) = spawned else {
            println!("no md5sum here: the digests were compared with the reference's alone");
            continue;
        };
        let mut pipe = child.stdin.take().expect("it is piped");
        pipe.write_all(part).expect("it is read");
        drop(pipe);
        let output = child.wait_with_output().expect("md5sum ends");
        let text: String = digest.iter().map(|byte| format!("{byte:02x}")).collect();
        assert!(output.stdout.starts_with(text.as_bytes()), "{len} bytes");
    }
}
