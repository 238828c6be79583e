//! Lists of arrivals, each looked at and taken: after each, answer, transfer and every lent byte are the same. COMPARE_ARRIVALS sets how many arrivals are
//! compared, at least.

use compare::region::any_region;
use compare::{
    any_arrival, any_settings, any_transfer, arm_only, arrivals_asked, join, page, proved_settings,
    proved_transfer, Buffers, Pair, Ram, Random,
};
use reference::{Kind, Transfer};

/// What a list of arrivals met.
#[derive(Default, Debug)]
struct Met {
    answers: [usize; 18],
    /// Accepted, by the kind of the transfer afterwards, of data and of comments.
    data: [usize; 3],
    comments: [usize; 3],
    /// A running transfer discarded by one that differs in kind alone.
    kind_changes: usize,
    /// What was planned for a driver, by the deed's number.
    plans: [usize; 3],
}

impl Met {
    fn count(&mut self, a: &[u8], before: Transfer, answer: u8, after: Transfer) {
        self.answers[usize::from(answer)] += 1;
        if answer < 14 {
            return;
        }
        let Some((family, total, kind)) = head(after) else {
            panic!("an accepted block leaves a transfer that is not Idle");
        };
        let counts = if a[8] & 1 == 0 {
            &mut self.data
        } else {
            &mut self.comments
        };
        counts[kind as usize] += 1;
        let other = |(f, n, k)| (f, n) == (family, total) && k != kind;
        self.kind_changes += usize::from(head(before).is_some_and(other));
    }
}

/// Family, total and kind, but of Idle.
fn head(transfer: Transfer) -> Option<(u32, u32, Kind)> {
    match transfer {
        Transfer::Idle => None,
        Transfer::Running {
            family,
            total,
            kind,
            ..
        }
        | Transfer::Done {
            family,
            total,
            kind,
        } => Some((family, total, kind)),
    }
}

/// A region for the block, with the digest of what its family's place has there, where it has a place.
fn name_region(r: &mut Random, a: &mut [u8], pair: &Pair) {
    let family = u32::from_le_bytes([a[28], a[29], a[30], a[31]]);
    let flash = &pair.ours.flash;
    let place = reference::ask_place(&pair.settings, flash.len(), family);
    any_region(r, a, flash, place.map_or(0, |(start, _)| start));
}

#[test]
fn arrivals_agree() {
    let mut r = Random(2);
    let mut met = Met::default();
    while met.answers.iter().sum::<usize>() < arrivals_asked() {
        let sectors = r.of(&[1, 2, 5, 16]);
        let settings = any_settings(&mut r, sectors);
        let transfer = any_transfer(&mut r, sectors * 16);
        let ram = Ram::any(&mut r);
        let buffers = Buffers::any(&mut r, sectors, ram);
        let mut pair = Pair::new(settings, transfer, buffers);
        let mut sent: Vec<Vec<u8>> = Vec::new();
        for _ in 0..40 {
            let mut a = if !sent.is_empty() && r.one_in(3) {
                sent[r.below(sent.len() as u64) as usize].clone()
            } else {
                any_arrival(&mut r, sectors * 16, ram)
            };
            if r.one_in(4) {
                join(&mut r, &mut a, pair.transfer);
            }
            if r.one_in(3) {
                name_region(&mut r, &mut a, &pair);
            }
            let before = pair.transfer;
            let answer = pair.take(&a);
            met.count(&a, before, answer, pair.transfer);
            sent.push(a);
            // bad settings and a bad state stay so, and a transfer that is done too
            if matches!(answer, 2 | 3 | 12) && r.one_in(4) {
                break;
            }
        }
        for (sum, n) in met.plans.iter_mut().zip(pair.driven.plans) {
            *sum += n;
        }
    }
    // every answer but 1 came, and often; none is 6
    let often = arrivals_asked() / 500;
    let all = (2..18).filter(|&n| n != 6);
    assert!(all.map(|n| met.answers[n]).all(|n| n > often), "{met:?}");
    assert_eq!(met.answers[6], 0);
    assert!(met.plans.iter().all(|&n| n > often), "{met:?}");
    // and every kind, with changes between them
    let kinds = met.data.iter().chain([&met.comments[0], &met.kind_changes]);
    assert!(kinds.copied().all(|n| n > often), "{met:?}");
    let noted = &met.comments[1..];
    assert!(noted.iter().all(|&n| n > often / 20), "{met:?}");
}

/// A buffer that is changed; one that is empty may be lengthened too.
fn change(r: &mut Random, buffer: &mut Vec<u8>) {
    let n = buffer.len();
    let lengths = [0, 1, n.saturating_sub(1), n + 1, n / 2, n + 4096];
    let lengths = [&lengths[..], &[16_383, 16_385, 532_479, 532_481]].concat();
    buffer.resize(r.of(&lengths), 9);
}

#[test]
fn wrong_lengths_agree() {
    let mut r = Random(3);
    let mut refused = 0;
    for _ in 0..3_000 {
        let settings = any_settings(&mut r, 4);
        let ram = Ram::any(&mut r);
        let mut buffers = Buffers::any(&mut r, 4, ram);
        let mut a = page(reference::ARM_S, 4, 1);
        match r.below(6) {
            0 => change(&mut r, &mut a),
            k => change(&mut r, buffers.each()[k as usize - 1]),
        }
        refused += u32::from(Pair::new(settings, Transfer::Idle, buffers).take(&a) == 1);
    }
    assert!(refused > 2_000, "{refused}");
}

/// Files in any order, with repeats and other arrivals between: completed once, at the arrival that makes the set whole.
#[test]
fn shuffled_files_agree() {
    let mut r = Random(4);
    for _ in 0..400 {
        let sectors = r.of(&[1, 2, 8]);
        let pages = sectors * 16;
        let n = 1 + r.below(pages) as u32;
        let mut file: Vec<Vec<u8>> = (0..n).map(|k| page(reference::ARM_S, n, k)).collect();
        for block in &mut file {
            // a comment, wherever it says that it goes
            if r.one_in(4) {
                block[8] |= 1;
                block[12..20].fill_with(|| r.draw() as u8);
            }
        }
        let mut order: Vec<usize> = (0..n as usize).collect();
        for _ in 0..n {
            order.push(r.below(u64::from(n)) as usize);
        }
        r.shuffle(&mut order);
        let ram = Ram::any(&mut r);
        let buffers = Buffers::any(&mut r, sectors, ram);
        let mut pair = Pair::new(arm_only(), Transfer::Idle, buffers);
        let mut seen = vec![false; n as usize];
        for k in order {
            if r.one_in(5) {
                let mut foreign = page(reference::RP2040, n, 0);
                foreign[508] ^= r.below(2) as u8;
                let answer = pair.take(&foreign);
                assert!((4..=11).contains(&answer));
            }
            let whole = seen.iter().all(|&s| s);
            seen[k] = true;
            let completes = !whole && seen.iter().all(|&s| s);
            assert_eq!(pair.take(&file[k]) == 15, completes);
        }
        for (k, a) in file.iter().enumerate().filter(|(_, a)| a[8] & 1 == 0) {
            assert_eq!(pair.ours.flash[k * 256..][..256], a[32..288]);
        }
    }
}

/// Two files that differ in family or total, their blocks in turn: each discards what the other began, until one is left alone and whole.
#[test]
fn two_files_in_turn_agree() {
    let mut r = Random(8);
    for _ in 0..400 {
        let n = 2 + r.below(40) as u32;
        let other = r.of(&[(reference::ARM_S, n + 1), (reference::DATA, n)]);
        let files = [(reference::ARM_S, n), other];
        let buffers = Buffers::any(&mut r, 8, Ram::NONE);
        let mut pair = Pair::new(arm_only(), Transfer::Idle, buffers);
        for i in 0..2 * n {
            let (family, total) = files[i as usize % 2];
            let block = page(family, total, r.below(u64::from(total)) as u32);
            assert_eq!(pair.take(&block), 14, "the first of its file again");
            let Transfer::Running { count, .. } = pair.transfer else {
                panic!("no file is whole");
            };
            assert_eq!(count, 1);
        }
        let (family, total) = files[r.below(2) as usize];
        let mut order: Vec<u32> = (0..total).collect();
        r.shuffle(&mut order);
        let last: Vec<u8> = order
            .iter()
            .map(|&k| pair.take(&page(family, total, k)))
            .collect();
        assert!(last.contains(&15));
        let kind = Kind::Flash;
        assert_eq!(
            pair.transfer,
            Transfer::Done {
                family,
                total,
                kind
            }
        );
    }
}

/// Arrivals handed over at once are taken as one by one.
#[test]
fn all_at_once_agrees() {
    let mut r = Random(8);
    for _ in 0..500 {
        let sectors = r.of(&[1, 2, 5, 16]);
        let settings = any_settings(&mut r, sectors);
        let transfer = any_transfer(&mut r, sectors * 16);
        let ram = Ram::any(&mut r);
        let buffers = Buffers::any(&mut r, sectors, ram);
        let mut one = Pair::new(settings, transfer, buffers.clone());
        let n = r.below(20) as usize;
        let mut file: Vec<u8> = (0..n)
            .flat_map(|_| {
                let mut a = any_arrival(&mut r, sectors * 16, ram);
                if r.one_in(2) {
                    name_region(&mut r, &mut a, &one);
                }
                a
            })
            .collect();
        // a last piece that is no whole arrival, and room for fewer results, or for more
        file.resize(file.len() + r.below(512) as usize, 1);
        let mut results = vec![77; r.below(25) as usize];
        let mut all = buffers;
        let mut end = proved_transfer(transfer);
        let number = proved::take_all(&one.proved, &mut end, &file, &mut results, &mut all.lend());
        assert_eq!(number, n.min(results.len()));
        for (i, a) in file.chunks_exact(512).take(number).enumerate() {
            assert_eq!(results[i] % 128, one.take(a));
        }
        assert!(results[number..].iter().all(|&x| x == 77));
        assert_eq!(end, proved_transfer(one.transfer));
        assert!(all == one.ours);
    }
}

/// The longest file there is, shuffled, in the largest flash.
#[test]
fn longest_file_agrees() {
    let mut r = Random(5);
    let n = 131_072;
    let mut order: Vec<u32> = (0..n).collect();
    r.shuffle(&mut order);
    let p = proved_settings(&arm_only());
    let mut buffers = Buffers::filled(33_554_432, 9);
    let mut transfer = proved::Transfer::new();
    for (i, &k) in order.iter().enumerate() {
        let a = page(reference::DATA, n, k);
        let got = proved::take(&p, &mut transfer, &a, &mut buffers.lend());
        let last = i + 1 == n as usize;
        assert_eq!(got.answer.number(), if last { 15 } else { 14 });
    }
    let maps = buffers.seen.iter().chain(&buffers.sectors);
    assert!(maps.copied().all(|b| b == 0xFF));
    for k in 0..n {
        let a = page(reference::DATA, n, k);
        assert!(buffers.flash[k as usize * 256..][..256] == a[32..288]);
    }
}
