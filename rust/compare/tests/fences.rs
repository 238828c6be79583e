//! Every buffer of every call lies against a page that may not be touched, at its end or at its start, with lengths and contents of every
//! kind: a read or write out of bounds ends the test, and so does a write to what is only read. Beside that, each call answers and leaves
//! what it does in plain memory. The proofs end where the compiler's back end begins; this runs what it made. COMPARE_ARRIVALS sets how
//! many calls are made.

use std::os::unix::process::ExitStatusExt as _;
use std::process::Command;

use compare::fence::{Fenced, Side};
use compare::hex::{any_reader, any_record, any_text};
use compare::plain::any_plain;
use compare::region::any_region;
use compare::store::{any_stored, proved_stored};
use compare::{any_arrival, any_settings, any_transfer, Buffers, Ram, Random, FAMILIES};
use compare::{proved_settings, proved_transfer};
use proved::bytes;
use proved::store::bytes::{read, write};

/// The number of calls of each test.
fn number() -> usize {
    compare::arrivals_asked() / 50
}

/// Bytes beside a fence, and the same bytes in plain memory.
struct Twin {
    fenced: Fenced,
    plain: Vec<u8>,
}

impl Twin {
    fn written(r: &mut Random, plain: Vec<u8>) -> Twin {
        Twin::new(r, plain, false)
    }

    fn read(r: &mut Random, plain: Vec<u8>) -> Twin {
        Twin::new(r, plain, true)
    }

    fn new(r: &mut Random, plain: Vec<u8>, read_only: bool) -> Twin {
        let side = r.of(&[Side::Start, Side::End]);
        let fenced = Fenced::new(&plain, side, read_only);
        Twin { fenced, plain }
    }

    fn check(&self, name: &str) {
        assert!(self.fenced.bytes() == self.plain, "{name}");
        assert!(self.fenced.rest_is_kept(), "beside {name}");
    }
}

/// Some bytes, mostly as they are, else cut or lengthened, by one byte or to any length.
fn any_length(r: &mut Random, mut bytes: Vec<u8>) -> Vec<u8> {
    if r.one_in(24) {
        let n = bytes.len();
        let any = r.below(2 * n as u64 + 2) as usize;
        let n = r.of(&[0, n.saturating_sub(1), n + 1, any]);
        let fill = r.draw() as u8;
        bytes.resize(n, fill);
    }
    bytes
}

fn any_settings_bytes(r: &mut Random, sectors: u64) -> Vec<u8> {
    let mut bytes = proved_settings(&any_settings(r, sectors)).bytes().to_vec();
    if r.one_in(12) {
        bytes.fill_with(|| r.draw() as u8);
        bytes[5] = r.of(&[0, 1, 15, 16, 17, 255]);
    }
    any_length(r, bytes)
}

fn any_transfer_bytes(r: &mut Random, pages: u64) -> Vec<u8> {
    let mut bytes = proved_transfer(any_transfer(r, pages)).bytes().to_vec();
    if r.one_in(12) {
        let at = r.of(&[0, 13]);
        bytes[at] = r.draw() as u8;
    }
    any_length(r, bytes)
}

/// Where the place of a block's family begins, or 0.
fn place(settings: &[u8], flash_len: usize, a: &[u8]) -> usize {
    let family = u32::from_le_bytes([a[28], a[29], a[30], a[31]]);
    let mut place = [0; bytes::PLACE_BYTES];
    bytes::ask(settings, flash_len, family, &mut place);
    u32::from_le_bytes([place[0], place[1], place[2], place[3]]) as usize
}

/// What a call is lent, each part beside a fence.
struct Call {
    settings: Twin,
    transfer: Twin,
    arrival: Twin,
    /// Flash, seen map, sector map, main RAM and XIP RAM.
    buffers: [Twin; 5],
}

const BUFFERS: [&str; 5] = ["flash", "seen map", "sector map", "main RAM", "XIP RAM"];

impl Call {
    /// A call with so many arrivals; `looks` where nothing that it is lent is written.
    fn any(r: &mut Random, arrivals: u64, looks: bool) -> Call {
        let sectors = r.of(&[1, 2, 5]);
        let pages = sectors * 16;
        let ram = Ram {
            // it is large: two copies for each call that has it
            main: r.one_in(8),
            xip: r.one_in(2),
        };
        let settings = any_settings_bytes(r, sectors);
        let transfer = any_transfer_bytes(r, pages);
        let mut lent = Buffers::any(r, sectors, ram);
        let sent = (0..arrivals)
            .flat_map(|_| {
                let mut a = any_arrival(r, pages, ram);
                if r.one_in(2) {
                    let place = place(&settings, lent.flash.len(), &a);
                    any_region(r, &mut a, &lent.flash, place);
                }
                a
            })
            .collect::<Vec<u8>>();
        let sent = any_length(r, sent);
        Call {
            settings: Twin::read(r, settings),
            transfer: Twin::new(r, transfer, looks),
            arrival: Twin::read(r, sent),
            buffers: lent.each().map(|buffer| {
                let buffer = any_length(r, std::mem::take(buffer));
                Twin::new(r, buffer, looks)
            }),
        }
    }

    fn check(&self) {
        self.settings.check("settings");
        self.transfer.check("transfer");
        self.arrival.check("arrival");
        for (twin, name) in self.buffers.iter().zip(BUFFERS) {
            twin.check(name);
        }
    }
}

/// The buffers beside fences, lent.
fn fenced(buffers: &mut [Twin; 5]) -> proved::Buffers<'_> {
    lent(buffers.each_mut().map(|twin| twin.fenced.bytes_mut()))
}

/// The same in plain memory.
fn plain(buffers: &mut [Twin; 5]) -> proved::Buffers<'_> {
    lent(buffers.each_mut().map(|twin| &mut twin.plain[..]))
}

fn lent(buffers: [&mut [u8]; 5]) -> proved::Buffers<'_> {
    let [flash, seen, sectors, main, xip] = buffers;
    proved::Buffers {
        flash,
        seen,
        sectors,
        main,
        xip,
    }
}

/// Everything that a look is lent lies in pages that cannot be written.
#[test]
fn looks_keep_their_bounds_and_write_nothing() {
    let mut r = Random(30);
    let mut answers = [0; 18];
    for _ in 0..number() {
        let mut c = Call::any(&mut r, 1, true);
        let beside = bytes::look(
            c.settings.fenced.bytes(),
            c.transfer.fenced.bytes(),
            c.arrival.fenced.bytes(),
            &fenced(&mut c.buffers),
        );
        let alone = bytes::look(
            &c.settings.plain,
            &c.transfer.plain,
            &c.arrival.plain,
            &plain(&mut c.buffers),
        );
        assert_eq!(beside, alone);
        c.check();
        answers[alone as usize % 128] += 1;
    }
    let often = number() / 4_000;
    answers[6] = often; // no answer has this number
    assert!(answers[1..].iter().all(|&n| n >= often), "{answers:?}");
}

fn reason_lent(buffers: proved::Buffers<'_>) -> tools::why::Lent<'_> {
    tools::why::Lent {
        flash: buffers.flash,
        seen: buffers.seen,
        sectors: buffers.sectors,
        main: buffers.main,
        xip: buffers.xip,
    }
}

/// Everything but the reason lies in pages that cannot be written.
#[test]
fn reasons_keep_their_bounds_and_write_nothing_else() {
    let mut r = Random(40);
    let mut answers = [0; 18];
    for _ in 0..number() {
        let mut c = Call::any(&mut r, 1, true);
        let reason = any_length(&mut r, vec![9; tools::why::REASON_BYTES]);
        let mut reason = Twin::written(&mut r, reason);
        let beside = tools::why::explain_bytes(
            c.settings.fenced.bytes(),
            c.transfer.fenced.bytes(),
            c.arrival.fenced.bytes(),
            reason_lent(fenced(&mut c.buffers)),
            reason.fenced.bytes_mut(),
        );
        let alone = tools::why::explain_bytes(
            &c.settings.plain,
            &c.transfer.plain,
            &c.arrival.plain,
            reason_lent(plain(&mut c.buffers)),
            &mut reason.plain,
        );
        assert_eq!(beside, alone);
        c.check();
        reason.check("reason");
        answers[alone as usize % 128] += 1;
    }
    let often = number() / 4_000;
    answers[6] = often; // no answer has this number
    assert!(answers[1..].iter().all(|&n| n >= often), "{answers:?}");
}

#[test]
fn reasons_of_places_keep_their_bounds() {
    let mut r = Random(41);
    let mut answers = [0; 9];
    for _ in 0..number() {
        let sectors = r.of(&[1, 2, 40]);
        let settings = any_settings_bytes(&mut r, sectors);
        let settings = Twin::read(&mut r, settings);
        let reason = any_length(&mut r, vec![9; tools::why::REASON_BYTES]);
        let mut reason = Twin::written(&mut r, reason);
        let len = sectors as usize * 4096;
        let len = r.of(&[len, len, len, len + 1]);
        let family = r.of(&FAMILIES);
        let fenced = tools::why::explain_place_bytes(
            settings.fenced.bytes(),
            len,
            family,
            reason.fenced.bytes_mut(),
        );
        let plain =
            tools::why::explain_place_bytes(&settings.plain, len, family, &mut reason.plain);
        assert_eq!(fenced, plain);
        settings.check("settings");
        reason.check("reason");
        answers[plain as usize] += 1;
    }
    let often = number() / 400;
    for answer in [0, 1, 2, 8] {
        assert!(answers[answer] >= often, "{answers:?}");
    }
}

/// A file of up to six blocks, mostly with a field of one or two pieces changed: to that of another piece, or to one that is wrong.
fn any_file(r: &mut Random) -> Vec<u8> {
    let blocks = 1 + r.below(6) as usize;
    let mut file = vec![0; 512 * blocks];
    let start = 0x1000_0000 + 256 * r.below(8) as u32;
    tools::make(&vec![7; 256 * blocks], 0xe48b_ff59, start, &mut file).expect("it has room");
    for _ in 0..r.below(3) {
        let (piece, other) = (r.below(blocks as u64), r.below(blocks as u64));
        let (at, other) = (512 * piece as usize, 512 * other as usize);
        let field = r.of(&[0, 8, 12, 12, 16, 20, 20, 24, 28]);
        if r.one_in(2) {
            file.copy_within(other + field..other + field + 4, at + field);
        } else {
            let value = r.of(&[0, 1, 0x2001, 0x6000, 0x1000_0080, 0x2000_0000, 0xe48b_ff57]);
            file[at + field..][..4].copy_from_slice(&u32::to_le_bytes(value));
        }
        file[at + 484..][..4].copy_from_slice(&0x1000_0000_u32.to_le_bytes());
        file[at + 488..][..4].copy_from_slice(&4096_u32.to_le_bytes());
    }
    if r.one_in(8) {
        file.truncate(512 * (blocks - 1)); // the last is lost
    }
    any_length(r, file)
}

/// Settings and file lie in pages that cannot be written.
#[test]
fn checks_of_files_keep_their_bounds() {
    use tools::check::{check_bytes, Lens};
    use tools::check::{CELLS_BYTES, NUMBERS_BYTES, OFFSETS_BYTES, TOLD_BYTES};
    let mut r = Random(42);
    let mut answers = [0; 89];
    for _ in 0..number() {
        let mut settings = proved::Settings::ARM.bytes().to_vec();
        settings[4] = 1; // absolute is allowed
        if r.one_in(4) {
            settings = any_settings_bytes(&mut r, 40);
        }
        let settings = Twin::read(&mut r, settings);
        let file = any_file(&mut r);
        let file = Twin::read(&mut r, file);
        let mut lent = [NUMBERS_BYTES, CELLS_BYTES, OFFSETS_BYTES, TOLD_BYTES].map(|n| {
            let bytes = any_length(&mut r, vec![9; n]);
            Twin::written(&mut r, bytes)
        });
        let lens = Lens {
            flash: r.of(&[163_840, 163_840, 163_840, 163_841]),
            main: r.of(&[0, 532_480]),
            xip: r.of(&[0, 16_384]),
        };
        let [numbers, cells, offsets, told] = &mut lent;
        let maps = [&mut *numbers, &mut *cells, &mut *offsets].map(|map| map.fenced.bytes_mut());
        let out = told.fenced.bytes_mut();
        let beside = check_bytes(
            settings.fenced.bytes(),
            file.fenced.bytes(),
            lens,
            maps,
            out,
        );
        let maps = [numbers, cells, offsets].map(|map| &mut map.plain[..]);
        let alone = check_bytes(&settings.plain, &file.plain, lens, maps, &mut told.plain);
        assert_eq!(beside, alone);
        settings.check("settings");
        file.check("file");
        for (twin, name) in lent.iter().zip(["numbers", "cells", "offsets", "told"]) {
            twin.check(name);
        }
        answers[alone as usize] += 1;
    }
    let often = number() / 4_000;
    for answer in [0, 1, 2, 4, 7, 8, 9, 10, 11].into_iter().chain(80..89) {
        assert!(answers[answer] >= often, "{answer}: {answers:?}");
    }
}

#[test]
fn takes_keep_their_bounds() {
    let mut r = Random(31);
    let mut answers = [0; 18];
    for _ in 0..number() {
        let mut c = Call::any(&mut r, 1, false);
        let beside = bytes::take(
            c.settings.fenced.bytes(),
            c.transfer.fenced.bytes_mut(),
            c.arrival.fenced.bytes(),
            &mut fenced(&mut c.buffers),
        );
        let alone = bytes::take(
            &c.settings.plain,
            &mut c.transfer.plain,
            &c.arrival.plain,
            &mut plain(&mut c.buffers),
        );
        assert_eq!(beside, alone);
        c.check();
        answers[alone as usize % 128] += 1;
    }
    let often = number() / 4_000;
    answers[6] = often; // no answer has this number
    assert!(answers[1..].iter().all(|&n| n >= often), "{answers:?}");
}

/// The flash for reading, and what is lent beside it.
fn beside(lent: proved::Buffers<'_>) -> (&[u8], proved::Beside<'_>) {
    let beside = proved::Beside {
        seen: lent.seen,
        sectors: lent.sectors,
        main: lent.main,
        xip: lent.xip,
    };
    (lent.flash, beside)
}

/// A running transfer of flash that a block is one of, where it has another block.
fn joined(a: &[u8]) -> Option<proved::Transfer> {
    let field = |at: usize| Some(u32::from_le_bytes(*a.get(at..)?.first_chunk()?));
    Some(proved::Transfer::Running {
        family: field(28)?,
        total: field(24).filter(|&total| total > 1)?,
        count: 1,
        kind: proved::Kind::Flash,
    })
}

/// The flash lies in pages that cannot be written.
#[test]
fn acceptances_keep_their_bounds_and_write_no_flash() {
    let mut r = Random(38);
    let (mut answers, mut planned) = ([0; 18], [0; 3]);
    for _ in 0..number() {
        let mut c = Call::any(&mut r, 1, false);
        let flash = std::mem::take(&mut c.buffers[0].plain);
        c.buffers[0] = Twin::read(&mut r, flash);
        // often a block of the running transfer, so that its sector may be marked
        if let Some(running) = joined(&c.arrival.plain).filter(|_| r.one_in(2)) {
            c.transfer = Twin::written(&mut r, running.bytes().to_vec());
        }
        let plan = any_length(&mut r, vec![9; proved::PLAN_BYTES]);
        let mut plan = Twin::written(&mut r, plan);
        let (flash, mut others) = beside(fenced(&mut c.buffers));
        let fenced = bytes::accept(
            c.settings.fenced.bytes(),
            c.transfer.fenced.bytes_mut(),
            c.arrival.fenced.bytes(),
            flash,
            &mut others,
            plan.fenced.bytes_mut(),
        );
        let (flash, mut others) = beside(plain(&mut c.buffers));
        let alone = bytes::accept(
            &c.settings.plain,
            &mut c.transfer.plain,
            &c.arrival.plain,
            flash,
            &mut others,
            &mut plan.plain,
        );
        assert_eq!(fenced, alone);
        c.check();
        plan.check("plan");
        answers[alone as usize % 128] += 1;
        match &plan.plain[..] {
            [deed @ 0..=2, _, _, _, ..] if plan.plain.len() == 12 => planned[*deed as usize] += 1,
            other => assert!(other.len() != 12 && alone == 1, "{other:?}"),
        }
    }
    let often = number() / 4_000;
    answers[6] = often; // no answer has this number
    assert!(answers[1..].iter().all(|&n| n >= often), "{answers:?}");
    assert!(planned.iter().all(|&n| n >= often), "{planned:?}");
}

#[test]
fn many_takes_keep_their_bounds() {
    let mut r = Random(32);
    let mut accepted = 0;
    for _ in 0..number() / 4 {
        let n = r.below(12);
        let mut c = Call::any(&mut r, n, false);
        let room = r.below(14) as usize;
        let mut results = Twin::written(&mut r, vec![77; room]);
        let beside = bytes::take_all(
            c.settings.fenced.bytes(),
            c.transfer.fenced.bytes_mut(),
            c.arrival.fenced.bytes(),
            results.fenced.bytes_mut(),
            &mut fenced(&mut c.buffers),
        );
        let alone = bytes::take_all(
            &c.settings.plain,
            &mut c.transfer.plain,
            &c.arrival.plain,
            &mut results.plain,
            &mut plain(&mut c.buffers),
        );
        assert_eq!(beside, alone);
        c.check();
        results.check("results");
        let results = &results.plain[..alone];
        accepted += results.iter().filter(|&&x| x % 128 >= 14).count();
    }
    assert!(accepted > number() / 20, "{accepted}");
}

#[test]
fn places_keep_their_bounds() {
    let mut r = Random(33);
    let mut found = 0;
    for _ in 0..number() {
        let sectors = r.of(&[1, 2, 40]);
        let settings = any_settings_bytes(&mut r, sectors);
        let settings = Twin::read(&mut r, settings);
        let place = any_length(&mut r, vec![9; 8]);
        let mut place = Twin::written(&mut r, place);
        let (len, family) = (sectors as usize * 4096, r.of(&FAMILIES));
        let fenced = bytes::ask(
            settings.fenced.bytes(),
            len,
            family,
            place.fenced.bytes_mut(),
        );
        let plain = bytes::ask(&settings.plain, len, family, &mut place.plain);
        assert_eq!(fenced, plain);
        settings.check("settings");
        place.check("place");
        found += usize::from(plain == 0);

        let transfer = any_length(&mut r, vec![9; proved::TRANSFER_BYTES]);
        let mut transfer = Twin::written(&mut r, transfer);
        bytes::new(transfer.fenced.bytes_mut());
        bytes::new(&mut transfer.plain);
        transfer.check("transfer");
    }
    assert!(found > number() / 10, "{found}");
}

#[test]
fn lines_keep_their_bounds() {
    let mut r = Random(34);
    let mut answers = [0; 37];
    for _ in 0..number() {
        let reader = any_reader(&mut r).to_vec();
        let reader = any_length(&mut r, reader);
        let mut reader = Twin::written(&mut r, reader);
        let any = r.below(5000) as usize;
        let n = r.of(&[0, 1, 2, 31, 32, 33, 64, 256, 2048, any]);
        let mut image = Twin::written(&mut r, vec![7; n]);
        let line = if r.one_in(4) {
            any_text(&mut r)
        } else {
            any_record(&mut r, n)
        };
        let line = any_length(&mut r, line);
        let line = Twin::read(&mut r, line);
        let fenced = proved::hex::bytes::line(
            reader.fenced.bytes_mut(),
            line.fenced.bytes(),
            image.fenced.bytes_mut(),
        );
        let plain = proved::hex::bytes::line(&mut reader.plain, &line.plain, &mut image.plain);
        assert_eq!(fenced, plain);
        reader.check("reader");
        line.check("line");
        image.check("image");
        answers[plain as usize % 256] += 1;

        let fresh = any_length(&mut r, vec![9; 16]);
        let mut fresh = Twin::written(&mut r, fresh);
        let own = r.draw() as u16;
        proved::hex::bytes::new(own, fresh.fenced.bytes_mut());
        proved::hex::bytes::new(own, &mut fresh.plain);
        fresh.check("fresh reader");
    }
    let often = number() / 4_000;
    assert!(answers[18..].iter().all(|&n| n >= often), "{answers:?}");
}

/// A trace of the call's arrivals with our own answers, but for a few.
fn any_trace(r: &mut Random, c: &Call) -> Vec<u8> {
    let mut transfer = proved::Transfer::Idle.bytes();
    let mut buffers = c.buffers.each_ref().map(|twin| twin.plain.clone());
    buffers[1].fill(0);
    buffers[2].fill(0);
    let mut trace = Vec::new();
    for a in c.arrival.plain.chunks(512) {
        let mut lent = lent(buffers.each_mut().map(|buffer| &mut buffer[..]));
        let result = bytes::take(&c.settings.plain, &mut transfer, a, &mut lent) as u8;
        let head = result % 128 * 8 + result / 128 * 4;
        trace.push(if r.one_in(12) { r.draw() as u8 } else { head });
        trace.extend(a);
    }
    any_length(r, trace)
}

#[test]
fn replays_keep_their_bounds() {
    let mut r = Random(36);
    let mut stops = [0; 3];
    for _ in 0..number() / 4 {
        let n = r.below(8);
        let mut c = Call::any(&mut r, n, false);
        let trace = any_trace(&mut r, &c);
        let trace = Twin::read(&mut r, trace);
        let index = any_length(&mut r, vec![9; tools::trace::INDEX_BYTES]);
        let mut index = Twin::written(&mut r, index);
        let beside = tools::trace::replay_bytes(
            c.settings.fenced.bytes(),
            trace.fenced.bytes(),
            &mut fenced(&mut c.buffers),
            c.transfer.fenced.bytes_mut(),
            index.fenced.bytes_mut(),
        );
        let alone = tools::trace::replay_bytes(
            &c.settings.plain,
            &trace.plain,
            &mut plain(&mut c.buffers),
            &mut c.transfer.plain,
            &mut index.plain,
        );
        assert_eq!(beside, alone);
        c.check();
        trace.check("trace");
        index.check("index");
        stops[alone as usize] += 1;
    }
    assert!(stops.iter().all(|&n| n > number() / 400), "{stops:?}");
}

#[test]
fn reports_keep_their_bounds() {
    let mut r = Random(37);
    let mut added = 0;
    for _ in 0..number() / 4 {
        let n = r.below(8);
        let mut c = Call::any(&mut r, n, false);
        let trace = any_trace(&mut r, &c);
        let trace = Twin::read(&mut r, trace);
        let report = any_length(&mut r, vec![0; tools::report::REPORT_BYTES]);
        let mut report = Twin::written(&mut r, report);
        let index = any_length(&mut r, vec![9; tools::trace::INDEX_BYTES]);
        let mut index = Twin::written(&mut r, index);
        let beside = tools::report::add_bytes(
            report.fenced.bytes_mut(),
            c.settings.fenced.bytes(),
            trace.fenced.bytes(),
            &mut fenced(&mut c.buffers),
            index.fenced.bytes_mut(),
        );
        let alone = tools::report::add_bytes(
            &mut report.plain,
            &c.settings.plain,
            &trace.plain,
            &mut plain(&mut c.buffers),
            &mut index.plain,
        );
        assert_eq!(beside, alone);
        c.check();
        trace.check("trace");
        report.check("report");
        index.check("index");
        added += usize::from(alone < 70);
    }
    assert!(added > number() / 20, "{added}");
}

#[test]
fn stores_keep_their_bounds() {
    let mut r = Random(37);
    let mut answers = [0; 43];
    for _ in 0..number() {
        let (settings, len) = any_stored(&mut r);
        let settings = any_length(&mut r, proved_stored(&settings).bytes().to_vec());
        let settings = Twin::read(&mut r, settings);
        let any = r.below(360) as usize;
        let room = r.of(&[2, 24, 354, any]);
        let mut store = Twin::written(&mut r, vec![9; room]);
        let fenced = write(settings.fenced.bytes(), len, store.fenced.bytes_mut());
        let plain = write(&settings.plain, len, &mut store.plain);
        assert_eq!(fenced, plain);
        settings.check("settings");
        store.check("store");
        answers[plain as usize] += 1;

        let count = usize::from(settings.plain.get(5).map_or(0, |&n| n.min(16)));
        let mut bytes = store.plain;
        bytes.resize(2 + 22 * count, 0);
        if r.one_in(2) {
            let bit = r.below(8 * bytes.len() as u64) as usize;
            bytes[bit / 8] ^= 0x80 >> (bit % 8);
        }
        let bytes = any_length(&mut r, bytes);
        let store = Twin::read(&mut r, bytes);
        let settings = any_length(&mut r, vec![9; proved::SETTINGS_BYTES]);
        let mut settings = Twin::written(&mut r, settings);
        let fenced = read(store.fenced.bytes(), len, settings.fenced.bytes_mut());
        let plain = read(&store.plain, len, &mut settings.plain);
        assert_eq!(fenced, plain);
        settings.check("settings");
        store.check("store");
        answers[plain as usize] += 1;
    }
    let often = number() / 400;
    for answer in [0, 1, 2, 40, 41, 42] {
        assert!(answers[answer] >= often, "{answers:?}");
    }
}

#[test]
fn made_files_and_digests_keep_their_bounds() {
    let mut r = Random(35);
    let mut made = 0;
    for _ in 0..number() {
        let n = r.below(7) as usize;
        let image = any_length(&mut r, vec![0x5A; n * 256]);
        let image = Twin::read(&mut r, image);
        let output = any_length(&mut r, vec![9; n * 512]);
        let mut output = Twin::written(&mut r, output);
        let family = r.of(&FAMILIES);
        let start = r.of(&[0x1000_0000, 0x11FF_FF00, 0x1000_0001]);
        let fenced = tools::make(
            image.fenced.bytes(),
            family,
            start,
            output.fenced.bytes_mut(),
        );
        let plain = tools::make(&image.plain, family, start, &mut output.plain);
        assert_eq!(fenced, plain);
        image.check("image");
        output.check("output");
        made += usize::from(plain.is_ok());

        let fenced = tools::make_regions(
            image.fenced.bytes(),
            family,
            start,
            output.fenced.bytes_mut(),
        );
        let plain = tools::make_regions(&image.plain, family, start, &mut output.plain);
        assert_eq!(fenced, plain);
        image.check("image");
        output.check("output with regions");

        let any = r.below(300) as usize;
        let bytes = (0..any).map(|_| r.draw() as u8).collect();
        let bytes = Twin::read(&mut r, bytes);
        let digest = any_length(&mut r, vec![9; tools::MD5_BYTES]);
        let mut digest = Twin::written(&mut r, digest);
        tools::md5_bytes(bytes.fenced.bytes(), digest.fenced.bytes_mut());
        tools::md5_bytes(&bytes.plain, &mut digest.plain);
        bytes.check("bytes");
        digest.check("digest");
    }
    assert!(made > number() / 10, "{made}");
}

#[test]
fn made_blocks_keep_their_bounds() {
    let mut r = Random(39);
    let mut made = 0;
    for _ in 0..number() {
        let page = (0..tools::PAGE_BYTES).map(|_| r.draw() as u8).collect();
        let page = any_length(&mut r, page);
        let page = Twin::read(&mut r, page);
        let block = any_length(&mut r, vec![9; tools::BLOCK_BYTES]);
        let mut block = Twin::written(&mut r, block);
        let fields = tools::Fields {
            address: r.draw() as u32,
            number: r.draw() as u32,
            total: r.draw() as u32,
            family: r.of(&FAMILIES),
        };
        tools::write_block_bytes(fields, page.fenced.bytes(), block.fenced.bytes_mut());
        tools::write_block_bytes(fields, &page.plain, &mut block.plain);
        page.check("page");
        block.check("block");
        made += usize::from(block.plain.starts_with(b"UF2\n"));
    }
    assert!(made > number() / 2, "{made}");
}

#[test]
fn joined_files_keep_their_bounds() {
    let mut r = Random(36);
    let mut joined = 0;
    for _ in 0..number() / 10 {
        let v1 = any_plain(&mut r);
        let v2 = any_plain(&mut r);
        let written = tools::join(&v1, &v2, &mut vec![0; 65_536]).unwrap_or(1036);
        let v1 = Twin::read(&mut r, v1);
        let v2 = Twin::read(&mut r, v2);
        let output = any_length(&mut r, vec![9; written]);
        let mut output = Twin::written(&mut r, output);
        let fenced = tools::join(
            v1.fenced.bytes(),
            v2.fenced.bytes(),
            output.fenced.bytes_mut(),
        );
        let plain = tools::join(&v1.plain, &v2.plain, &mut output.plain);
        assert_eq!(fenced, plain);
        v1.check("V1's file");
        v2.check("V2's file");
        output.check("output");
        joined += usize::from(plain.is_ok());
    }
    assert!(joined > number() / 500, "{joined}");
}

// ---- the fence itself

const TOUCH: &str = "FENCE_TOUCH";

/// Touches what the variable says.
#[test]
#[ignore = "run by the test below, in a process of its own"]
fn touched() {
    let what = std::env::var(TOUCH).expect("the test below sets it");
    let side = if what == "before" {
        Side::Start
    } else {
        Side::End
    };
    let mut fenced = Fenced::new(&[1; 100], side, what == "read-only");
    let at = fenced.bytes_mut().as_mut_ptr();
    // SAFETY: "inside" touches the bytes alone; of the others the test below holds that they end this process, which runs nothing else.
    unsafe {
        match what.as_str() {
            "inside" => at.write_volatile(at.add(99).read_volatile()),
            "before" => drop(at.sub(1).read_volatile()),
            "after" => drop(at.add(100).read_volatile()),
            _ => at.write_volatile(1),
        }
    }
}

/// A byte before, a byte after and a write to what is only read end the process by SIGSEGV, and nothing else does.
#[test]
fn the_fence_holds() {
    let this = std::env::current_exe().expect("a test has a file");
    for (what, signal) in [
        ("inside", None),
        ("before", Some(11)),
        ("after", Some(11)),
        ("read-only", Some(11)),
    ] {
        let output = Command::new(&this)
            .args(["--ignored", "--exact", "touched"])
            .env(TOUCH, what)
            .output()
            .expect("the test runs");
        assert_eq!(output.status.signal(), signal, "{what}");
    }
}
