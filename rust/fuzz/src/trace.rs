//! uf2_replay and uf2_figures, uf2_part_one and uf2_part_merge.

use reference::figures::{self, Report};
use reference::parts::{merge as merged, Part};
use reference::replay::{replay as replayed, Replayed, Stop};

use crate::arrivals::BLOCK;
use crate::board::{bytes_of_transfer, put, settings_of, word_at, Buffers, TRANSFER};
use crate::calls;
use crate::input::Input;
use crate::receiver::{sent, Desk, Sent};

const RECORD: usize = BLOCK + 1;
const REPORT: usize = 84;
const PART: usize = 96;
const INDEX: usize = 8;
/// The numbers of the answers in the order of a report's counts.
const ANSWERS: [usize; 16] = [1, 2, 3, 4, 5, 7, 8, 9, 10, 11, 12, 13, 14, 15, 16, 17];

/// The records of what is sent: each with the answer that a board would give, or with another.
fn trace(desk: &mut Desk, input: &mut Input) -> (Sent, Vec<u8>) {
    let (wrong, cut) = (input.byte(), input.byte());
    let mut sent = sent(desk, input, 8);
    sent.transfer = vec![0; TRANSFER];
    // sent once to learn the answers, with maps that are zeroed; then all is put back
    let before = desk.buffers.small();
    desk.buffers.theirs[1].fill(0);
    desk.buffers.theirs[2].fill(0);
    let arrivals = sent.arrivals.clone();
    let mut trace = Vec::with_capacity(arrivals.len() + 8);
    for (i, arrival) in arrivals.chunks(BLOCK).enumerate() {
        let result = sent.taken(&mut desk.buffers, arrival);
        let mut head = (result as u8 & 31) << 3 | if result >= 128 { 4 } else { 0 };
        if usize::from(wrong & 31) == i + 1 {
            head ^= 1 << (wrong >> 5);
        }
        trace.push(head);
        trace.extend_from_slice(arrival);
    }
    desk.buffers.restore(before, &arrivals);
    if cut >= 224 {
        let length = trace.len().saturating_sub(usize::from(cut - 223) * 32);
        trace.truncate(length);
    }
    (sent, trace)
}

/// Where it stopped, as a number and the index's bytes after a call that lent so many.
fn stop(replayed: &Replayed, index_len: usize) -> (u32, Vec<u8>) {
    let mut index = vec![0x33; index_len];
    let (number, at) = match replayed.stop {
        Stop::None => return (0, index),
        Stop::Bad(at) => (1, at),
        Stop::Differs(at) => (2, at),
    };
    if index_len == INDEX {
        index.copy_from_slice(&(at as u64).to_le_bytes());
    }
    (number, index)
}

pub fn replay(desk: &mut Desk, input: &mut Input) {
    let (index_len, transfer_len) = (input.length(INDEX, 64), input.length(TRANSFER, 48));
    let (sent, trace) = trace(desk, input);
    let settings = settings_of(&sent.settings);
    let [flash, seen, sectors, main, xip] = &mut desk.buffers.theirs;
    let end = replayed(&settings, &trace, flash, seen, sectors, main, xip);
    let [flash, seen, sectors, main, xip] = &mut desk.buffers.ours;
    let got = calls::uf2_replay(
        desk.settings.copy(&sent.settings),
        desk.sent.copy(&trace),
        flash.bytes(),
        seen.bytes(),
        sectors.bytes(),
        main.bytes(),
        xip.bytes(),
        desk.transfer.fill(transfer_len, 0x22),
        desk.small.fill(index_len, 0x33),
    );
    let (number, index) = stop(&end, index_len);
    assert_eq!(got, number, "stop");
    desk.small.holds(&index, "index");
    if transfer_len == TRANSFER {
        desk.transfer
            .holds(&bytes_of_transfer(end.transfer), "transfer");
    } else {
        desk.transfer.holds(&vec![0x22; transfer_len], "transfer");
    }
    desk.buffers.agree_at_the_end(&trace, RECORD);
}

// ---- reports and parts

/// A report's bytes, mostly of figures that agree.
fn report(input: &mut Input) -> [u8; REPORT] {
    let mut bytes = [0; REPORT];
    let shape = input.byte();
    if shape < 64 {
        return bytes;
    }
    let mut records = 0u32;
    for k in 0..usize::from(shape & 7) {
        let count = input.word_of(&[1, 2, 100, 0x7FFF_FFFF, 0xFFFF_FFF0, 0xFFFF_FFFF]);
        let at = 4 + 4 * ((k + usize::from(shape >> 3)) % 16);
        put(&mut bytes, at, count);
        records = records.wrapping_add(count);
    }
    put(&mut bytes, 0, records);
    let discards = input.word_of(&[0, records, records.wrapping_add(1), 1]);
    put(&mut bytes, 68, discards);
    put(&mut bytes, 72, input.word_of(&[0, 1, 131_072]));
    put(&mut bytes, 76, input.word_of(&[0, 1, 2]));
    put(&mut bytes, 80, input.word_of(&[0, 1, 7]));
    if shape >= 240 {
        bytes[usize::from(input.byte()) % REPORT] ^= input.byte();
    }
    bytes
}

fn report_of(bytes: &[u8]) -> Report {
    let mut answers = [0; 18];
    for (k, &answer) in ANSWERS.iter().enumerate() {
        answers[answer] = word_at(bytes, 4 + 4 * k);
    }
    let missing = word_at(bytes, 76) != 0;
    Report {
        records: word_at(bytes, 0),
        answers,
        discards: word_at(bytes, 68),
        marked: word_at(bytes, 72),
        missing: missing.then(|| word_at(bytes, 80)),
    }
}

fn report_bytes(report: &Report) -> [u8; REPORT] {
    let mut bytes = [0; REPORT];
    put(&mut bytes, 0, report.records);
    for (k, &answer) in ANSWERS.iter().enumerate() {
        put(&mut bytes, 4 + 4 * k, report.answers[answer]);
    }
    put(&mut bytes, 68, report.discards);
    put(&mut bytes, 72, report.marked);
    put(&mut bytes, 76, report.missing.is_some().into());
    put(&mut bytes, 80, report.missing.unwrap_or(0));
    bytes
}

/// Some bytes cut or lengthened.
fn resized(bytes: &[u8], length: usize) -> Vec<u8> {
    let mut bytes = bytes.to_vec();
    bytes.resize(length, 0);
    bytes
}

pub fn figures(desk: &mut Desk, input: &mut Input) {
    let lent = report(input);
    let lent = resized(&lent, input.length(REPORT, 128));
    let index_len = input.length(INDEX, 64);
    let (sent, trace) = trace(desk, input);
    let settings = settings_of(&sent.settings);
    let mut report = (lent.len() == REPORT).then(|| report_of(&lent));
    let wanted = report.as_mut().map_or(Err(71), |report| {
        let [flash, seen, sectors, main, xip] = &mut desk.buffers.theirs;
        figures::add(report, &settings, &trace, flash, seen, sectors, main, xip)
    });
    let Buffers { ours, .. } = &mut desk.buffers;
    let [flash, seen, sectors, main, xip] = ours;
    // both are small: the report lies before the index
    let mut index = vec![0x33; index_len];
    let got = calls::uf2_figures(
        desk.small.copy(&lent),
        desk.settings.copy(&sent.settings),
        desk.sent.copy(&trace),
        flash.bytes(),
        seen.bytes(),
        sectors.bytes(),
        main.bytes(),
        xip.bytes(),
        &mut index,
    );
    match (wanted, report) {
        (Ok(end), Some(report)) => {
            let (number, at) = stop(&end, index_len);
            assert_eq!(got, number, "stop");
            assert_eq!(index, at, "index");
            desk.small.holds(&report_bytes(&report), "report");
        }
        (Err(refusal), _) => {
            assert_eq!(got, refusal, "refusal");
            assert_eq!(index, vec![0x33; index_len], "index of a refusal");
            desk.small.holds(&lent, "report of a refusal");
        }
        (Ok(_), None) => unreachable!("no report was added to"),
    }
    desk.buffers.agree_at_the_end(&trace, RECORD);
}

/// A part's bytes, mostly a good one.
fn part(input: &mut Input) -> Vec<u8> {
    let mut bytes = [0; PART];
    bytes[..REPORT].copy_from_slice(&report(input));
    let traces = input.word_of(&[1, 2, 5, 0, 0xFFFF_FFFF, 0x8000_0000]);
    put(&mut bytes, 84, traces);
    put(&mut bytes, 88, input.word_of(&[0, 1, traces, 2]));
    put(&mut bytes, 92, input.word_of(&[0, 0, 1, traces]));
    resized(&bytes, input.length(PART, 128))
}

fn part_of(bytes: &[u8]) -> Option<Part> {
    (bytes.len() == PART).then(|| Part {
        report: report_of(bytes),
        traces: word_at(bytes, 84),
        bad: word_at(bytes, 88),
        differs: word_at(bytes, 92),
    })
}

fn part_bytes(part: &Part) -> [u8; PART] {
    let mut bytes = [0; PART];
    bytes[..REPORT].copy_from_slice(&report_bytes(&part.report));
    for (at, word) in [(84, part.traces), (88, part.bad), (92, part.differs)] {
        put(&mut bytes, at, word);
    }
    bytes
}

pub fn part_one(desk: &mut Desk, input: &mut Input) {
    let lent = report(input);
    let lent = resized(&lent, input.length(REPORT, 128));
    let stop = input.word_of(&[0, 1, 2, 3]);
    let part_len = input.length(PART, 128);
    let one = (lent.len() == REPORT && stop <= 2 && part_len == PART).then(|| Part {
        report: report_of(&lent),
        traces: 1,
        bad: u32::from(stop == 1),
        differs: u32::from(stop == 2),
    });
    // the reference judges a report where it merges a part of it
    let good = one.filter(|one| merged(&mut Part::FRESH.clone(), one).is_ok());
    let part = desk.small.fill(part_len, 0x11);
    let got = calls::uf2_part_one(desk.settings.copy(&lent), stop, part);
    assert_eq!(got, if good.is_some() { 0 } else { 71 }, "answer");
    let wanted = good.map_or(vec![0x11; part_len], |one| part_bytes(&one).to_vec());
    desk.small.holds(&wanted, "part");
}

pub fn part_merge(desk: &mut Desk, input: &mut Input) {
    let (first, later) = (part(input), part(input));
    let (mut a, b) = (part_of(&first), part_of(&later));
    let wanted = match (&mut a, &b) {
        (Some(a), Some(b)) => merged(a, b),
        _ => Err(71),
    };
    let part = desk.small.copy(&first);
    let got = calls::uf2_part_merge(part, desk.settings.copy(&later));
    assert_eq!(got, wanted.err().unwrap_or(0), "answer");
    match a {
        Some(a) if wanted.is_ok() => desk.small.holds(&part_bytes(&a), "part"),
        _ => desk.small.holds(&first, "part of a refusal"),
    }
    desk.settings.holds(&later, "later part");
}
