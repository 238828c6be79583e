//! Times the proved receiver and plain Rust in one run, on the same inputs, a round of each in turn; the figure of a side is its least.
//! Both get the settings as bytes. Where a place is asked for, both read them at each call; where a file is taken, a `Way` says which
//! calls are made and what the plain side does. An argument prints only the rows whose names hold it; BENCH_ROUNDS sets the rounds of
//! every row.

mod check;
mod file;
mod fleet;
mod hex;
mod once;
mod region;
mod store;
mod table;
mod tags;
mod trace;
mod why;

use std::cell::Cell;
use std::hint::black_box;
use std::time::Instant;

use compare::proved_settings;
use reference::{Arch, Entry, Link, Settings};

const FLASH: usize = 33_554_432;
/// The rounds of 30,000 calls.
const CALLS: usize = 100;

fn settings(count: u8, table: [Entry; 16]) -> Settings {
    Settings {
        arm: true,
        riscv: true,
        current: Arch::Arm,
        auto_switch: true,
        absolute: true,
        count,
        table,
    }
}

/// Sixteen good entries: fifteen of one sector, and the last, which alone accepts arm-s, of all the others.
fn sixteen() -> Settings {
    let mut table = [Entry::EMPTY; 16];
    for (k, e) in table.iter_mut().enumerate() {
        e.first = k as u32;
        e.sectors = 1;
        e.data = true;
        e.user_count = 3;
        e.users = [1, 2, 3 + k as u32, 0];
        e.link = match k % 3 {
            0 => Link::None,
            1 => Link::OwnedBy(0),
            _ => Link::BOf(k as u8 - 1),
        };
    }
    table[15].sectors = (FLASH / 4096 - 15) as u32;
    table[15].arm_s = true;
    settings(16, table)
}

/// The settings that bytes are, in plain Rust.
fn read(bytes: &[u8]) -> Settings {
    let mut table = [Entry::EMPTY; 16];
    let used = usize::from(bytes[5]);
    for (e, b) in table.iter_mut().zip(bytes[6..].chunks_exact(34)).take(used) {
        let field = |at: usize| u32::from_le_bytes([b[at], b[at + 1], b[at + 2], b[at + 3]]);
        *e = Entry {
            first: field(0),
            sectors: field(4),
            data: b[24] != 0,
            arm_s: b[25] != 0,
            riscv: b[26] != 0,
            arm_ns: b[27] != 0,
            user_count: b[28],
            users: [field(8), field(12), field(16), field(20)],
            not_bootable_arm: b[29] != 0,
            not_bootable_riscv: b[30] != 0,
            link: match b[31] {
                0 => Link::None,
                1 => Link::OwnedBy(b[32]),
                2 => Link::BOf(b[32]),
                _ => Link::OwnedBy(255),
            },
        };
    }
    Settings {
        arm: bytes[0] != 0,
        riscv: bytes[1] != 0,
        current: if bytes[2] == 0 {
            Arch::Arm
        } else {
            Arch::RiscV
        },
        auto_switch: bytes[3] != 0,
        absolute: bytes[4] != 0,
        count: bytes[5],
        table,
    }
}

/// The time of some work in nanoseconds, and what it gives.
fn timed(work: impl FnOnce() -> u64) -> (f64, u64) {
    let start = Instant::now();
    let sum = work();
    (start.elapsed().as_nanos() as f64, sum)
}

/// How many rounds there are, how many calls a round has, and how many bytes go through them.
struct Work {
    rounds: usize,
    calls: usize,
    bytes: Option<usize>,
}

impl Work {
    fn told(&self, time: f64) -> String {
        let call = format!("{:.1} ns", time / self.calls as f64);
        match self.bytes {
            Some(n) => format!("{call}, {:.0} MB/s", n as f64 / time * 1000.0),
            None => call,
        }
    }
}

/// Whether a row is asked for: every one, or those whose names hold the program's argument.
fn asked(name: &str) -> bool {
    std::env::args()
        .nth(1)
        .is_none_or(|part| name.contains(&part))
}

/// The least time of several rounds of each, a round of each in turn, so that what else runs on the machine hits both alike.
fn least(rounds: usize, mut a: impl FnMut() -> f64, mut b: impl FnMut() -> f64) -> (f64, f64) {
    let asked = std::env::var("BENCH_ROUNDS").ok();
    let rounds = asked.and_then(|n| n.parse().ok()).unwrap_or(rounds);
    let mut least = (f64::MAX, f64::MAX);
    for _ in 0..rounds {
        least.0 = least.0.min(a());
        least.1 = least.1.min(b());
    }
    least
}

/// The proved side and the plain one. A round clears what it is lent before its time begins.
fn pair(
    name: &str,
    work: Work,
    mut ours: impl FnMut() -> (f64, u64),
    mut plain: impl FnMut() -> (f64, u64),
) {
    if !asked(name) {
        return;
    }
    let sums = [Cell::new(0), Cell::new(0)];
    let kept = |(time, sum), side: usize| {
        sums[side].set(sum);
        time
    };
    let (a, b) = least(work.rounds, || kept(ours(), 0), || kept(plain(), 1));
    assert_eq!(sums[0], sums[1], "{name}: the two say the same");
    let (ours, plain) = (work.told(a), work.told(b));
    println!("| {name} | {ours} | {plain} | {:.2} : 1 |", a / b);
}

/// Two works of the proved side, by the time of a call of each.
fn beside(name: &str, a: (Work, impl FnMut() -> f64), b: (Work, impl FnMut() -> f64)) {
    let (x, y) = least(a.0.rounds, a.1, b.1);
    let ratio = (x / a.0.calls as f64) / (y / b.0.calls as f64);
    println!(
        "| {name} | {} | {} | {ratio:.2} : 1 |",
        a.0.told(x),
        b.0.told(y)
    );
}

fn places(name: &str, s: &Settings) {
    let p = proved_settings(s).bytes();
    let families = [reference::ARM_S, 18, 99];
    let calls = 30_000;
    pair(
        name,
        Work {
            rounds: CALLS,
            calls,
            bytes: None,
        },
        || {
            let ask = |i: usize| {
                let mut place = [0; 8];
                proved::bytes::ask(black_box(&p), FLASH, families[i % 3], &mut place);
                u64::from(place[0]) + 256 * u64::from(place[1])
            };
            timed(|| (0..calls).map(ask).sum())
        },
        || {
            let ask = |i: usize| {
                reference::ask_place(&read(black_box(&p)), FLASH, families[i % 3])
                    .map_or(0, |x| x.0 as u64 % 65_536)
            };
            timed(|| (0..calls).map(ask).sum())
        },
    );
}

fn main() {
    println!("| work | proved | plain Rust | ratio |\n|---|---|---|---|");
    places(
        "settings good and place, no table",
        &settings(0, [Entry::EMPTY; 16]),
    );
    places("settings good and place, 16 entries", &sixteen());
    file::flash_rows();
    file::ram_rows();
    region::kept_rows();
    trace::rows();
    hex::rows();
    tags::row();
    store::rows(&sixteen());
    why::rows(&sixteen());
    check::rows();
    println!("\n| work, proved | the first | the second | ratio |\n|---|---|---|---|");
    file::table_rows();
    file::accept_rows();
    check::beside_rows();
    region::beside_rows();
    trace::beside_rows();
    fleet::beside_rows();
}
