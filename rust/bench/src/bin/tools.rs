//! Times the proved tools and the plain Rust reference in one run, on the same inputs: digests, a file made of an image, and one Universal
//! Hex file from two plain ones.

use std::hint::black_box;
use std::time::Instant;

/// The rounds of a digest and of a file made, and those of two files joined, which are shorter.
const ROUNDS: usize = 15;
const JOINS: usize = 100;

/// The best of several rounds of each, in turn.
fn pair(name: &str, rounds: usize, bytes: usize, mut ours: impl FnMut(), mut plain: impl FnMut()) {
    let (mut a, mut b) = (f64::MAX, f64::MAX);
    for _ in 0..rounds {
        let start = Instant::now();
        ours();
        a = a.min(start.elapsed().as_secs_f64());
        let start = Instant::now();
        plain();
        b = b.min(start.elapsed().as_secs_f64());
    }
    let speed = |time: f64| bytes as f64 / time / 1e6;
    println!(
        "| {name} | {:.0} MB/s | {:.0} MB/s | {:.2} : 1 |",
        speed(a),
        speed(b),
        a / b
    );
}

fn digests(name: &str, n: usize) {
    let message: Vec<u8> = (0..n).map(|i| (i * 7 + i / 256) as u8).collect();
    assert_eq!(tools::md5(&message), reference::md5::md5(&message));
    let times = (1 << 24) / n;
    let repeated = |digest: fn(&[u8]) -> [u8; 16]| {
        for _ in 0..times {
            black_box(digest(black_box(&message)));
        }
    };
    pair(
        name,
        ROUNDS,
        times * n,
        || repeated(tools::md5),
        || repeated(reference::md5::md5),
    );
}

fn file() {
    const START: u32 = 0x1000_0000;
    let image: Vec<u8> = (0..33_554_432).map(|i| (i * 7 + i / 256) as u8).collect();
    let (mut ours, mut theirs) = (vec![1; 2 * image.len()], vec![2; 2 * image.len()]);
    pair(
        "a 32 MiB image made into a file",
        ROUNDS,
        image.len(),
        || {
            black_box(tools::make(&image, 7, START, &mut ours)).expect("it is made");
        },
        || {
            black_box(reference::make::make(&image, 7, START, &mut theirs)).expect("it is made");
        },
    );
    assert!(ours == theirs, "the two make the same");
}

/// A plain Intel Hex file of an image of so many bytes, in records of so many.
fn plain(n: usize, record: usize) -> Vec<u8> {
    let mut lines = Vec::new();
    for at in (0..n).step_by(record) {
        if at % 65_536 == 0 {
            let upper = (at / 65_536) as u16;
            lines.push(compare::hex::record(4, 0, &upper.to_be_bytes()));
        }
        let data: Vec<u8> = (at..at + record).map(|i| (i * 7 + i / 256) as u8).collect();
        lines.push(compare::hex::record(0, at as u16, &data));
    }
    lines.push(compare::hex::record(1, 0, &[]));
    lines.iter_mut().for_each(|line| line.push(b'\n'));
    lines.concat()
}

fn joined(name: &str, v1: &[u8], v2: &[u8]) {
    let (mut ours, mut theirs) = (vec![1; 4_194_304], vec![1; 4_194_304]);
    pair(
        name,
        JOINS,
        v1.len() + v2.len(),
        || {
            black_box(tools::join(black_box(v1), v2, &mut ours)).expect("it is written");
        },
        || {
            black_box(reference::join::join(black_box(v1), v2, &mut theirs))
                .expect("it is written");
        },
    );
    assert!(ours == theirs, "the two write the same");
}

fn main() {
    println!("| work | proved | plain Rust | ratio |\n|---|---|---|---|");
    digests("MD5 of 4 KiB", 4096);
    digests("MD5 of 64 KiB", 65_536);
    digests("MD5 of 1 MiB", 1_048_576);
    file();
    joined(
        "one file from 256 KiB and 512 KiB in 16-byte records",
        &plain(262_144, 16),
        &plain(524_288, 16),
    );
    joined(
        "one file from 256 KiB and 512 KiB in 32-byte records",
        &plain(262_144, 32),
        &plain(524_288, 32),
    );
}
