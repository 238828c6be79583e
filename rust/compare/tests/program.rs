//! The proved programs beside the reference's, each as a process of its own: the same text on input of many kinds and lengths.

use std::io::Write as _;
use std::path::PathBuf;
use std::process::{Command, Stdio};

use compare::hex::{any_file, damage, FILE};
use compare::region::{any_region, put_region};
use compare::{any_arrival, page, Ram, Random};
use reference::md5::md5;

/// A program that the gate or `tools/target --programs` has put there.
fn proved(name: &str) -> PathBuf {
    PathBuf::from(concat!(env!("CARGO_MANIFEST_DIR"), "/../../target/bin")).join(name)
}

/// A program of the reference, which stands beside the folder of this test.
fn plain(name: &str) -> PathBuf {
    let test = std::env::current_exe().expect("a test has a file");
    test.ancestors()
        .nth(2)
        .expect("it stands in target/PROFILE/deps")
        .join(name)
}

fn printed(program: PathBuf, args: &[&str], input: &[u8]) -> String {
    let mut child = Command::new(&program)
        .args(args)
        .stdin(Stdio::piped())
        .stdout(Stdio::piped())
        .spawn()
        .unwrap_or_else(|e| panic!("{}: {e}", program.display()));
    let mut pipe = child.stdin.take().expect("it is piped");
    let bytes = input.to_vec();
    // written in pieces that are no multiple of 512, so that reads come short; a program may leave the rest unread
    let writer = std::thread::spawn(move || {
        for piece in bytes.chunks(77_777) {
            if pipe.write_all(piece).is_err() {
                return;
            }
        }
    });
    let output = child.wait_with_output().expect("the program ends");
    writer.join().expect("all was written");
    String::from_utf8(output.stdout).expect("plain text")
}

fn receive_both(input: &[u8]) -> String {
    let text = printed(proved("receive"), &[], input);
    assert_eq!(text, printed(plain("reference"), &[], input));
    text
}

fn hexlines_both(args: &[&str], input: &[u8]) -> String {
    let text = printed(proved("hexlines"), args, input);
    assert_eq!(text, printed(plain("reference-hexlines"), args, input));
    text
}

#[test]
fn receive_programs_agree() {
    let mut r = Random(6);
    for n in [0, 1, 2, 3, 10, 300] {
        for cut in [0, 1, 511] {
            let mut input: Vec<u8> = (0..n)
                .flat_map(|_| {
                    let mut a = any_arrival(&mut r, 128, Ram::BOTH);
                    if r.one_in(2) {
                        any_region(&mut r, &mut a, &[0xFF; 32_768], 0);
                    }
                    a
                })
                .collect();
            input.truncate(input.len().saturating_sub(cut));
            receive_both(&input);
        }
    }
}

#[test]
fn the_papers_example() {
    let file = [0, 0, 1].map(|k| page(reference::ARM_S, 2, k)).concat();
    let text = "arrival answer discarded\n0 14 0\n1 13 0\n2 15 0\nstate done total 2 seen 2\n";
    assert_eq!(receive_both(&file), text);
}

/// The program has no RAM: an address there is 11, also with a total of 0, and one in flash with that total is 10.
#[test]
fn the_program_has_no_ram() {
    let mut input = Vec::new();
    for address in [0x2000_0000, 0x13ff_c000, 0x1000_0000_u32] {
        for total in [2, 0] {
            let mut a = page(reference::ARM_S, total, 0);
            a[12..16].copy_from_slice(&address.to_le_bytes());
            input.extend(a);
        }
    }
    let text = "arrival answer discarded\n0 11 0\n1 11 0\n2 11 0\n3 11 0\n4 14 0\n5 10 0\nstate running total 2 seen 1\n";
    assert_eq!(receive_both(&input), text);
}

/// The program's flash starts as 0xFF, so that a region of such bytes is there, until a block is stored in it.
#[test]
fn the_program_keeps_what_is_there() {
    let erased = |number: u32, flags: u8| {
        let mut a = page(reference::ARM_S, 4, number);
        put_region(&mut a, 0x1000_0000, 4096, md5(&[0xFF; 4096]));
        a[9] &= flags;
        a
    };
    let input = [
        erased(0, 0xFF),
        erased(0, 0xFF),
        erased(1, 0xBF),
        erased(2, 0xFF),
    ]
    .concat();
    let text =
        "arrival answer discarded\n0 17 0\n1 13 0\n2 14 0\n3 14 0\nstate running total 4 seen 3\n";
    assert_eq!(receive_both(&input), text);
}

#[test]
fn hexlines_programs_agree() {
    let mut r = Random(7);
    for args in [
        &[][..],
        &["V1"],
        &["V2"],
        &["V3"],
        &["v1"],
        &[""],
        &["V1", "V2"],
    ] {
        for _ in 0..40 {
            let mut lines = any_file(&mut r, 262_144);
            if r.one_in(2) {
                damage(&mut r, &mut lines);
            }
            hexlines_both(args, &lines.concat());
        }
    }
}

#[test]
fn hexlines_programs_agree_at_the_limit() {
    let limit = FILE as usize;
    for n in [limit - 1, limit, limit + 1, limit + 100_000] {
        // one line, lines of one character, and lines that end in the middle of the last byte that counts
        hexlines_both(&[], &vec![b':'; n]);
        hexlines_both(&[], &[b":\n".repeat(n / 2), vec![b':'; n % 2]].concat());
        hexlines_both(
            &[],
            &[vec![b':'; limit], vec![b'\n'; n - limit.min(n)]].concat(),
        );
    }
}
