//! The built program for Universal Hex lines, as a process.

use std::io::Write;
use std::process::{Command, Stdio};
use std::thread;

const FILE_LIMIT: usize = 4_194_304;

/// What the program prints; it must leave in good order, and quietly.
fn printed(arguments: &[&str], input: Vec<u8>) -> String {
    let mut program = Command::new(env!("CARGO_BIN_EXE_reference-hexlines"))
        .args(arguments)
        .stdin(Stdio::piped())
        .stdout(Stdio::piped())
        .stderr(Stdio::piped())
        .spawn()
        .unwrap();
    let mut pipe = program.stdin.take().unwrap();
    // Beside the reading, so that neither side waits for the other. It may
    // well fail, as the program leaves what it needs no more of.
    let writing = thread::spawn(move || drop(pipe.write_all(&input)));
    let output = program.wait_with_output().unwrap();
    writing.join().unwrap();
    assert_eq!(output.status.code(), Some(0));
    assert_eq!(output.stderr, []);
    String::from_utf8(output.stdout).unwrap()
}

/// A right record with its LF.
fn record(kind: u8, data: &[u8]) -> String {
    let bytes = [&[data.len() as u8, 0, 0, kind], data].concat();
    let sum = bytes.iter().fold(0u8, |sum, &byte| sum.wrapping_add(byte));
    let digits: String = bytes.iter().map(|byte| format!("{byte:02X}")).collect();
    format!(":{digits}{:02X}\n", sum.wrapping_neg())
}

/// 0Es that fill `len` bytes, an even number of at least 12.
fn filling(mut len: usize) -> String {
    let mut lines = record(0x0E, &[0; 32]).repeat((len - 12) / 76);
    len -= lines.len();
    if len > 76 {
        lines += &record(0x0E, &[]);
        len -= 12;
    }
    lines + &record(0x0E, &vec![0; (len - 12) / 2])
}

/// A file of V1 and V2 with its end, `len` bytes in all.
fn file(len: usize) -> String {
    let section = |board: u8, kind: u8, len: usize| {
        let mut lines = record(0x04, &[0, 0]);
        lines += &record(0x0A, &[0x99, board]);
        lines += &record(kind, &[0x5A]);
        let end = record(0x0B, &[]);
        let left = len - lines.len() - end.len();
        lines + &filling(left) + &end
    };
    let file = section(0, 0x00, 512) + &section(3, 0x0D, len - 12 - 512) + ":00000001FF\n";
    assert_eq!(file.len(), len);
    file
}

/// The last `count` lines of what was printed.
fn last_lines(text: &str, count: usize) -> Vec<&str> {
    let lines: Vec<&str> = text.lines().collect();
    lines[lines.len() - count..].to_vec()
}

#[test]
fn empty_input() {
    let text = "line answer\nstate between offset 0 v1 0 v2 0\n";
    assert_eq!(printed(&[], vec![]), text);
    assert_eq!(printed(&["V1"], vec![]), text);
    assert_eq!(printed(&["V2"], vec![]), text);
}

#[test]
fn header_answers_and_state() {
    let input = ":020000040000FA\r\n:0200000A99005B\r\n";
    let text = "line answer\n0 34\n1 34\nstate inside offset 34 v1 0 v2 0\n";
    assert_eq!(printed(&[], input.into()), text);
}

/// Every stand, reached by one line more each; the last has no ending.
#[test]
fn states() {
    let lines = [
        (":020000040000FA\n", 34, "opened offset 16 v1 0 v2 0"),
        (":0400000A9900C0DEBB\n", 34, "inside offset 36 v1 0 v2 0"),
        (":01000000FF00\n", 33, "inside offset 50 v1 1 v2 0"),
        (":0000000CF4\n", 34, "padded offset 62 v1 1 v2 0"),
        (":0000000BF5\n", 34, "between offset 74 v1 1 v2 0"),
        (":00000001FF", 30, "failed 30 offset 74 v1 1 v2 0"),
    ];
    let mut input = String::new();
    let mut answers = String::from("line answer\n");
    for (index, (line, answer, state)) in lines.into_iter().enumerate() {
        input += line;
        answers += &format!("{index} {answer}\n");
        let text = format!("{answers}state {state}\n");
        assert_eq!(printed(&["V1"], input.clone().into()), text);
    }
}

#[test]
fn whole_file() {
    let input = file(1024 + 12);
    for (board, v1, v2) in [("V1", 33, 34), ("V2", 34, 33)] {
        let text = printed(&[board], input.clone().into());
        assert_eq!(last_lines(&text, 1), ["state ended offset 1036 v1 1 v2 1"]);
        let answers: Vec<&str> = text.lines().collect();
        assert_eq!(answers[3], format!("2 {v1}"));
        let second = 1 + input.lines().count() / 2;
        assert_eq!(answers[second + 2], format!("{} {v2}", second + 1));
    }
    let text = printed(&[], (input + "\n").into());
    assert_eq!(last_lines(&text, 2)[0].split(' ').nth(1), Some("31"));
}

#[test]
fn the_image_has_262144_bytes() {
    let last = ":020000040003F7\n:0400000A9900C0DEBB\n:01FFFF000001\n";
    let next = ":020000040004F6\n:0400000A9900C0DEBB\n:0100000000FF\n";
    for (input, answer) in [(last, "2 33"), (next, "2 32")] {
        let text = printed(&[], input.into());
        assert_eq!(text.lines().nth(3), Some(answer));
    }
}

#[test]
fn lines_end_with_lf_only() {
    let text = printed(&[], b"\n\n:00000001FF\r:00000001FF".to_vec());
    let expected = "line answer\n0 20\n1 20\n2 20\nstate failed 20 offset 0 v1 0 v2 0\n";
    assert_eq!(text, expected);
    let text = printed(&[], b":00000001FF\r:00000001FF".to_vec());
    let expected =
        "line answer\n0 22 position 11\nstate failed 22 position 11 offset 0 v1 0 v2 0\n";
    assert_eq!(text, expected);
}

#[test]
fn another_board() {
    for argument in ["", "v1", "V3", "V1 ", "9900", "--help"] {
        let text = printed(&[argument], b":00000001FF\n".to_vec());
        assert_eq!(text, "board is V1 or V2\n");
    }
    // Only the first argument counts.
    let text = printed(&["V2", "V3"], vec![]);
    assert_eq!(text, "line answer\nstate between offset 0 v1 0 v2 0\n");
}

#[cfg(unix)]
#[test]
fn an_argument_that_is_no_text() {
    use std::ffi::OsStr;
    use std::os::unix::ffi::OsStrExt;
    let output = Command::new(env!("CARGO_BIN_EXE_reference-hexlines"))
        .arg(OsStr::from_bytes(b"V1\xFF"))
        .stdin(Stdio::null())
        .output()
        .unwrap();
    assert_eq!(output.status.code(), Some(0));
    assert_eq!(output.stdout, b"board is V1 or V2\n");
}

#[test]
fn a_file_at_the_limit() {
    let input = file(FILE_LIMIT);
    let text = printed(&["V2"], input.clone().into());
    let state = "state ended offset 4194304 v1 1 v2 1";
    assert_eq!(last_lines(&text, 1), [state]);
    assert_eq!(text.lines().count(), input.lines().count() + 2);

    // Of what follows, one byte counts, and it makes one line.
    let longer = input.clone() + &"\n".repeat(200_000);
    let text = printed(&["V2"], longer.into());
    let index = input.lines().count();
    assert_eq!(
        last_lines(&text, 2),
        [format!("{index} 31").as_str(), state]
    );
    assert_eq!(text.lines().count(), index + 3);
}

#[test]
fn a_file_past_the_limit() {
    // Two bytes more, so that the end is no longer within the limit.
    let input = file(FILE_LIMIT + 2);
    let index = input.lines().count() - 1;
    let text = printed(&["V1"], input.into());
    let state = "state failed 36 offset 4194294 v1 1 v2 1";
    assert_eq!(
        last_lines(&text, 2),
        [format!("{index} 36").as_str(), state]
    );
}

#[test]
fn what_is_past_the_limit_makes_no_line() {
    let line = "x".repeat(1023) + "\n";
    let input = line.repeat(FILE_LIMIT / 1024) + "\n\n\n\n";
    let text = printed(&[], input.into());
    let state = "state failed 20 offset 0 v1 0 v2 0";
    assert_eq!(last_lines(&text, 2), ["4096 20", state]);
}
