//! The built program, through its real standard input and output.

use std::io::Write;
use std::process::{Command, Stdio};

#[test]
fn prints_header_answers_and_state() {
    let mut program = Command::new(env!("CARGO_BIN_EXE_reference"))
        .stdin(Stdio::piped())
        .stdout(Stdio::piped())
        .spawn()
        .unwrap();
    // Dropping the pipe at the end of the statement ends the input.
    program.stdin.take().unwrap().write_all(&[0; 513]).unwrap();
    let output = program.wait_with_output().unwrap();
    assert!(output.status.success());
    let text = "arrival answer discarded\n0 4 0\n1 1 0\nstate idle total 0 seen 0\n";
    assert_eq!(output.stdout, text.as_bytes());
}
