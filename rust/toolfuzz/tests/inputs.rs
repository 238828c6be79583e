//! Every input that a fuzzer found and that is kept (tests/fuzz/tool.inputs): nothing is wrong with what the tool does. One test alone, for it goes
//! into a folder and takes standard output.

use std::path::Path;

use toolfuzz::{Desk, LINES};

#[test]
fn inputs_that_were_found() {
    let file = Path::new(env!("CARGO_MANIFEST_DIR")).join("../../tests/fuzz/tool.inputs");
    let mut bytes = &*std::fs::read(&file).expect("inputs");
    let folder = std::env::temp_dir().join(format!("vantorel-toolfuzz-{}", std::process::id()));
    let mut desk = Desk::new(&folder).expect("a folder");
    let mut picked = [false; LINES.len()];
    while let Some((length, rest)) = bytes.split_first_chunk() {
        let (input, rest) = rest.split_at(u16::from_le_bytes(*length).into());
        bytes = rest;
        if let Some(&pick) = input.first().filter(|pick| **pick < 128) {
            picked[usize::from(pick) % LINES.len()] = true;
        }
        if let Err(why) = desk.run(input) {
            panic!("{why}");
        }
    }
    std::env::set_current_dir("/").expect("a folder");
    let _ = std::fs::remove_dir_all(&folder);
    let _ = std::fs::remove_file(folder.with_extension("said"));
    assert_eq!(picked, [true; LINES.len()], "each line has inputs");
}
