//! `vantorel replay`.

use crate::common::{block, Folder, ARM_S, FAMILY};
use crate::load::blink;
use std::path::Path;

#[test]
fn a_recorded_load_replays_to_none() {
    let folder = blink();
    let before = folder.get("blink.uf2");
    folder.put("start", [0x55; 20_000]);
    let nothing = "; but no block was taken";
    for (load, board, end) in [
        ("blink.uf2", "", ""),
        ("blink.uf2 --shuffle 3 --repeat 2", "", ""),
        (
            "blink.uf2 --drop 63,0 --shuffle 4",
            "",
            "; but the update was never complete: 2 of 64 blocks are missing, blocks 0, 63",
        ),
        ("blink.uf2", "--flash 2M --arm --riscv --current riscv", ""),
        ("blink.uf2", "--flash 4096", nothing),
        ("blink.uf2", "--start-image start --main-ram --xip-ram", ""),
        ("blink.bin", "", nothing),
    ] {
        let ran = folder.run(&format!("load {load} {board} --record t.trace"));
        let said = ran.out.lines().find(|line| line.starts_with("written: "));
        let said = said.expect("a line about the trace");
        let again = said
            .split('`')
            .nth(1)
            .expect("a command")
            .strip_prefix("vantorel ");
        let ran = folder.ends(0, again.expect("a command"));
        assert!(
            ran.out.ends_with(&format!(
                "\nnone: every record was replayed, and every answer is ours{end}.\n"
            )),
            "{}",
            ran.out
        );
        assert_eq!(ran.err, "");
    }
    assert!(folder.get("blink.uf2") == before);
    let ran = folder.ends(0, "load blink.uf2 --record t.trace");
    assert!(ran.out.contains(
        "written: t.trace, a trace; `vantorel replay t.trace --flash 16384` replays it\n"
    ));
    let ran = folder.ends(0, "replay t.trace");
    assert_eq!(
        ran.out,
        "t.trace: 64 records\n\
         board: a flash of 16384 bytes (none was said: as large as the file needs), Arm, absolute allowed, no partition table, no RAM\n\
         state: done: 64 blocks of family arm-s (0xe48bff59), into flash\n\
         none: every record was replayed, and every answer is ours.\n"
    );
}

#[test]
fn a_short_piece_is_not_recorded() {
    let folder = blink();
    folder.put("ragged", [&folder.get("blink.uf2")[..], &[1; 100]].concat());
    // the file is whole, and no valid one: a piece is cut off
    let ran = folder.ends(1, "load ragged --shuffle 9 --record t.trace");
    assert!(ran.out.contains(
        "left out of the trace: 1 piece of under 512 bytes, since a record holds a whole arrival\n"
    ));
    assert_eq!(folder.get("t.trace").len(), 64 * 513);
    folder.ends(0, "replay t.trace");
}

#[test]
fn where_it_differs() {
    let folder = blink();
    folder.ends(0, "load blink.uf2 --record t.trace");
    let trace = folder.get("t.trace");
    for (byte, told) in [
        (13 << 3, "the site got 13 Again; ours is 14 Written."),
        (
            14 << 3 | 4,
            "the site got 14 Written, and a running transfer was discarded; ours is 14 Written.",
        ),
        (
            6 << 3,
            "the site got 6 (no answer has this number); ours is 14 Written.",
        ),
        (
            31 << 3,
            "the site got 31 (no answer has this number); ours is 14 Written.",
        ),
    ] {
        let mut other = trace.clone();
        other[5 * 513] = byte;
        folder.put("other.trace", other);
        let ran = folder.ends(1, "replay other.trace --flash 16K");
        assert!(
            ran.out.ends_with(&format!("\ndiffers: record 5: {told}\n")),
            "{}",
            ran.out
        );
        assert!(
            ran.out.contains("state: running: 5 of 64 blocks"),
            "{}",
            ran.out
        );
    }
    let ran = folder.ends(1, "replay t.trace --riscv --flash 16K");
    assert!(ran
        .out
        .ends_with("differs: record 0: the site got 14 Written; ours is 8 NoPlace.\n"));
}

#[test]
fn where_it_is_bad() {
    let folder = blink();
    folder.ends(0, "load blink.uf2 --record t.trace");
    let trace = folder.get("t.trace");
    folder.put("short.trace", &trace[..600]);
    let ran = folder.ends(1, "replay short.trace");
    assert!(ran.out.starts_with("short.trace: 2 records\n"));
    assert!(
        ran.out
            .ends_with("bad: record 1: it has 87 bytes of 513.\n"),
        "{}",
        ran.out
    );
    let mut stray = trace.clone();
    stray[513] |= 2;
    folder.put("stray.trace", stray);
    let ran = folder.ends(1, "replay stray.trace");
    assert!(ran.out.ends_with("bad: record 1: its first byte 0x72 has one of its two lowest bits set, which are zero in a trace.\n"), "{}", ran.out);
}

#[test]
fn small_traces() {
    let folder = Folder::new();
    folder.put("empty", []);
    let ran = folder.ends(1, "replay empty");
    assert!(ran.out.starts_with(
        "empty: 0 records\nboard: a flash of 32768 bytes (none was said: that of `receive`)"
    ));
    assert!(ran.out.ends_with("\nempty: the trace has no records.\n"));
    let block = block(FAMILY, 0x1000_0000, 0, 1, ARM_S, 7);
    folder.put("one", [&[15 << 3], &block[..]].concat());
    let ran = folder.ends(0, "replay one");
    assert!(
        ran.out.contains("state: done: 1 block of family"),
        "{}",
        ran.out
    );
    folder.wrong("replay none", "cannot read none: No such file or directory");
    folder.wrong(
        "replay",
        "replay: TRACE is missing; `vantorel replay --help` says how",
    );
    folder.wrong(
        "replay one --drop 1",
        "replay: no option '--drop'; `vantorel replay --help` says how",
    );
}

/// An update that lost a block: every answer is ours, and it was never complete.
#[test]
fn an_update_that_lost_a_block() {
    let folder = blink();
    folder.ends(1, "load blink.uf2 --drop 17 --record t.trace");
    let ran = folder.ends(0, "replay t.trace");
    assert!(ran.out.ends_with("came, into flash\nmissing: block 17, which the trace does not have\nnone: every record was replayed, and every answer is ours; but the update was never complete: 1 of 64 blocks is missing, block 17.\n"), "{}", ran.out);
    folder.ends(1, "load blink.uf2 --drop 3,4,5,17 --record t.trace");
    let ran = folder.ends(0, "replay t.trace");
    assert!(ran
        .out
        .contains("missing: blocks 3 to 5, which the trace does not have\n"));
    assert!(
        ran.out
            .ends_with("never complete: 4 of 64 blocks are missing, blocks 3 to 5, 17.\n"),
        "{}",
        ran.out
    );
    // nothing was taken at all
    folder.ends(1, "load blink.bin --record t.trace");
    let ran = folder.ends(0, "replay t.trace");
    assert!(
        ran.out
            .ends_with("every answer is ours; but no block was taken.\n"),
        "{}",
        ran.out
    );
}

/// A block that the site's smaller flash rightly refused is not held against the site while the flash is a guess.
#[test]
fn a_guessed_flash_accuses_nobody() {
    let folder = blink();
    let far = block(FAMILY, 0x1000_8000, 17, 64, ARM_S, 7);
    folder.put(
        "far.uf2",
        [folder.get("blink.uf2")[..17 * 512].to_vec(), far].concat(),
    );
    let ran = folder.ends(1, "load far.uf2 --flash 16K --record t.trace");
    assert!(ran.out.contains("  11 BadAddress       1  "), "{}", ran.out);
    folder.ends(0, "replay t.trace --flash 16K");
    folder.ends(0, "figures t.trace --flash 16K");
    let ran = folder.ends(1, "replay t.trace");
    assert!(ran.out.ends_with("\nundecided: record 17: the site got 11 BadAddress; with a flash of 36864 bytes, which nobody said, ours is 14 Written. Say the site's flash by --flash: only then is a difference the site's.\n"), "{}", ran.out);
    let ran = folder.ends(1, "figures t.trace");
    assert!(ran.out.contains("\nt.trace: undecided at record 17, where our answer is another, since nobody said the flash: "), "{}", ran.out);
    for line in ["replay t.trace", "figures t.trace"] {
        let ran = folder.ends(1, &format!("{line} --json"));
        assert!(
            ran.out.contains("\"stop\": \"undecided\", \"index\": 17"),
            "{}",
            ran.out
        );
        let ran = folder.ends(1, &format!("{line} --json --flash 64K"));
        assert!(
            ran.out.contains("\"stop\": \"differs\", \"index\": 17"),
            "{}",
            ran.out
        );
    }
}

/// The page is held to the same in tests/page/hex_and_trace.mjs.
#[test]
fn as_the_page() {
    let path = Path::new(env!("CARGO_MANIFEST_DIR")).join("../../tests/page/small_flash.trace");
    let folder = Folder::new();
    folder.put("t.trace", std::fs::read(path).expect("a trace"));
    folder.ends(0, "replay t.trace --flash 4K");
    let ran = folder.ends(1, "replay t.trace --flash 8K");
    let told = "\ndiffers: record 1: the site got 11 BadAddress; ours is 15 Completed.\n";
    assert!(ran.out.ends_with(told), "{}", ran.out);
    // the flash of the page is said; where the tool is told none, it accuses nobody
    let ran = folder.ends(1, "replay t.trace");
    assert!(ran.out.contains("\nundecided: record 1: the site got 11 BadAddress; with a flash of 8192 bytes, which nobody said, ours is 15 Completed."), "{}", ran.out);
}
