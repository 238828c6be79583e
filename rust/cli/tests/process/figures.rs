//! `vantorel figures`.

use crate::common::{block, Folder, ARM_S, FAMILY};
use crate::load::blink;

const BOARD: &str = "board: a flash of 16384 bytes (none was said: as large as the file needs), Arm, absolute allowed, no partition table, no RAM";

/// A whole load, one with repeats that lacks blocks, and one whose sixth answer is another than ours.
fn traces() -> Folder {
    let folder = blink();
    folder.ends(0, "load blink.uf2 --record whole.trace");
    folder.ends(
        1,
        "load blink.uf2 --drop 17,40 --repeat 2 --record lossy.trace",
    );
    let mut other = folder.get("whole.trace");
    other[5 * 513] = 13 << 3;
    folder.put("other.trace", other);
    folder
}

#[test]
fn over_several_traces() {
    let folder = traces();
    let ran = folder.ends(0, "figures whole.trace lossy.trace");
    assert_eq!(
        ran.out,
        format!(
            "{BOARD}\n\
             whole.trace: none, every record was replayed\n\
             lossy.trace: none, every record was replayed\n\
             2 traces, 188 records replayed\n\
             traces that stopped: 0 bad, 0 undecided\n\
             \x20 13 Again              62  a block of this number had come before\n\
             \x20 14 Written           125  stored, others are missing\n\
             \x20 15 Completed           1  the last one that was missing: the file is complete\n\
             running transfers discarded: 0\n\
             at the end of the last trace: 62 blocks marked, and block 17 is the first that is missing\n"
        )
    );
    assert_eq!(ran.err, "");
    let ran = folder.ends(0, "figures lossy.trace whole.trace");
    assert!(
        ran.out
            .ends_with("\nat the end of the last trace: 64 blocks marked\n"),
        "{}",
        ran.out
    );
}

/// A trace is counted up to where it stops, and the next begins anew.
#[test]
fn traces_that_stop() {
    let folder = traces();
    folder.put("short.trace", &folder.get("whole.trace")[..3 * 513 + 7]);
    let ran = folder.ends(1, "figures other.trace short.trace whole.trace");
    assert_eq!(
        ran.out,
        format!(
            "{BOARD}\n\
             other.trace: undecided at record 5, where our answer is another, since nobody said the flash: say it by --flash; the records before it are in the figures\n\
             short.trace: bad at record 3; the records before it are in the figures\n\
             whole.trace: none, every record was replayed\n\
             3 traces, 72 records replayed\n\
             traces that stopped: 1 bad, 1 undecided\n\
             \x20 14 Written            71  stored, others are missing\n\
             \x20 15 Completed           1  the last one that was missing: the file is complete\n\
             running transfers discarded: 0\n\
             at the end of the last trace: 64 blocks marked\n"
        )
    );
    let ran = folder.ends(1, "figures other.trace --flash 16K");
    let told = "other.trace: differs at record 5; the records before it are in the figures\n";
    assert!(ran.out.contains(told), "{}", ran.out);
    let ran = folder.ends(1, "figures whole.trace --flash 4096");
    assert!(
        ran.out.contains("\nwhole.trace: differs at record 0; ")
            && ran.out.contains("\n1 trace, 0 records replayed\n"),
        "{}",
        ran.out
    );
}

/// The figures of a trace are those of its load, and stop where its replay stops.
#[test]
fn as_load_and_replay() {
    let folder = traces();
    for line in ["", "--shuffle 5 --repeat 3", "--drop 3", "--flash 4096"] {
        let ran = folder.run(&format!("load blink.uf2 {line} --record t.trace"));
        let counted = |out: &str| -> Vec<(String, String)> {
            let rows = out
                .lines()
                .filter(|line| line.starts_with("  ") && !line.starts_with("   "));
            rows.map(|row| {
                let mut words = row.split_whitespace();
                (
                    words.next().unwrap_or_default().into(),
                    words.nth(1).unwrap_or_default().into(),
                )
            })
            .collect()
        };
        let board = if line.starts_with("--flash") {
            line
        } else {
            ""
        };
        let told = folder.ends(0, &format!("figures t.trace {board}"));
        assert_eq!(counted(&told.out), counted(&ran.out), "{line}");
    }
}

#[test]
fn discards_and_small_traces() {
    let folder = Folder::new();
    let first = block(FAMILY, 0x1000_0000, 0, 3, ARM_S, 7);
    let other = block(FAMILY, 0x1000_0000, 0, 2, ARM_S, 7);
    folder.put("file", [&first[..], &other].concat());
    folder.ends(1, "load file --record t.trace");
    let ran = folder.ends(0, "figures t.trace");
    assert!(
        ran.out
            .ends_with("running transfers discarded: 1\nat the end of the last trace: 1 block marked, and block 1 is the first that is missing\n"),
        "{}",
        ran.out
    );
    folder.put("empty", []);
    let ran = folder.ends(1, "figures empty");
    assert!(
        ran.out.ends_with(
            "\nempty: empty, it has no records\n1 trace, 0 records replayed\ntraces that stopped: 0 bad, 0 undecided\nrunning transfers discarded: 0\nat the end of the last trace: 0 blocks marked\n"
        ),
        "{}",
        ran.out
    );
}

#[test]
fn wrong_words() {
    let folder = traces();
    let how = "; `vantorel figures --help` says how";
    folder.wrong("figures", &format!("figures: TRACE is missing{how}"));
    folder.wrong(
        "figures whole.trace --drop 1",
        &format!("figures: no option '--drop'{how}"),
    );
    folder.wrong(
        "figures whole.trace --flash 5",
        &format!("figures: --flash is whole sectors of 4,096 bytes, from 4096 to 32M, and not 5 bytes{how}"),
    );
    folder.wrong(
        "figures whole.trace none.trace",
        "cannot read none.trace: No such file or directory",
    );
}
