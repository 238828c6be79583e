//! `vantorel why`.

use crate::common::{block, pages, set, Folder, ABSOLUTE, ARM_S, FAMILY, RISCV};
use crate::load::blink;
use crate::settings::{display, TEXT};

/// Arrivals for a flash of 4,096 bytes: most of them refused, each for another reason.
fn refused() -> Vec<u8> {
    let good = |number| block(FAMILY, 0x1000_0000 + 256 * number, number, 2, ARM_S, 7);
    let with = |at, x| {
        let mut other = good(0);
        set(&mut other, at, x);
        other
    };
    let families = [RISCV, 0xe48b_ff56, 7].map(|family| with(28, family));
    let arrivals = [
        with(0, 1),
        with(4, 2),
        with(508, 3),
        with(8, 0x3000),
        with(8, 0),
        families.concat(),
        with(16, 100),
        with(24, 0),
        with(24, 17),
        with(20, 2),
        with(12, 0),
        with(12, 0x1000_0001),
        with(12, 0x1000_1000),
        good(0),
        good(0),
        good(1),
        good(1),
        good(0)[..100].to_vec(),
    ];
    arrivals.concat()
}

#[test]
fn each_arrival_that_was_not_taken() {
    let folder = Folder::new();
    folder.put("refused.uf2", refused());
    let ran = folder.ends(1, "why refused.uf2 --flash 4096");
    let lines: Vec<&str> = ran.out.lines().collect();
    assert_eq!(
        lines,
        [
            "board: a flash of 4096 bytes, Arm, absolute allowed, no partition table, no RAM",
            "arrival 0, no block: 4 NotBlock: it is no UF2 block: its first magic number is 0x00000001 and not 0x0a324655",
            "arrival 1, no block: 4 NotBlock: it is no UF2 block: its second magic number is 0x00000002 and not 0x9e5d5157",
            "arrival 2, no block: 4 NotBlock: it is no UF2 block: its last magic number is 0x00000003 and not 0x0ab16f30",
            "arrival 3, block 0: 5 Container: its flags 0x00003000 have 0x1000: it belongs to a file container, which is not for the board's memory",
            "arrival 4, block 0: 7 NoFamily: its flags 0x00000000 lack 0x2000: the block names no family",
            "arrival 5, block 0: 8 NoPlace: RISC-V is not enabled, and the board has no partition table: no place for the family riscv (0xe48bff5a)",
            "arrival 6, block 0: 8 NoPlace: the family rp2040 (0xe48bff56) is of another chip, and never has a place",
            "arrival 7, block 0: 8 NoPlace: the board has no partition table, and then only data, arm-s and riscv have a place: none for the family 0x00000007",
            "arrival 8, block 0: 9 BadPayload: the payload has 100 bytes, and must have 256",
            "arrival 9, block 0: 10 BadNumbers: the block says that its file has no blocks",
            "arrival 10, block 0: 10 BadNumbers: the block says that its file has 17 blocks, which take 4352 bytes; there is room for 4096 bytes",
            "arrival 11, block 2: 10 BadNumbers: the block's number is 2, and its file has only 2 blocks, counted from 0",
            "arrival 12, block 0: 11 BadAddress: the address 0x00000000 lies before the flash, which begins at 0x10000000",
            "arrival 13, block 0: 11 BadAddress: the address 0x10000001 is no multiple of 256",
            "arrival 14, block 0: 11 BadAddress: the page at the address 0x10001000 would end 4352 bytes after the start of its place, which has only 4096 bytes",
            "arrival 16, block 0: 13 Again: block 0 of 2 had come before",
            "arrival 18, block 1: 12 Finished: a file was complete already when this block came, number 1 of 2",
            "arrival 19, no block: 1 BadBuffers: the piece has 100 bytes, and a block has 512 bytes",
            "state: done: 2 blocks of family arm-s (0xe48bff59), into flash",
            "NOT TAKEN: 18 of 20 arrivals, for the reasons above.",
        ]
    );
    assert_eq!(ran.err, "");
}

/// What is told is what `load -v` answers, of the same arrivals.
#[test]
fn the_answers_of_load() {
    let folder = display();
    folder.put("refused.uf2", refused());
    for line in [
        "refused.uf2",
        "refused.uf2 --flash 4096 --riscv",
        "refused.uf2 --settings board.store",
        "blink.uf2 --flash 4096",
        "blink.uf2 --current riscv",
        "blink.bin",
    ] {
        let load = folder.run(&format!("load {line} -v")).out;
        let why = folder.run(&format!("why {line} -v")).out;
        let taken = ["14 Written", "15 Completed", "16 Noted", "17 Kept"];
        let load = load.lines().filter(|x| x.starts_with("arrival "));
        let load = load.filter(|x| !taken.iter().any(|answer| x.contains(answer)));
        let load: Vec<&str> = load.collect();
        let why: Vec<&str> = why.lines().filter(|x| x.starts_with("arrival ")).collect();
        assert_eq!(load.len(), why.len(), "{line}");
        for (load, why) in load.iter().zip(why) {
            assert!(why.starts_with(&format!("{load}: ")), "{load}\n{why}");
            assert!(!why.contains("UNKNOWN"), "{why}");
        }
    }
}

/// Blocks one after the other that have one reason share a line; a reason, a number or an arrival between them ends it.
#[test]
fn one_line_for_one_reason() {
    let folder = blink();
    let ran = folder.ends(1, "why blink.uf2 --riscv");
    let lines: Vec<&str> = ran.out.lines().skip(1).collect();
    assert_eq!(
        lines,
        [
            "arrivals 0 to 63, blocks 0 to 63: 8 NoPlace: Arm is not enabled, and the board has no partition table: no place for the family arm-s (0xe48bff59)",
            "state: idle: no block was taken",
            "NOT TAKEN: 64 of 64 arrivals, for the reasons above.",
        ]
    );
    let good = |number| block(FAMILY, 0x1000_0000 + 256 * number, number, 64, ARM_S, 7);
    let other = block(FAMILY, 0x1000_0000, 9, 64, RISCV, 7);
    let order = [good(0), good(1), good(1), good(2), other, good(3), good(5)];
    let none = vec![0; 1024];
    folder.put("order.uf2", [order.concat(), none].concat());
    let ran = folder.ends(1, "why order.uf2 --flash 4096");
    let numbers = |line: &str| line.split_once(": ").unwrap_or_default().0.to_string();
    let numbers: Vec<String> = ran.out.lines().skip(1).map(numbers).collect();
    assert_eq!(
        numbers,
        [
            "arrivals 0 to 1, blocks 0 to 1",
            "arrivals 2 to 3, blocks 1 to 2",
            "arrival 4, block 9",
            "arrival 5, block 3",
            "arrival 6, block 5",
            "arrivals 7 to 8, no blocks",
            "state",
            "NOT TAKEN",
        ]
    );
}

#[test]
fn one_block() {
    let folder = blink();
    let ran = folder.ends(0, "why blink.uf2 --block 17");
    assert_eq!(
        ran.out.lines().skip(1).collect::<Vec<_>>(),
        [
            "arrival 17, block 17: 14 Written: stored, 18 of 64 blocks have come: it names no region of flash to compare with (flag 0x4000 is clear)",
            "state: done: 64 blocks of family arm-s (0xe48bff59), into flash",
            "TAKEN: the one arrival of block 17.",
        ]
    );
    let ran = folder.ends(0, "why blink.uf2 --block 0x3f");
    assert!(ran.out.contains("arrival 63, block 63: 15 Completed: the last one that was missing: 64 of 64 blocks have come, and the file is complete\n"), "{}", ran.out);
    let ran = folder.ends(1, "why blink.uf2 --block 17 --flash 4096");
    assert!(
        ran.out
            .contains("\narrival 17, block 17: 10 BadNumbers: the block says that its file has 64 blocks, which take 16384 bytes; there is room for 4096 bytes\n"),
        "{}",
        ran.out
    );
    assert!(
        ran.out
            .ends_with("\nNOT TAKEN: 1 of 1 arrival of block 17, for the reasons above.\n"),
        "{}",
        ran.out
    );
    folder.put("refused.uf2", refused());
    let ran = folder.ends(1, "why refused.uf2 --flash 4096 --block 1");
    assert_eq!(ran.out.matches("\narrival ").count(), 2);
    let ran = folder.ends(0, "why blink.uf2");
    assert!(
        ran.out.ends_with("\nTAKEN: every one of 64 arrivals.\n"),
        "{}",
        ran.out
    );
}

/// RAM, comments, a transfer that is discarded, and a region that the flash holds already.
#[test]
fn blocks_of_other_kinds() {
    let folder = Folder::new();
    let ram = |address, family| block(FAMILY, address, 0, 2, family, 7);
    folder.put(
        "ram.uf2",
        [
            ram(0x2000_0000, ARM_S),
            ram(0x2008_1f80, ARM_S),
            ram(0x2000_0000, ABSOLUTE),
            block(FAMILY | 1, 0, 1, 2, ARM_S, 9),
        ]
        .concat(),
    );
    let ran = folder.ends(1, "why ram.uf2 --main-ram");
    let lines: Vec<&str> = ran.out.lines().skip(1).take(2).collect();
    assert_eq!(
        lines,
        [
            "arrival 1, block 0: 11 BadAddress: the page would end at 0x20082080, past the end of the RAM at 0x20082000",
            "arrival 2, block 0: 8 NoPlace: the family absolute (0xe48bff57) may not go to RAM: only data, arm-s, riscv, arm-ns and the user families of the partition table may",
        ]
    );
    let ran = folder.ends(1, "why ram.uf2 --xip-ram");
    assert!(
        ran.out
            .contains("; it is one of main RAM, which this board lacks\n"),
        "{}",
        ran.out
    );
    let ran = folder.ends(0, "why ram.uf2 --main-ram --block 1");
    assert!(
        ran.out.contains("arrival 3, block 1: 15 Completed: "),
        "{}",
        ran.out
    );
    let first = block(FAMILY, 0x1000_0000, 0, 3, ARM_S, 7);
    let other = block(FAMILY, 0x1000_0000, 0, 2, ARM_S, 7);
    folder.put("two.uf2", [first, other].concat());
    let ran = folder.ends(1, "why two.uf2 --block 0");
    assert!(
        ran.out
            .contains("arrival 1, block 0: 14 Written, and a running transfer was discarded: stored, 1 of 2 blocks have come: it names no region"),
        "{}",
        ran.out
    );
    let mut region = block(FAMILY | 0x4000, 0x1000_0000, 0, 2, ARM_S, 7);
    let end = 32 + 476;
    set(&mut region, end - 24, 0x1000_0000);
    set(&mut region, end - 20, 4096);
    folder.put("region.uf2", region);
    let ran = folder.ends(1, "why region.uf2 --block 0");
    assert!(
        ran.out
            .contains("14 Written: stored, 1 of 2 blocks have come: the flash holds something else in the region that it names\n"),
        "{}",
        ran.out
    );
}

#[test]
fn places() {
    let folder = display();
    let plain = "board: a flash of 32768 bytes (none was said: that of `receive`), Arm, absolute allowed, no partition table, no RAM";
    for (line, status, told) in [
        ("arm-s", 0, "family arm-s (0xe48bff59): flash 0x00000000 to 0x00007fff: the whole flash, since the board has no partition table"),
        ("absolute", 0, "family absolute (0xe48bff57): flash 0x00000000 to 0x00007fff: the whole flash, since the family absolute is allowed"),
        ("riscv", 1, "family riscv (0xe48bff5a): no place, 8 NoPlace: RISC-V is not enabled, and the board has no partition table: no place for the family riscv (0xe48bff5a)"),
        ("rp2040", 1, "family rp2040 (0xe48bff56): no place, 8 NoPlace: the family rp2040 (0xe48bff56) is of another chip, and never has a place"),
        ("0x12345678", 1, "family 0x12345678: no place, 8 NoPlace: the board has no partition table, and then only data, arm-s and riscv have a place: none for the family 0x12345678"),
    ] {
        let ran = folder.ends(status, &format!("why place {line}"));
        assert_eq!(ran.out, format!("{plain}\n{told}\n"));
    }
    let stored = "board: a flash of 1048576 bytes (none was said: as large as the file and the partitions need), Arm and RISC-V, Arm current, 3 partitions, no RAM";
    for (family, status, told) in [
        ("arm-s", 0, "family arm-s (0xe48bff59): flash 0x00002000 to 0x00041fff: partition 0, by pass 1: the first that accepts the family, is not owned by another and is bootable on the current architecture"),
        ("riscv", 0, "family riscv (0xe48bff5a): flash 0x00002000 to 0x00041fff: partition 0, by pass 3: the first that accepts the family and is not owned by another"),
        ("data", 0, "family data (0xe48bff58): flash 0x00082000 to 0x000fffff: partition 2, by pass 4: the first that accepts the family; it is owned by another"),
        ("0x12345678", 0, "family 0x12345678: flash 0x00082000 to 0x000fffff: partition 2, by pass 4: the first that accepts the family; it is owned by another"),
        ("arm-ns", 1, "family arm-ns (0xe48bff5b): no place, 8 NoPlace: no A partition accepts the family arm-ns (0xe48bff5b): partition 0 does not accept it, partition 1 is a B partition, partition 2 does not accept it"),
        ("absolute", 1, "family absolute (0xe48bff57): no place, 8 NoPlace: the settings do not allow the family absolute (0xe48bff57)"),
    ] {
        let ran = folder.ends(status, &format!("why place {family} --settings board.store"));
        assert_eq!(ran.out, format!("{stored}\n{told}\n"));
    }
    // the image of the other architecture, on a board that switches by itself: marked for it, and not marked
    let switching = TEXT.replace(
        "current = \"arm\"\n",
        "current = \"arm\"\nauto-switch = true\n",
    );
    for (text, pass) in [
        (switching.clone(), "pass 3: the first that accepts the family and is not owned by another"),
        (switching.replace("not-bootable = [\"riscv\"]\n", ""), "pass 2: the first that accepts the family, is not owned by another and is bootable on the other architecture, to which the board may switch"),
    ] {
        folder.put("switch.toml", text);
        folder.ends(0, "settings pack switch.toml -o switch.store");
        let ran = folder.ends(0, "why place riscv --settings switch.store");
        assert!(ran.out.ends_with(&format!("partition 0, by {pass}\n")), "{}", ran.out);
    }
    let ran = folder.ends(1, "why place data --settings board.store --flash 64K");
    assert!(ran.out.ends_with("family data (0xe48bff58): no place, 2 BadSettings: partition 0 ends at byte 270336 of the flash, which has only 65536 bytes\n"), "{}", ran.out);
}

/// A file that is named place, an empty file, and wrong command lines.
#[test]
fn wrong_words() {
    let folder = blink();
    folder.put("place", pages(1));
    let ran = folder.ends(1, "why ./place");
    assert!(ran
        .out
        .contains("arrival 0, no block: 1 BadBuffers: the piece has 256 bytes"));
    folder.put("empty", []);
    let ran = folder.ends(1, "why empty");
    assert!(ran.out.ends_with("\nno block came: the file is empty.\n"));
    let how = "; `vantorel why --help` says how";
    for (line, why) in [
        ("why", "FILE.uf2, or place FAMILY, is missing"),
        ("why place", "FAMILY is missing"),
        ("why place data data", "'data' is one word too many"),
        ("why blink.uf2 blink.uf2", "'blink.uf2' is one word too many"),
        ("why place arm", "no family 'arm': it is one of rp2040, absolute, data, arm-s, riscv, arm-ns, or a number of 32 bits, such as 0xe48bff59"),
        ("why place data --block 1", "--block is for the blocks of a file, and not for a place"),
        ("why blink.uf2 --block x", "--block wants a block's number, such as 17, and not 'x'"),
        ("why blink.uf2 --block 64", "--block 64: the file has no block of this number"),
        ("why blink.uf2 --drop 1", "no option '--drop'"),
    ] {
        folder.wrong(line, &format!("why: {why}{how}"));
    }
    folder.wrong("why none", "cannot read none: No such file or directory");
}

/// A file that lacks a block: every arrival is taken, and the update is never complete.
#[test]
fn a_file_that_lacks_a_block() {
    let folder = blink();
    let file = folder.get("blink.uf2");
    folder.put("lossy.uf2", [&file[..17 * 512], &file[18 * 512..]].concat());
    let ran = folder.ends(1, "why lossy.uf2");
    assert!(
        ran.out.ends_with(
            "state: running: 63 of 64 blocks of family arm-s (0xe48bff59) came, into flash\n\
             missing: block 17, which the file does not have\n\
             TAKEN: every one of 63 arrivals.\n\
             NOT COMPLETE: 1 of 64 blocks is missing, block 17. The display was never told that it is complete.\n"
        ),
        "{}",
        ran.out
    );
    let ran = folder.ends(1, "why lossy.uf2 --json");
    assert!(
        ran.out
            .contains("\"missing\": [{\"block\": 17, \"in_file\": false"),
        "{}",
        ran.out
    );
    let ran = folder.ends(0, "why blink.uf2");
    assert!(
        ran.out.ends_with("\nTAKEN: every one of 64 arrivals.\n"),
        "{}",
        ran.out
    );
}
