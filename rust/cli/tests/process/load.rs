//! `vantorel load`.

use crate::common::{block, pages, set, stored, Folder, ABSOLUTE, ARM_S, FAMILY, RISCV};

/// A folder with an image of 64 pages and the file of it.
pub fn blink() -> Folder {
    let folder = Folder::new();
    folder.put("blink.bin", pages(64));
    folder.ends(
        0,
        "make blink.bin -o blink.uf2 --family arm-s --start 0x10000000",
    );
    folder
}

const BOARD: &str = "board: a flash of 16384 bytes (none was said: as large as the file needs), Arm, absolute allowed, no partition table, no RAM";

#[test]
fn a_file_that_is_whole() {
    let folder = blink();
    let ran = folder.ends(0, "load blink.uf2 --image out.bin");
    assert_eq!(
        ran.out,
        format!(
            "blink.uf2: 64 pieces of 512 bytes, 64 arrivals\n\
             {BOARD}\n\
             \x20 14 Written         63  stored, others are missing\n\
             \x20 15 Completed        1  the last one that was missing: the file is complete\n\
             state: done: 64 blocks of family arm-s (0xe48bff59), into flash\n\
             sectors erased: 4 (0 to 3)\n\
             written: out.bin, the flash as it is now\n\
             COMPLETE: all 64 blocks came, and the display was told so.\n"
        )
    );
    assert_eq!(ran.err, "");
    assert!(folder.get("out.bin") == pages(64));
}

/// The trainer's first lesson.
#[test]
fn a_page_is_lost() {
    let folder = blink();
    let ran = folder.ends(1, "load blink.uf2 --drop 17 --image out.bin");
    assert_eq!(
        ran.out,
        format!(
            "blink.uf2: 64 pieces of 512 bytes, 63 arrivals\n\
             {BOARD}\n\
             \x20 14 Written         63  stored, others are missing\n\
             state: running: 63 of 64 blocks of family arm-s (0xe48bff59) came, into flash\n\
             sectors erased: 4 (0 to 3)\n\
             missing: block 17, whose page would stand in flash from 0x00001100 to 0x000011ff (address 0x10001100)\n\
             written: out.bin, the flash as it is now\n\
             NOT COMPLETE: 1 of 64 blocks is missing, block 17. The display was never told that it is complete. Send the file again, whole.\n"
        )
    );
    let mut lost = pages(64);
    lost[0x1100..0x1200].fill(0xFF);
    assert!(folder.get("out.bin") == lost);
}

/// Repeats do not stand in for the block that never came.
#[test]
fn repeats_do_not_count() {
    let folder = blink();
    let ran = folder.ends(1, "load blink.uf2 --drop 0x11 --repeat 3 --shuffle 5");
    assert!(ran.out.contains("  13 Again          126  "), "{}", ran.out);
    assert!(ran.out.contains("running: 63 of 64 blocks"), "{}", ran.out);
    assert!(ran.out.contains("missing: block 17, "), "{}", ran.out);
}

#[test]
fn shuffled_with_repeats_it_is_the_image() {
    let folder = blink();
    let mut orders = Vec::new();
    for seed in [0, 1, 7, 99] {
        let line = format!("load blink.uf2 -v --shuffle {seed} --repeat 3 --image out.bin");
        let ran = folder.ends(0, &line);
        assert!(folder.get("out.bin") == pages(64), "{seed}");
        assert!(ran.out.contains("192 arrivals"));
        assert!(ran.out == folder.ends(0, &line).out, "the same order again");
        orders.push(ran.out);
    }
    orders.dedup();
    assert_eq!(orders.len(), 4);
}

#[test]
fn a_line_an_arrival() {
    let folder = Folder::new();
    folder.put("image", pages(2));
    folder.ends(0, "make image -o two.uf2 --family data --start 0x10000000");
    let two = folder.get("two.uf2");
    let sent = [
        &two[..512],
        &two[..512],
        &[0; 512],
        &two[512..],
        &two[..512],
        &two[..100],
    ];
    folder.put("sent.uf2", sent.concat());
    let ran = folder.ends(1, "load sent.uf2 -v");
    let lines: Vec<&str> = ran.out.lines().take(6).collect();
    assert_eq!(
        lines,
        [
            "arrival 0, block 0: 14 Written",
            "arrival 1, block 0: 13 Again",
            "arrival 2, no block: 4 NotBlock",
            "arrival 3, block 1: 15 Completed",
            "arrival 4, block 0: 12 Finished",
            "arrival 5, no block: 1 BadBuffers",
        ]
    );
    assert!(ran.out.ends_with("\nNOT A VALID FILE: 80 Ragged: the file has 5 whole pieces and 100 bytes more: it was cut off. Get the file again.\nCOMPLETE: all 2 blocks came, and the display was told so. 2 arrivals were not taken: see above.\n"), "{}", ran.out);
}

/// Each stored input of the program `receive`, into its board: the same answers, one by one, and the same end.
#[test]
fn the_answers_of_receive() {
    let folder = Folder::new();
    let inputs = stored("receive", "uf2");
    assert!(inputs.len() > 10);
    for (path, wrote) in inputs {
        folder.put("in.uf2", std::fs::read(&path).expect("an input"));
        let ran = folder.run("load in.uf2 --flash 32768 -v");
        let told = ran.out.lines().filter(|line| line.starts_with("arrival "));
        let told: Vec<String> = told
            .enumerate()
            .filter_map(|(k, line)| {
                let (_, outcome) = line.split_once(": ")?;
                let discarded = u8::from(outcome.contains("discarded"));
                Some(format!("{k} {} {discarded}", outcome.split(' ').next()?))
            })
            .collect();
        let wanted: Vec<&str> = wrote.lines().skip(1).collect();
        let (end, wanted) = wanted.split_last().expect("a last line");
        assert_eq!(told, wanted, "{}", path.display());
        let state = end.split(' ').nth(1).expect("a state");
        assert!(
            ran.out.contains(&format!("\nstate: {state}: ")),
            "{}",
            path.display()
        );
        let whole = state == "done" && !ran.out.contains("\nNOT A VALID FILE: ");
        assert_eq!(ran.status, i32::from(!whole), "{}", path.display());
    }
}

#[test]
fn many_are_missing() {
    let folder = blink();
    let numbers: Vec<String> = (10..40).map(|k| k.to_string()).collect();
    let ran = folder.ends(1, &format!("load blink.uf2 --drop {}", numbers.join(",")));
    assert_eq!(ran.out.matches("missing: block").count(), 1);
    assert!(ran.out.contains("missing: blocks 10 to 39, whose pages would stand in flash from 0x00000a00 to 0x000027ff (addresses 0x10000a00 to 0x10002700)\n"), "{}", ran.out);
    assert!(ran.out.ends_with("NOT COMPLETE: 30 of 64 blocks are missing, blocks 10 to 39. The display was never told that it is complete. Send the file again, whole.\n"));
    assert_eq!(folder.ends(1, "load blink.uf2 --drop 10-39").out, ran.out);
    assert_eq!(
        folder.ends(1, "load blink.uf2 --drop 20-39,10,11-19").out,
        ran.out
    );
    let numbers: Vec<String> = (0..32).map(|k| (2 * k).to_string()).collect();
    let ran = folder.ends(1, &format!("load blink.uf2 --drop {}", numbers.join(",")));
    assert_eq!(ran.out.matches("missing: block ").count(), 20);
    assert!(ran.out.contains("missing: and 12 more\n"));
    assert!(ran.out.contains("NOT COMPLETE: 32 of 64 blocks are missing, blocks 0, 2, 4, 6, 8, 10, 12, 14 and 24 more. The"), "{}", ran.out);
    folder.put("cut.uf2", &folder.get("blink.uf2")[..63 * 512]);
    let ran = folder.ends(1, "load cut.uf2");
    assert!(
        ran.out
            .contains("missing: block 63, which the file does not have\n"),
        "{}",
        ran.out
    );
    assert!(ran
        .out
        .ends_with("Get the file again: it does not have block 63.\n"));
    folder.put(
        "holes.uf2",
        [
            &folder.get("blink.uf2")[..9 * 512],
            &folder.get("blink.uf2")[20 * 512..60 * 512],
        ]
        .concat(),
    );
    let ran = folder.ends(1, "load holes.uf2 --drop 30");
    assert!(ran.out.contains("missing: blocks 9 to 19, which the file does not have\nmissing: block 30, whose page would stand in flash"), "{}", ran.out);
    assert!(ran.out.ends_with("NOT COMPLETE: 16 of 64 blocks are missing, blocks 9 to 19, 30, 60 to 63. The display was never told that it is complete. Get the file again: it does not have blocks 9 to 19, 60 to 63.\n"), "{}", ran.out);
}

/// "Send the file again" is said only where that completes it.
#[test]
fn whether_sending_again_helps() {
    let folder = Folder::new();
    let page =
        |number, total, family| block(FAMILY, 0x1000_0000 + 256 * number, number, total, family, 7);
    let refused = block(FAMILY, 0x1000_0080, 1, 2, ARM_S, 7);
    folder.put("refused", [page(0, 2, ARM_S), refused].concat());
    let ran = folder.ends(1, "load refused");
    assert!(
        ran.out
            .ends_with("complete. To send the file again does not help: see above.\n"),
        "{}",
        ran.out
    );
    // each of two files in one discards the other
    let two = [
        page(0, 2, ARM_S),
        page(0, 2, RISCV),
        page(1, 2, ARM_S),
        page(1, 2, RISCV),
    ];
    folder.put("two", two.concat());
    let ran = folder.ends(1, "load two --arm --riscv");
    assert!(ran.out.ends_with("1 of 2 blocks is missing, block 0. The display was never told that it is complete. To send the file again does not help: see above.\n"), "{}", ran.out);
}

/// Transfers that were discarded have erased sectors too.
#[test]
fn sectors_of_discarded_transfers() {
    let folder = Folder::new();
    let at = |sector: u32, total, family| {
        block(FAMILY, 0x1000_0000 + 4096 * sector, 0, total, family, 7)
    };
    let blocks = [at(3, 2, ARM_S), at(5, 3, ARM_S), at(1, 1, RISCV)];
    folder.put("file", blocks.concat());
    let ran = folder.ends(1, "load file --arm --riscv");
    assert!(
        ran.out.contains("\nNOT A VALID FILE: 83 OtherTotal: "),
        "{}",
        ran.out
    );
    assert!(
        ran.out
            .contains("a running transfer was discarded: 2 times\n"),
        "{}",
        ran.out
    );
    assert!(ran.out.contains("\nsectors erased by the last transfer: 1 (1)\nsectors erased by transfers that were discarded: 2 (3, 5)\n"), "{}", ran.out);
    let ram = block(FAMILY, 0x2000_0000, 0, 1, ARM_S, 7);
    folder.put("ram", [at(3, 2, ARM_S), ram].concat());
    let ran = folder.ends(1, "load ram --main-ram");
    assert!(ran.out.contains("\nNOT A VALID FILE: "), "{}", ran.out);
    assert!(ran.out.contains("\nsectors erased by the last transfer: none\nsectors erased by transfers that were discarded: 1 (3)\n"), "{}", ran.out);
}

#[test]
fn nothing_is_taken() {
    let folder = blink();
    folder.put("empty", []);
    let ran = folder.ends(1, "load empty");
    assert!(ran.out.starts_with("empty: 0 pieces of 512 bytes, 0 arrivals\nboard: a flash of 32768 bytes (none was said: that of `receive`), Arm"));
    assert!(ran.out.ends_with("sectors erased: none\nNOT COMPLETE: no block came. The display was never told that it is complete.\n"));
    let ran = folder.ends(1, "load blink.bin");
    assert!(ran.out.ends_with("NOT COMPLETE: no block was taken (32 times 4 NotBlock; the first: it is no UF2 block: its first magic number is 0xb4815e3c and not 0x0a324655). The display was never told that it is complete.\n"), "{}", ran.out);
    let ran = folder.ends(1, "load blink.uf2 --flash 4096");
    assert!(ran.out.contains("board: a flash of 4096 bytes, Arm"));
    assert!(ran.out.contains("  10 BadNumbers      64  "), "{}", ran.out);
    let ran = folder.ends(1, "load blink.uf2 --current riscv");
    assert!(
        ran.out
            .contains("the settings are not good for this flash\n    arrival 0, block 0: the settings name a current architecture that they do not enable\n"),
        "{}",
        ran.out
    );
}

#[test]
fn the_switches_of_a_board() {
    let folder = Folder::new();
    for (name, family) in [("arm", ARM_S), ("riscv", RISCV), ("absolute", ABSOLUTE)] {
        folder.put(name, block(FAMILY, 0x1000_0000, 0, 1, family, 7));
    }
    for (line, status) in [
        ("load arm", 0),
        ("load riscv", 1),
        ("load absolute", 0),
        ("load absolute --arm", 1),
        ("load absolute --arm --absolute", 0),
        ("load riscv --riscv", 0),
        ("load arm --riscv", 1),
        ("load arm --arm --riscv --current riscv", 0),
        ("load riscv --arm --riscv --auto-switch", 0),
    ] {
        let ran = folder.ends(status, line);
        assert_eq!(ran.out.contains("8 NoPlace"), status == 1, "{line}");
    }
}

#[test]
fn a_file_for_ram() {
    let folder = Folder::new();
    let blocks = [0, 1, 2].map(|k| block(FAMILY, 0x2000_0000 + 256 * k, k, 3, ARM_S, k as u8));
    folder.put("ram.uf2", blocks.concat());
    let ran = folder.ends(0, "load ram.uf2 --main-ram --image out.bin");
    assert!(ran.out.contains("state: done: 3 blocks of family arm-s (0xe48bff59), into main RAM\nwritten: out.bin, the main RAM"), "{}", ran.out);
    let image = folder.get("out.bin");
    assert_eq!(image.len(), 532_480);
    assert!(image[256..512].iter().all(|&b| b == 1) && image[512..768].iter().all(|&b| b == 2));
    let ran = folder.ends(1, "load ram.uf2 --main-ram --drop 1");
    assert!(ran.out.contains("missing: block 1, whose page would stand in main RAM from 0x00000100 to 0x000001ff (address 0x20000100)"), "{}", ran.out);
    let ran = folder.ends(1, "load ram.uf2 --xip-ram");
    assert!(ran.out.contains("  11 BadAddress       3  "), "{}", ran.out);
}

/// The reason of the first arrival with each answer by which a block is refused is the one that `why` gives.
#[test]
fn why_blocks_are_refused() {
    let folder = Folder::new();
    folder.put(
        "board.toml",
        "arm = true\ncurrent = \"arm\"\n[[partition]]\nfirst = 2\nsectors = 2\naccepts = [\"arm-s\"]\n",
    );
    folder.ends(0, "settings pack board.toml -o board.store");
    let page = |address, number| block(FAMILY, address, number, 32, ARM_S, 7);
    let far = [page(0x1000_2000, 0), page(0x1000_2100, 1)].concat();
    let other = block(FAMILY, 0x1000_0000, 2, 32, RISCV, 7);
    folder.put("file", [&far[..], &other, &page(0x1000_0000, 3)].concat());
    let board = "--settings board.store --flash 64K";
    let ran = folder.ends(1, &format!("load file {board}"));
    // a multiple of 256 within the flash, and past the partition of two sectors
    assert!(ran.out.contains("  11 BadAddress       2  the address is in no window, past the end of the place or the RAM, or in flash no multiple of 256\n    arrival 0, block 0: the page at the address 0x10002000 would end 8448 bytes after the start of its place, which has only 8192 bytes\n"), "{}", ran.out);
    assert!(ran.out.contains("    arrival 2, block 2: no A partition accepts the family riscv (0xe48bff5a): partition 0 does not accept it\n"), "{}", ran.out);
    let why = folder.ends(1, &format!("why file {board} -v")).out;
    for line in ran.out.lines().filter(|line| line.starts_with("    ")) {
        let (arrival, reason) = line.trim().split_once(": ").expect("a reason");
        let told = why
            .lines()
            .find(|line| line.starts_with(&format!("{arrival}: ")));
        assert!(
            told.is_some_and(|told| told.ends_with(reason)),
            "{line}\n{why}"
        );
    }
}

#[test]
fn what_the_flash_held_before() {
    let folder = Folder::new();
    folder.put("before", [0x55; 8193]);
    folder.put("one.uf2", block(FAMILY, 0x1000_1000, 0, 1, ARM_S, 7));
    let ran = folder.ends(0, "load one.uf2 --start-image before --image out.bin");
    assert!(
        ran.out.contains("a flash of 12288 bytes (none was said"),
        "{}",
        ran.out
    );
    let flash = folder.get("out.bin");
    assert!(flash[..4096].iter().all(|&b| b == 0x55));
    assert!(flash[4096..4352].iter().all(|&b| b == 7));
    assert!(flash[4352..8192].iter().all(|&b| b == 0xFF));
    assert_eq!(flash[8192..8194], [0x55, 0xFF]);
    folder.wrong(
        "load one.uf2 --start-image before --flash 8192",
        "the start image has 8193 bytes, and the flash only 8192",
    );
    folder.wrong(
        "load one.uf2 --start-image none",
        "cannot read none: No such file or directory",
    );
}

/// Comments, a transfer that is discarded, and a block that the board refuses though the file needs it.
#[test]
fn files_of_other_kinds() {
    let folder = Folder::new();
    let comment = block(FAMILY | 1, 0, 1, 3, ARM_S, 9);
    let good = block(FAMILY, 0x1000_0000, 0, 3, ARM_S, 7);
    let bad = block(FAMILY, 0x1000_0080, 2, 3, ARM_S, 7);
    folder.put("file", [&good[..], &comment, &bad].concat());
    let ran = folder.ends(1, "load file");
    assert!(
        ran.out.contains("  16 Noted            1  a comment"),
        "{}",
        ran.out
    );
    assert!(
        ran.out
            .contains("missing: block 2, which the board refuses: 11 BadAddress: the address 0x10000080 is no multiple of 256\n"),
        "{}",
        ran.out
    );
    let ran = folder.ends(1, "load file --drop 1,2");
    assert!(
        ran.out
            .contains("missing: block 1, a comment, which is counted and stands nowhere"),
        "{}",
        ran.out
    );
    let other = block(FAMILY, 0x1000_0000, 0, 1, RISCV, 7);
    folder.put("two", [&good[..], &other].concat());
    let ran = folder.ends(1, "load two --arm --riscv -v");
    assert!(ran.out.contains("\nNOT A VALID FILE: 82 OtherFamily: piece 1 (block 0) is of the family riscv (0xe48bff5a), and piece 0 of arm-s (0xe48bff59). "), "{}", ran.out);
    assert!(ran
        .out
        .contains("arrival 1, block 0: 15 Completed, and a running transfer was discarded\n"));
    assert!(ran
        .out
        .contains("a running transfer was discarded: 1 time\n"));
    assert!(
        ran.out
            .contains("COMPLETE: its one block came, and the display was told so.\n"),
        "{}",
        ran.out
    );
    // a file of another family after the one that was completed
    folder.put("after", [&other[..], &good].concat());
    let ran = folder.ends(1, "load after --arm --riscv");
    assert!(
        ran.out
            .ends_with("told so. 1 arrival was not taken: see above.\n"),
        "{}",
        ran.out
    );
    let mut container = other.clone();
    set(&mut container, 8, 0x3000);
    let mut none = other;
    set(&mut none, 8, 0);
    folder.put("refused", [container, none].concat());
    let ran = folder.ends(1, "load refused");
    assert!(
        ran.out.contains("  5 Container         1  ")
            && ran.out.contains("  7 NoFamily          1  "),
        "{}",
        ran.out
    );
}

#[test]
fn wrong_words() {
    let folder = blink();
    let how = "; `vantorel load --help` says how";
    for (line, why) in [
        ("load", "FILE.uf2 is missing"),
        ("load a b", "'b' is one word too many"),
        (
            "load blink.uf2 --drop x",
            "--drop wants block numbers with commas between them, such as 3-9,17, and not 'x'",
        ),
        (
            "load blink.uf2 --drop 1,",
            "--drop wants block numbers with commas between them, such as 3-9,17, and not '1,'",
        ),
        (
            "load blink.uf2 --drop 9-3",
            "--drop wants block numbers with commas between them, such as 3-9,17, and not '9-3'",
        ),
        (
            "load blink.uf2 --drop 60-4294967295",
            "--drop 64: the file has no block of this number",
        ),
        (
            "load blink.uf2 --drop 64",
            "--drop 64: the file has no block of this number",
        ),
        (
            "load blink.uf2 --repeat 0",
            "--repeat wants a number from 1 to 1000",
        ),
        (
            "load blink.uf2 --shuffle seven",
            "--shuffle wants a number, such as 4096, 0x1000, 64K or 2M, and not 'seven'",
        ),
        (
            "load blink.uf2 --flash 1000",
            "--flash is whole sectors of 4,096 bytes, from 4096 to 32M, and not 1000 bytes",
        ),
        (
            "load blink.uf2 --flash 0",
            "--flash is whole sectors of 4,096 bytes, from 4096 to 32M, and not 0 bytes",
        ),
        (
            "load blink.uf2 --flash 33M",
            "--flash is whole sectors of 4,096 bytes, from 4096 to 32M, and not 34603008 bytes",
        ),
        (
            "load blink.uf2 --current x86",
            "--current is arm or riscv, and not 'x86'",
        ),
        ("load blink.uf2 --flash", "--flash wants a value"),
        ("load blink.uf2 -v -v", "-v is said twice"),
        ("load blink.uf2 --fast", "no option '--fast'"),
    ] {
        folder.wrong(line, &format!("load: {why}{how}"));
    }
    folder.wrong(
        "load none.uf2",
        "cannot read none.uf2: No such file or directory",
    );
    folder.wrong(
        "load blink.uf2 --image x/y",
        "cannot write x/y: No such file or directory",
    );
    folder.wrong(
        "load blink.uf2 --image x --record x",
        "the outputs x and x are the same file; give one of them another name",
    );
    assert_eq!(folder.names(), ["blink.bin", "blink.uf2"]);
}

/// Another build of as many blocks, after the first was stopped half way: the receiver says complete, and the memory holds a mixture.
#[test]
fn two_builds_of_one_size() {
    let folder = blink();
    let other: Vec<u8> = pages(64).iter().map(|byte| !byte).collect();
    folder.put("other.bin", other);
    folder.ends(
        0,
        "make other.bin -o other.uf2 --family arm-s --start 0x10000000",
    );
    let mut both = folder.get("blink.uf2")[..32 * 512].to_vec();
    both.extend(folder.get("other.uf2"));
    folder.put("both.uf2", both);
    let ran = folder.ends(1, "load both.uf2");
    assert!(ran.out.ends_with(
        "COMPLETE, AND 32 PAGES ARE LOST: the display was told that all 64 blocks came. The page of block 0 (piece 32) does not stand at 0x10000000.\n"
    ));
}
