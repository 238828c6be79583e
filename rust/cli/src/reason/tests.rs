//! Every reason, one by one; and no number beside them.

use super::Reason;
use std::collections::HashSet;

fn words(cause: u32, got: u64, against: u64, entry: u8, other: u8, marks: &[u8; 16]) -> String {
    super::of(&Reason {
        cause,
        got,
        against,
        entry,
        other,
        marks: *marks,
    })
}

const NO_MARKS: [u8; 16] = [0; 16];
const ARM_S: u64 = 0xe48b_ff59;

/// Cause, got, against, entry, other, the sentence.
type Row = (u32, u64, u64, u8, u8, &'static str);

const PLACES: &[Row] = &[
    (1, 0, 0, 0, 0, "the whole flash, since the family absolute is allowed"),
    (2, 0, 0, 0, 0, "the whole flash, since the board has no partition table"),
    (3, 1, 0, 5, 0, "partition 5, by pass 1: the first that accepts the family, is not owned by another and is bootable on the current architecture"),
    (3, 2, 0, 5, 0, "partition 5, by pass 2: the first that accepts the family, is not owned by another and is bootable on the other architecture, to which the board may switch"),
    (3, 3, 0, 0, 0, "partition 0, by pass 3: the first that accepts the family and is not owned by another"),
    (3, 4, 0, 15, 0, "partition 15, by pass 4: the first that accepts the family; it is owned by another"),
];

const LENGTHS: &[Row] = &[
    (
        101,
        511,
        512,
        0,
        0,
        "the piece has 511 bytes, and a block has 512 bytes",
    ),
    (
        102,
        4097,
        4096,
        0,
        0,
        "the flash has 4097 bytes, which is not whole sectors of 4096 bytes",
    ),
    (
        103,
        0,
        4096,
        0,
        0,
        "the flash has 0 bytes, less than one sector of 4096 bytes",
    ),
    (
        104,
        33_558_528,
        33_554_432,
        0,
        0,
        "the flash has 33558528 bytes, more than the 33554432 bytes that a flash may have",
    ),
    (
        105,
        1,
        16384,
        0,
        0,
        "the seen map has 1 byte, and must have 16384 bytes",
    ),
    (
        106,
        2,
        1024,
        0,
        0,
        "the sector map has 2 bytes, and must have 1024 bytes",
    ),
    (
        107,
        3,
        532_480,
        0,
        0,
        "the main RAM has 3 bytes, and must have 532480 bytes, or none where the board lacks it",
    ),
    (
        108,
        4,
        16384,
        0,
        0,
        "the XIP RAM has 4 bytes, and must have 16384 bytes, or none where the board lacks it",
    ),
];

const SETTINGS: &[Row] = &[
    (201, 0, 0, 0, 0, "the settings name a current architecture that they do not enable"),
    (202, 17, 16, 0, 0, "the settings say 17 partitions, and a table has at most 16"),
    (203, 0, 0, 3, 0, "partition 3 has no sectors"),
    (204, 36864, 32768, 2, 0, "partition 2 ends at byte 36864 of the flash, which has only 32768 bytes"),
    (205, 4, 1, 1, 4, "partition 1 shares a sector with partition 4"),
    (206, 6, 6, 6, 0, "partition 6 is linked to partition 6, which does not stand before it in the table"),
    (207, 1, 2, 2, 0, "partition 2 is linked to partition 1, which is itself the B partition of another"),
    (208, 5, 4, 7, 0, "partition 7 says 5 user families, and may have at most 4"),
    (209, 0xe48b_ff57, 0xe48b_ff56, 0, 0, "partition 0 has absolute (0xe48bff57) as a user family, and the families 0xe48bff56 to 0xe48bff5b are reserved"),
    (210, 10, 534, 0, 0, "the settings have 10 bytes, and must have 534 bytes"),
    (211, 9, 2, 8, 0, "partition 8 has a link of kind 9, and the kinds are 0 to 2"),
];

const TRANSFERS: &[Row] = &[
    (301, 0, 1, 0, 0, "the running transfer says that 0 blocks have come, and one that runs has at least 1"),
    (302, 5, 5, 0, 0, "the running transfer says that 5 blocks of 5 have come, and one that runs lacks at least one"),
    (303, 131_073, 131_072, 0, 0, "the running transfer says a total of 131073 blocks, and the most is 131072"),
    (304, 0, 1, 0, 0, "the finished transfer says a total of 0 blocks, and the least is 1"),
    (305, 131_073, 131_072, 0, 0, "the finished transfer says a total of 131073 blocks, and the most is 131072"),
    (306, 13, 14, 0, 0, "the transfer has 13 bytes, and must have 14 bytes"),
    (307, 3, 2, 0, 0, "the transfer's state or its memory has the number 3, and the numbers are 0 to 2"),
];

const HEADERS: &[Row] = &[
    (401, 1, 0x0a32_4655, 0, 0, "it is no UF2 block: its first magic number is 0x00000001 and not 0x0a324655"),
    (402, 0, 0x9e5d_5157, 0, 0, "it is no UF2 block: its second magic number is 0x00000000 and not 0x9e5d5157"),
    (403, 0xffff_ffff, 0x0ab1_6f30, 0, 0, "it is no UF2 block: its last magic number is 0xffffffff and not 0x0ab16f30"),
    (501, 0x3000, 0x1000, 0, 0, "its flags 0x00003000 have 0x1000: it belongs to a file container, which is not for the board's memory"),
    (701, 0x4000, 0x2000, 0, 0, "its flags 0x00004000 lack 0x2000: the block names no family"),
];

const NO_PLACES: &[Row] = &[
    (801, 0xe48b_ff57, 0, 0, 0, "the settings do not allow the family absolute (0xe48bff57)"),
    (802, 0xe48b_ff56, 0, 0, 0, "the family rp2040 (0xe48bff56) is of another chip, and never has a place"),
    (803, ARM_S, 0, 0, 0, "Arm is not enabled, and the board has no partition table: no place for the family arm-s (0xe48bff59)"),
    (804, 0xe48b_ff5a, 0, 0, 0, "RISC-V is not enabled, and the board has no partition table: no place for the family riscv (0xe48bff5a)"),
    (805, 7, 0, 0, 0, "the board has no partition table, and then only data, arm-s and riscv have a place: none for the family 0x00000007"),
    (807, 7, 0, 0, 0, "the family 0x00000007 may not go to RAM: only data, arm-s, riscv, arm-ns and the user families of the partition table may"),
];

const FIELDS: &[Row] = &[
    (901, 476, 256, 0, 0, "the payload has 476 bytes, and must have 256"),
    (1001, 0, 0, 0, 0, "the block says that its file has no blocks"),
    (1002, 65792, 65536, 0, 0, "the block says that its file has 257 blocks, which take 65792 bytes; there is room for 65536 bytes"),
    (1003, 9, 9, 0, 0, "the block's number is 9, and its file has only 9 blocks, counted from 0"),
    (1101, 0, 0x1000_0000, 0, 0, "the address 0x00000000 lies before the flash, which begins at 0x10000000"),
    (1102, 0x1000_0001, 256, 0, 0, "the address 0x10000001 is no multiple of 256"),
    (1103, 65792, 65536, 0, 0, "the page at the address 0x10010000 would end 65792 bytes after the start of its place, which has only 65536 bytes"),
    (1104, 0x2008_2001, 0x2008_2000, 0, 0, "the page would end at 0x20082001, past the end of the RAM at 0x20082000"),
    (1105, 0x2000_0001, 0x1200_0000, 0, 0, "the address 0x20000001 lies in no memory of this board: flash's addresses end at 0x12000000; it is one of main RAM, which this board lacks"),
    (1105, 0x13ff_c000, 0x1200_0000, 0, 0, "the address 0x13ffc000 lies in no memory of this board: flash's addresses end at 0x12000000; it is one of XIP RAM, which this board lacks"),
    (1105, 0xffff_ff00, 0x1200_0000, 0, 0, "the address 0xffffff00 lies in no memory of this board: flash's addresses end at 0x12000000"),
];

const TAKEN: &[Row] = &[
    (1201, 3, 9, 0, 0, "a file was complete already when this block came, number 3 of 9"),
    (1301, 3, 9, 0, 0, "block 3 of 9 had come before"),
    (1401, 3, 9, 0, 0, "stored, 3 of 9 blocks have come: it names no region of flash to compare with (flag 0x4000 is clear)"),
    (1402, 3, 9, 0, 0, "stored, 3 of 9 blocks have come: it goes to RAM, and only what is in flash is kept"),
    (1403, 3, 9, 0, 0, "stored, 3 of 9 blocks have come: the region that it names is not whole sectors"),
    (1404, 3, 9, 0, 0, "stored, 3 of 9 blocks have come: the region that it names is empty"),
    (1405, 3, 9, 0, 0, "stored, 3 of 9 blocks have come: the region that it names does not lie within its place"),
    (1406, 3, 9, 0, 0, "stored, 3 of 9 blocks have come: the region that it names does not hold the block's page"),
    (1407, 3, 9, 0, 0, "stored, 3 of 9 blocks have come: the flash holds something else in the region that it names"),
    (1501, 9, 9, 0, 0, "the last one that was missing: 9 of 9 blocks have come, and the file is complete"),
    (1601, 3, 9, 0, 0, "a comment, counted and not stored: 3 of 9 blocks have come"),
    (1701, 3, 9, 0, 0, "counted and not stored, since the flash holds its region already: 3 of 9 blocks have come"),
];

fn rows() -> impl Iterator<Item = &'static Row> {
    let all = [
        PLACES, LENGTHS, SETTINGS, TRANSFERS, HEADERS, NO_PLACES, FIELDS, TAKEN,
    ];
    all.into_iter().flatten()
}

#[test]
fn each_reason() {
    for (cause, got, against, entry, other, sentence) in rows() {
        let told = words(*cause, *got, *against, *entry, *other, &NO_MARKS);
        assert_eq!(told, *sentence, "{cause}");
    }
}

#[test]
fn no_a_partition() {
    let mut marks = NO_MARKS;
    marks[..3].copy_from_slice(&[2, 1, 2]);
    assert_eq!(
        words(806, ARM_S, 0, 0, 0, &marks),
        "no A partition accepts the family arm-s (0xe48bff59): partition 0 does not accept it, partition 1 is a B partition, partition 2 does not accept it"
    );
    let all = words(806, 7, 0, 0, 0, &[1; 16]);
    assert!(all.contains("0x00000007: partition 0 is a B partition,"));
    assert!(all.ends_with("partition 15 is a B partition"));
    assert!(words(806, 7, 0, 0, 0, &[3; 16]).contains("partition 0 has the UNKNOWN MARK 3"));
}

/// Every other number says that it is unknown, with what came with it.
#[test]
fn no_silent_default() {
    let known: HashSet<u32> = rows().map(|row| row.0).chain([806]).collect();
    assert_eq!(known.len(), 62);
    for cause in (0..3000).chain([u32::MAX]) {
        let told = words(cause, 3, 9, 1, 0, &NO_MARKS);
        assert_eq!(
            told.contains("UNKNOWN"),
            !known.contains(&cause),
            "{cause}: {told}"
        );
    }
    for pass in [0, 5, u64::MAX] {
        assert!(words(3, pass, 0, 0, 0, &NO_MARKS).contains("UNKNOWN CAUSE 3"));
    }
    assert_eq!(
        words(212, 3, 9, 1, 0, &NO_MARKS),
        "UNKNOWN CAUSE 212 (got 3, against 9, entry 1): the tool and its library are not of the same version"
    );
}

/// Each number has a sentence of its own, and the largest numbers are said too.
#[test]
fn different_sentences() {
    let sentences: HashSet<&str> = rows().map(|row| row.5).collect();
    assert_eq!(sentences.len(), rows().count());
    for (cause, ..) in rows() {
        assert!(!words(*cause, u64::MAX, u64::MAX, 255, 255, &[255; 16]).is_empty());
    }
}
