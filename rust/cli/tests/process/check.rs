//! `vantorel check`.

use crate::common::{block, set, Folder, ARM_S, FAMILY, RISCV};
use crate::load::blink;

const COMMENT: u32 = 0x1;
const REGION: u32 = 0x4000;

/// The last line of what is printed.
fn last(folder: &Folder, status: i32, line: &str) -> String {
    let ran = folder.ends(status, line);
    assert_eq!(ran.err, "");
    ran.out.lines().last().unwrap_or_default().to_string()
}

#[test]
fn a_valid_file() {
    let folder = blink();
    let ran = folder.ends(0, "check blink.uf2");
    let lines: Vec<&str> = ran.out.lines().collect();
    assert_eq!(lines[0], "blink.uf2: 64 pieces of 512 bytes");
    assert_eq!(
        lines[1],
        "family arm-s (0xe48bff59): 64 pieces, total 64, data for 0x10000000 to 0x10003fff without a gap, no comments"
    );
    assert_eq!(lines[2], "regions: none; version: the file names none");
    assert!(lines[3].starts_with("board: "), "{}", lines[3]);
    assert_eq!(
        lines[5],
        "VALID: whatever order its blocks come in, and however often, Completed is answered exactly once, and then every page stands at its address."
    );
    let ran = folder.ends(0, "check blink.uf2 --flash 16K");
    assert!(!ran.out.contains("no board was given"), "{}", ran.out);
    let json = folder.ends(0, "check blink.uf2 --json").out;
    assert!(
        json.contains("\"answer\": 0, \"name\": \"0 Valid\", \"piece\": null, \"other\": null"),
        "{json}"
    );
    assert!(
        json.contains("\"ranges\": [[268435456, 268451839]], \"gaps\": []"),
        "{json}"
    );
}

/// A page is lost, and the display is told that the file is complete: two blocks name one address.
#[test]
fn two_blocks_with_one_address() {
    let folder = blink();
    let mut file = folder.get("blink.uf2");
    set(&mut file[40 * 512..], 12, 0x1000_0300);
    folder.put("twice.uf2", &file);
    assert_eq!(
        last(&folder, 1, "check twice.uf2"),
        "NOT VALID: 86 Overlap: piece 40 (block 40) and piece 3 (block 3) both hold 0x10000300 to 0x100003ff. The display would be told that the file is complete, and one of the two pages would be lost. Do not send it: get the file again."
    );
    let out = folder.ends(1, "check twice.uf2").out;
    assert!(
        out.contains(", a gap at 0x10002800 to 0x100028ff, no comments\n"),
        "{out}"
    );
    let json = folder.ends(1, "check twice.uf2 --json").out;
    assert!(json.contains("\"answer\": 86, \"name\": \"86 Overlap\", \"piece\": 40, \"other\": 3, \"block\": 40, \"valid\": false, \"covered\": false"), "{json}");
}

/// The same by a comment that has the number of a page.
#[test]
fn a_comment_with_the_number_of_a_page() {
    let folder = blink();
    let mut file = folder.get("blink.uf2");
    let comment = block(FAMILY | COMMENT, 0, 17, 64, ARM_S, 9);
    file.splice(17 * 512..17 * 512, comment);
    folder.put("comment.uf2", &file);
    assert_eq!(
        last(&folder, 1, "check comment.uf2"),
        "NOT VALID: 85 SameNumber: piece 18 (block 17, for 0x10001100 to 0x100011ff) and piece 17 (block 17, a comment) have one number. The display takes the one that comes first and drops the other, and is then told that the file is complete. Do not send it: get the file again."
    );
}

#[test]
fn cut_off_empty_and_lossy() {
    let folder = blink();
    let file = folder.get("blink.uf2");
    folder.put("short.uf2", &file[..20_000]);
    assert_eq!(
        last(&folder, 1, "check short.uf2"),
        "NOT VALID: 80 Ragged: the file has 39 whole pieces and 32 bytes more: it was cut off. Get the file again."
    );
    folder.put("empty.uf2", []);
    assert_eq!(
        last(&folder, 1, "check empty.uf2"),
        "NOT VALID: 81 Empty: the file has no block. Get the file again."
    );
    folder.put("lossy.uf2", [&file[..17 * 512], &file[18 * 512..]].concat());
    assert_eq!(
        last(&folder, 1, "check lossy.uf2"),
        "NOT VALID: 87 Missing: 63 pieces of 64; block 17 is the first that is missing, which by its neighbours is for 0x10001100. Get the file again."
    );
}

#[test]
fn other_totals_and_memories() {
    let folder = blink();
    let mut file = folder.get("blink.uf2");
    set(&mut file[5 * 512..], 24, 63);
    folder.put("total.uf2", &file);
    assert_eq!(
        last(&folder, 1, "check total.uf2"),
        "NOT VALID: 83 OtherTotal: piece 5 (block 5) says that the file has 63 blocks, and piece 0 says 64. Get the file again."
    );
    let ram = block(FAMILY, 0x2000_0000, 1, 2, ARM_S, 1);
    folder.put(
        "kinds.uf2",
        [block(FAMILY, 0x1000_0000, 0, 2, ARM_S, 1), ram].concat(),
    );
    assert_eq!(
        last(&folder, 1, "check kinds.uf2"),
        "NOT VALID: 84 OtherKind: piece 1 (block 1, for 0x20000000 to 0x200000ff) and piece 0 (block 0, for 0x10000000 to 0x100000ff) are for different memories. Get the file again."
    );
}

/// What a board refuses is told as `why` tells it.
#[test]
fn refused_by_the_board() {
    let folder = blink();
    assert_eq!(
        last(&folder, 1, "check blink.uf2 --riscv"),
        "NOT VALID: the board refuses piece 0 (block 0): 8 NoPlace: Arm is not enabled, and the board has no partition table: no place for the family arm-s (0xe48bff59)."
    );
}

/// A file for two boards: the blocks of one are a valid file, and the others are refused.
#[test]
fn blocks_of_another_family() {
    let folder = blink();
    let other = block(FAMILY, 0x1000_0000, 0, 1, RISCV, 1);
    folder.put("both.uf2", [other, folder.get("blink.uf2")].concat());
    let ran = folder.ends(1, "check both.uf2 --flash 16K");
    let lines: Vec<&str> = ran.out.lines().rev().take(2).collect();
    assert!(
        lines[1].starts_with("NOT VALID: the board refuses piece 0 (block 0): 8 NoPlace: "),
        "{}",
        ran.out
    );
    assert_eq!(
        lines[0],
        "The 64 blocks of arm-s (0xe48bff59) are a valid file; 1 other piece is refused by this board (8 NoPlace first). Sent to this board, it ends as a valid file does."
    );
}

/// A piece that stands twice changes nothing.
#[test]
fn a_piece_twice() {
    let folder = blink();
    let file = folder.get("blink.uf2");
    folder.put("again.uf2", [&file[..], &file[3 * 512..4 * 512]].concat());
    let out = folder.ends(1, "check again.uf2").out;
    assert!(
        out.contains("NOT VALID: 85 SameNumber: piece 64 (block 3) is piece 3 once more.\n"),
        "{out}"
    );
    assert!(out.ends_with("are a valid file, with 1 repeat that changes nothing. Sent to this board, it ends as a valid file does.\n"), "{out}");
}

#[test]
fn regions() {
    let folder = Folder::new();
    let mut page = block(FAMILY | REGION, 0x1000_0000, 0, 1, ARM_S, 1);
    set(&mut page, 484, 0x1000_0000);
    set(&mut page, 488, 4096);
    folder.put("region.uf2", &page);
    let out = folder.ends(1, "check region.uf2").out;
    assert!(
        out.contains("regions: named by 1 block (flag 0x4000); "),
        "{out}"
    );
    assert!(out.contains("\nNOT CHECKED WHOLE: 88 Guarded.\nIts blocks name regions (flag 0x4000). Whether their digests are right was not checked"), "{out}");
}

/// Every file that `make` makes is valid where there is room for it, and it says so of a family that no board takes.
#[test]
fn what_make_makes() {
    let folder = Folder::new();
    for (count, start) in [(1, 0x1000_0000u32), (16, 0x1000_1000), (300, 0x1000_0100)] {
        folder.put("image.bin", crate::common::pages(count));
        for family in ["data", "arm-s", "riscv", "absolute", "arm-ns", "0x12345678"] {
            let line =
                format!("make image.bin -o image.uf2 --family {family} --start 0x{start:08x}");
            assert_eq!(folder.ends(0, &line).err, "", "{line}");
        }
        folder.ends(
            0,
            "make image.bin -o image.uf2 --family data --start 0x10000000",
        );
        folder.ends(0, "check image.uf2");
        folder.ends(0, "check image.uf2 --flash 2M");
    }
    let line = "make image.bin -o image.uf2 --family rp2040 --start 0x10000000";
    let told = folder.ends(0, line).err;
    assert!(told.starts_with("vantorel: warning: image.uf2 is valid for no board: the board refuses piece 0 (block 0): 8 NoPlace: "), "{told}");
}

/// `load` never calls such a file complete without a word: a page is lost, and the status says so.
#[test]
fn load_of_what_is_not_valid() {
    let folder = blink();
    let mut file = folder.get("blink.uf2");
    set(&mut file[40 * 512..], 12, 0x1000_0300);
    folder.put("twice.uf2", &file);
    let out = folder.ends(1, "load twice.uf2").out;
    let lines: Vec<&str> = out.lines().rev().take(2).collect();
    assert!(lines[1].starts_with("NOT A VALID FILE: 86 Overlap: piece 40 (block 40) and piece 3 (block 3) both hold 0x10000300 to 0x100003ff. "), "{out}");
    assert_eq!(lines[0], "COMPLETE, AND A PAGE IS LOST: the display was told that all 64 blocks came. The page of block 3 (piece 3) does not stand at 0x10000300.");
    let json = folder.ends(1, "load twice.uf2 --json").out;
    assert!(
        json.contains("\"completed\": true")
            && json.contains("\"valid\": false")
            && json.contains("\"lost_pages\": [3]"),
        "{json}"
    );

    let mut file = folder.get("blink.uf2");
    let comment = block(FAMILY | COMMENT, 0, 17, 64, ARM_S, 9);
    file.splice(17 * 512..17 * 512, comment);
    folder.put("comment.uf2", &file);
    let out = folder.ends(1, "load comment.uf2").out;
    assert!(out.contains("\nNOT A VALID FILE: 85 SameNumber: piece 18 (block 17, for 0x10001100 to 0x100011ff) and piece 17 (block 17, a comment) have one number. "), "{out}");
    assert!(out.ends_with("COMPLETE, AND A PAGE IS LOST: the display was told that all 64 blocks came. The page of block 17 (piece 18) does not stand at 0x10001100.\n"), "{out}");

    // repeats, and what the board refuses, change nothing: demand 3 speaks of such a list
    let file = folder.get("blink.uf2");
    folder.put("again.uf2", [&file[..], &file[3 * 512..4 * 512]].concat());
    folder.ends(0, "load again.uf2");
    let other = block(FAMILY, 0x1000_0000, 0, 1, RISCV, 1);
    folder.put("both.uf2", [&other[..], &file].concat());
    folder.ends(0, "load both.uf2");
}
