//! `vantorel hex`.

use crate::common::{plain, record, stored, Folder};

/// Two boards' files joined: 20 bytes for V1 from 0x100 on, and 3 for V2.
fn joined() -> Folder {
    let folder = Folder::new();
    folder.put("v1.hex", plain(0x100, &[1; 20]));
    folder.put("v2.hex", plain(0x1_fffe, &[2; 3]));
    folder.ends(0, "join v1.hex v2.hex -o both.hex");
    folder
}

#[test]
fn a_file_for_both_boards() {
    let folder = joined();
    let ran = folder.ends(0, "hex both.hex --board v1 --image v1.bin");
    let lines = String::from_utf8(folder.get("both.hex"))
        .expect("text")
        .lines()
        .count();
    assert_eq!(
        ran.out,
        format!(
            "both.hex: {lines} lines for board V1, an image of 262144 bytes\n\
             \x20 33 Stored             2  data of this board, stored\n\
             \x20 34 Passed       {:7}  any other good record\n\
             \x20 35 Ended              1  the end of the file\n\
             written: v1.bin, the image as it is now\n\
             WHOLE: the file was read to its end, and nothing was left out.\n",
            lines - 3
        )
    );
    let image = folder.get("v1.bin");
    assert_eq!(image.len(), 262_144);
    assert!(image[0x100..0x114].iter().all(|&b| b == 1));
    assert_eq!(image.iter().filter(|&&b| b != 0xFF).count(), 20);
    folder.ends(0, "hex both.hex --board V2 --image v2.bin");
    let image = folder.get("v2.bin");
    assert_eq!(image.len(), 524_288);
    assert_eq!(image[0x1_fffd..0x2_0002], [0xFF, 2, 2, 2, 0xFF]);
}

/// The trap: the file ends, and its data is not in the image.
#[test]
fn own_data_left_out() {
    let folder = joined();
    let ran = folder.ends(1, "hex both.hex --board v1 --bytes 0x110 --image v1.bin");
    assert!(
        ran.out.contains(
            "  32 Outside            1  data of this board that is not wholly in the image: LEFT OUT\n"
        ),
        "{}",
        ran.out
    );
    assert!(
        ran.out
            .contains("left out: line 4, for address 0x00000110\nwritten: v1.bin"),
        "{}",
        ran.out
    );
    assert!(ran.out.ends_with("NOT WHOLE: the file was read to its end, but 1 record for this board was left out, outside of the image.\n"));
    assert_eq!(folder.get("v1.bin").len(), 0x110);
    let ran = folder.ends(1, "hex both.hex --board v1 --bytes 1");
    assert!(
        ran.out.contains("2 records for this board were left out"),
        "{}",
        ran.out
    );
}

/// Each stored input of the program `hexlines`: the same answers, line by line, up to the first that fails.
#[test]
fn the_answers_of_hexlines() {
    let folder = Folder::new();
    let mut count = 0;
    for (path, wrote) in stored("hexlines", "hex") {
        let args = std::fs::read_to_string(path.with_extension("args")).unwrap_or_default();
        let board = match args.trim() {
            "" | "V1" => "v1",
            "V2" => "v2",
            _ => continue,
        };
        let answers = wrote
            .lines()
            .filter_map(|line| line.split(' ').nth(1)?.parse().ok());
        let mut wanted: Vec<u32> = answers.collect();
        let failed = wanted.iter().position(|k| !(32..36).contains(k));
        wanted.truncate(failed.map_or(wanted.len(), |k| k + 1));
        folder.put("in.hex", std::fs::read(&path).expect("an input"));
        let line = format!("hex in.hex --board {board} --bytes 256K -v --image out.bin");
        let ran = folder.run(&line);
        let told = ran.out.lines().filter_map(|line| {
            let (_, answer) = line.strip_prefix("line ")?.split_once(": ")?;
            answer.split(' ').next()?.parse().ok()
        });
        assert_eq!(told.collect::<Vec<u32>>(), wanted, "{}", path.display());
        let ended = wanted.last() == Some(&35);
        let whole = ended && !wanted.contains(&32);
        assert_eq!(ran.status, i32::from(!whole), "{}", path.display());
        assert_eq!(
            folder.names().contains(&"out.bin".into()),
            ended,
            "{}",
            path.display()
        );
        let _ = std::fs::remove_file(folder.path().join("out.bin"));
        count += 1;
    }
    assert!(count > 20, "{count}");
}

#[test]
fn where_it_fails() {
    let folder = joined();
    let good = String::from_utf8(folder.get("both.hex")).expect("text");
    let lines: Vec<&str> = good.lines().collect();
    let with = |k: usize, line: &str| {
        let mut lines = lines.clone();
        lines[k] = line;
        lines.join("\n") + "\n"
    };
    folder.put(
        "digit.hex",
        with(2, ":1001000001010101x1010101010101010101010101DF"),
    );
    let ran = folder.ends(1, "hex digit.hex --board v1 --image out.bin");
    assert!(ran.out.ends_with("NOT WHOLE: line 3 failed, 22 BadDigit at position 17: a character is no hex digit; its position is counted from 0 at the colon. There is no image to flash.\n"), "{}", ran.out);
    folder.put(
        "sum.hex",
        with(2, ":1001000001010101010101010101010101010101DE"),
    );
    let ran = folder.ends(1, "hex sum.hex --board v1 -v");
    assert!(ran.out.starts_with("line 1: 34 Passed\nline 2: 34 Passed\nline 3: 25 BadSum\nsum.hex: 3 lines for board V1"), "{}", ran.out);
    assert!(ran.out.ends_with("NOT WHOLE: line 3 failed, 25 BadSum: the record's checksum is wrong. There is no image to flash.\n"));
    folder.put("cut.hex", good.replace(":00000001FF\n", ""));
    let ran = folder.ends(1, "hex cut.hex --board v1 --image out.bin");
    assert!(ran.out.ends_with(
        "NOT WHOLE: the file stops before its end record. There is no image to flash.\n"
    ));
    folder.put("more.hex", good.clone() + "\n");
    let ran = folder.ends(1, "hex more.hex --board v1 --image out.bin");
    assert!(
        ran.out
            .contains("31 AfterEnd: a line after the end of the file."),
        "{}",
        ran.out
    );
    folder.put("empty.hex", "");
    let ran = folder.ends(1, "hex empty.hex --board v1 --image out.bin");
    assert!(ran.out.starts_with("empty.hex: 0 lines"));
    assert!(!folder.names().contains(&"out.bin".to_string()));
}

#[test]
fn wrong_words() {
    let folder = joined();
    let how = "; `vantorel hex --help` says how";
    for (line, why) in [
        ("hex both.hex", "--board is missing: v1 or v2"),
        (
            "hex both.hex --board v3",
            "--board is v1 or v2, and not 'v3'",
        ),
        ("hex --board v1", "FILE.hex is missing"),
        (
            "hex both.hex --board v1 --bytes 0",
            "--bytes wants a number from 1 to 1M",
        ),
        (
            "hex both.hex --board v1 --bytes 2M",
            "--bytes wants a number from 1 to 1M",
        ),
    ] {
        folder.wrong(line, &format!("hex: {why}{how}"));
    }
    folder.wrong(
        "hex none.hex --board v1",
        "cannot read none.hex: No such file or directory",
    );
    folder.wrong(
        "hex both.hex --board v1 --image x/y",
        "cannot write x/y: No such file or directory",
    );
}

/// A plain file for one board gets a hint at `join`; a broken Universal Hex file gets none.
#[test]
fn a_plain_file() {
    let folder = joined();
    let hint = " There is no image to flash. This is a plain Intel Hex file, of one board: `vantorel join V1.hex V2.hex -o OUT.hex` makes a Universal Hex file of two.\n";
    folder.put("data.hex", record(0, 0, &[1, 2]) + ":00000001FF\n");
    for name in ["v1.hex", "data.hex"] {
        let ran = folder.ends(1, &format!("hex {name} --board v1"));
        assert!(ran.out.ends_with(hint), "{}", ran.out);
    }
    let both = String::from_utf8(folder.get("both.hex")).expect("text");
    folder.put("bad.hex", both.replace(":00000001FF", ":00000001FE"));
    let ran = folder.ends(1, "hex bad.hex --board v1");
    assert!(!ran.out.contains("plain"), "{}", ran.out);
    folder.ends(0, "join v1.hex data.hex -o OUT.hex");
}

/// Records of the chip's own settings are named as such.
#[test]
fn addresses_that_no_image_has() {
    let folder = Folder::new();
    let data = plain(0x100, &[1; 20]).replace(":00000001FF\n", "");
    let all = data.clone()
        + &plain(0x1000_10c0, &[2; 4]).replace(":00000001FF\n", "")
        + &plain(0x2000_0000, &[3; 4]);
    folder.put("v1.hex", all);
    folder.put("v2.hex", plain(0, &[2; 3]));
    folder.ends(0, "join v1.hex v2.hex -o both.hex");
    let ran = folder.ends(1, "hex both.hex --board v1 --image v1.bin");
    assert!(ran.out.contains(", for address 0x100010c0: UICR, the chip's own settings, which no image of its flash has\n"), "{}", ran.out);
    assert!(
        ran.out
            .contains(", for address 0x20000000: which no image of the chip's flash has\n"),
        "{}",
        ran.out
    );
    assert!(ran.out.ends_with("2 records for this board were left out, outside of the image; no image of the chip's flash has such addresses.\n"), "{}", ran.out);
    let ran = folder.ends(1, "hex both.hex --board v1 --bytes 0x110");
    assert!(ran.out.ends_with("3 records for this board were left out, outside of the image; of 2 of them no image of the chip's flash has the address.\n"), "{}", ran.out);
}
