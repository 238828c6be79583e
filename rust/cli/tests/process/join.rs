//! `vantorel join`.

use crate::common::{plain, record, Folder};

const END: &str = ":00000001FF\n";

#[test]
fn one_file_from_two() {
    let folder = Folder::new();
    let (one, two): (Vec<u8>, Vec<u8>) = ((0..200).collect(), (0..100).rev().collect());
    folder.put("v1.hex", plain(0xfff8, &one));
    folder.put("v2.hex", plain(0x2_0000, &two).replace('\n', "\r\n"));
    let ran = folder.ends(0, "join v1.hex v2.hex -o both.hex");
    let file = folder.get("both.hex");
    let lines = file.iter().filter(|&&c| c == b'\n').count();
    let told = format!(
        "both.hex: {} bytes, {lines} lines, for V1 and V2\n",
        file.len()
    );
    assert_eq!(ran.out, told);
    folder.ends(0, "hex both.hex --board v1 --image v1.bin");
    folder.ends(0, "hex both.hex --board v2 --image v2.bin");
    let (v1, v2) = (folder.get("v1.bin"), folder.get("v2.bin"));
    assert!(v1[0xfff8..][..200] == one && v2[0x2_0000..][..100] == two);
    assert_eq!(v1[0xfff7], 0xFF);
}

#[test]
fn inputs_that_are_bad() {
    let folder = Folder::new();
    let good = plain(0, &[1, 2, 3]);
    folder.put("good.hex", &good);
    let data = record(0, 0, &[1, 2, 3]);
    for (text, why) in [
        (format!("\n{END}"), "20 NoColon: bad.hex, the file for V2, at line 1: the line is empty or does not begin with a colon"),
        (format!("{data}:00\n{END}"), "21 BadShape: bad.hex, the file for V2, at line 2: the line has under 11, over 521 or an even number of characters"),
        (format!("{data}:0000000GFF\n"), "22 BadDigit: bad.hex, the file for V2, at line 2, position 8: a character is no hex digit; its position is counted from 0 at the colon"),
        (record(0, 0, &[0; 33]), "23 TooLong: bad.hex, the file for V2, at line 1: the record says more than 32 data bytes"),
        (":0100000000FF00\n".into(), "24 BadLength: bad.hex, the file for V2, at line 1: the record's length is not the one that it says"),
        (":00000001FE\n".into(), "25 BadSum: bad.hex, the file for V2, at line 1: the record's checksum is wrong"),
        (record(6, 0, &[]), "26 OutOfPlace: bad.hex, the file for V2, at line 1: a type over 05, or a length that the type does not have"),
        (data.clone(), "26 OutOfPlace: bad.hex, the file for V2, at the end: no 01 at the end"),
        (record(0, 0xffff, &[1, 2]) + END, "29 Crosses: bad.hex, the file for V2, at line 1: data past the 65,536 bytes that one 02 or 04 reaches"),
        (END.into(), "30 MissingBoard: bad.hex, the file for V2, at the end: no data byte"),
        (format!("{data}{END}{data}"), "31 AfterEnd: bad.hex, the file for V2, at line 3: a line after the 01"),
    ] {
        folder.put("bad.hex", text);
        let ran = folder.ends(1, "join good.hex bad.hex -o out.hex");
        assert_eq!(ran.err, format!("vantorel: nothing was written: {why}\n"));
        assert_eq!(ran.out, "");
        // V1's file is read first
        let ran = folder.ends(1, "join bad.hex bad.hex -o out.hex");
        assert!(ran.err.contains("bad.hex, the file for V1, at "), "{}", ran.err);
    }
    assert_eq!(folder.names(), ["bad.hex", "good.hex"]);
}

#[test]
fn files_that_are_too_long() {
    let folder = Folder::new();
    folder.put("good.hex", plain(0, &[1, 2, 3]));
    folder.put("long.hex", plain(0, &vec![1; 1_600_000]));
    let ran = folder.ends(1, "join good.hex long.hex -o out.hex");
    assert!(
        ran.err
            .contains("36 FileTooLong: long.hex, the file for V2, at line "),
        "{}",
        ran.err
    );
    folder.put("half.hex", plain(0, &vec![1; 800_000]));
    let ran = folder.ends(1, "join half.hex half.hex -o out.hex");
    assert_eq!(ran.err, "vantorel: nothing was written: 36 FileTooLong: the output over 4,194,304 bytes, or longer than what is lent\n");
    assert!(!folder.names().contains(&"out.hex".to_string()));
}

#[test]
fn wrong_words() {
    let folder = Folder::new();
    folder.put("a.hex", plain(0, &[1]));
    let how = "; `vantorel join --help` says how";
    for (line, why) in [
        (
            "join a.hex a.hex",
            "-o is missing: the name of the file to write",
        ),
        ("join -o out", "V1.hex is missing"),
        ("join a.hex -o out", "V2.hex is missing"),
        (
            "join a.hex a.hex a.hex -o out",
            "'a.hex' is one word too many",
        ),
        ("join a.hex a.hex -o", "-o wants a value"),
    ] {
        folder.wrong(line, &format!("join: {why}{how}"));
    }
    folder.wrong(
        "join a.hex none -o out",
        "cannot read none: No such file or directory",
    );
    folder.wrong(
        "join a.hex a.hex -o a.hex",
        "the output a.hex is the same file as the input a.hex; give the output another name",
    );
    folder.wrong(
        "join a.hex a.hex -o x/y",
        "cannot write x/y: No such file or directory",
    );
    assert_eq!(folder.names(), ["a.hex"]);
}
