//! `vantorel make`.

use crate::common::{pages, Folder};

#[test]
fn a_file_is_made() {
    let folder = Folder::new();
    folder.put("blink.bin", pages(3));
    let ran = folder.ends(
        0,
        "make blink.bin -o a.uf2 --family arm-s --start 0x10000100",
    );
    assert_eq!(
        ran.out,
        "a.uf2: 3 blocks of family arm-s (0xe48bff59), for 0x10000100 to 0x100003ff\n"
    );
    assert_eq!(ran.err, "");
    let file = folder.get("a.uf2");
    assert_eq!(file.len(), 3 * 512);
    for (k, page) in pages(3).chunks(256).enumerate() {
        let block = &file[k * 512..][..512];
        assert_eq!(&block[32..288], page);
        assert_eq!(block[20..24], (k as u32).to_le_bytes());
        assert_eq!(block[12..16], (0x1000_0100 + 256 * k as u32).to_le_bytes());
    }
    // the same by other words
    folder.ends(
        0,
        "make --start=268435712 --family 0xe48bff59 -o b.uf2 blink.bin",
    );
    folder.ends(
        0,
        "make --start 0x10000100 --family 3834380121 -o c.uf2 -- blink.bin",
    );
    assert!(folder.get("b.uf2") == file && folder.get("c.uf2") == file);
    // a file that is there is replaced
    folder.ends(
        0,
        "make blink.bin -o b.uf2 --family data --start 0x10000000",
    );
    assert!(folder.get("b.uf2") != file);
    assert_eq!(folder.names(), ["a.uf2", "b.uf2", "blink.bin", "c.uf2"]);
}

#[test]
fn images_of_which_no_file_is_made() {
    let folder = Folder::new();
    folder.put("empty", []);
    folder.put("ragged", [7; 300]);
    folder.put("two", [7; 512]);
    for (image, start, why) in [
        ("empty", "0x10000000", "50 BadImage: the image is empty, or no whole pages of 256 bytes: empty has 0 bytes"),
        (
            "ragged",
            "0x10000000",
            "50 BadImage: the image is empty, or no whole pages of 256 bytes: ragged has 300 bytes; --pad 0xFF or --pad 0x00 fills it up to 512",
        ),
        (
            "two",
            "0x11ffff00",
            "52 PastWindow: the image runs past 0x12000000: two has 512 bytes, from 0x11ffff00 on",
        ),
    ] {
        let line = format!("make {image} -o out.uf2 --family data --start {start}");
        let ran = folder.ends(1, &line);
        assert_eq!(ran.err, format!("vantorel: nothing was made: {why}\n"));
        assert_eq!(ran.out, "");
        let ran = folder.ends(1, &format!("{line} --json"));
        assert!(ran.out.contains("\"made\": false"), "{}", ran.out);
    }
    assert_eq!(folder.names(), ["empty", "ragged", "two"]);
}

#[test]
fn wrong_words() {
    let folder = Folder::new();
    folder.put("one", [7; 256]);
    let how = "; `vantorel make --help` says how";
    for (line, why) in [
        ("make one", "-o is missing: the name of the file to make"),
        ("make one -o out", "--family is missing: a name or a number"),
        ("make one -o out --family data", "--start is missing: the address of the image's first byte"),
        ("make -o out --family data --start 0x10000000", "IMAGE is missing"),
        ("make one two -o out --family data --start 0x10000000", "'two' is one word too many"),
        (
            "make one -o out --family e48bff59 --start 0x10000000",
            "no family 'e48bff59': it is one of rp2040, absolute, data, arm-s, riscv, arm-ns, or a number of 32 bits, such as 0xe48bff59",
        ),
        (
            "make one -o out --family data --start 1000000x",
            "--start wants an address, such as 0x10000000, and not '1000000x'",
        ),
        (
            "make one -o out --family data --start 10000000",
            "51 BadStart: the start is not from 0x10000000 up to, not including, 0x12000000, or no multiple of 256: one cannot start at 0x00989680 (hex numbers begin with 0x)",
        ),
        ("make one -o out --family data --start 0x10000000 -v", "no option '-v'"),
    ] {
        folder.wrong(line, &format!("make: {why}{how}"));
    }
    assert_eq!(folder.names(), ["one"]);
}

#[test]
fn files_that_cannot_be_read_or_written() {
    let folder = Folder::new();
    folder.put("one", [7; 256]);
    std::fs::create_dir(folder.path().join("folder")).expect("a folder");
    let line =
        |image: &str, out: &str| format!("make {image} -o {out} --family data --start 0x10000000");
    for (image, out, why) in [
        ("none", "out", "cannot read none: No such file or directory"),
        ("folder", "out", "cannot read folder: Is a directory"),
        ("one", "folder", "cannot write folder: it is a directory"),
        (
            "one",
            "nowhere/out",
            "cannot write nowhere/out: No such file or directory",
        ),
        (
            "one",
            "one",
            "the output one is the same file as the input one; give the output another name",
        ),
        (
            "one",
            "./one",
            "the output ./one is the same file as the input one; give the output another name",
        ),
        (
            "one",
            "folder/../one",
            "the output folder/../one is the same file as the input one; give the output another name",
        ),
    ] {
        folder.wrong(&line(image, out), why);
    }
    assert_eq!(folder.get("one"), [7; 256]);
    assert_eq!(folder.names(), ["folder", "one"]);
    // a device is written to, and stays a device
    folder.ends(0, &line("one", "/dev/null"));
    assert!(!std::fs::metadata("/dev/null").expect("a device").is_file());
}

/// What a link points to is replaced, and the link stays.
#[cfg(unix)]
#[test]
fn a_link_stays() {
    let folder = Folder::new();
    folder.put("one", [7; 256]);
    folder.put("real", []);
    std::os::unix::fs::symlink("real", folder.path().join("link")).expect("a link");
    folder.ends(0, "make one -o link --family data --start 0x10000000");
    assert_eq!(folder.get("real").len(), 512);
    assert!(folder.path().join("link").is_symlink());
}

/// With a region for each sector: what it is for. Half of the file is sent, then the whole over what the flash holds: the blocks of the two
/// sectors that are whole are kept, and the others are written.
#[test]
fn a_file_with_regions_goes_on_after_a_cut() {
    let folder = Folder::new();
    folder.put("blink.bin", pages(64));
    let ran = folder.ends(
        0,
        "make blink.bin -o blink.uf2 --family arm-s --start 0x10000000 --regions",
    );
    assert_eq!(
        ran.out,
        "blink.uf2: 64 blocks of family arm-s (0xe48bff59), for 0x10000000 to 0x10003fff, 4 regions\n"
    );
    assert_eq!(ran.err, "");
    let cut = "load blink.uf2 --flash 16384 --drop 35-63 --image cut.bin";
    folder.ends(1, cut);
    let again = "load blink.uf2 --flash 16384 --start-image cut.bin --image end.bin --json";
    let ran = folder.ends(0, again);
    assert!(ran.out.contains("\"Kept\", \"count\": 32"), "{}", ran.out);
    assert_eq!(folder.get("end.bin"), pages(64));
    // once more: all but the last are kept
    let again = "load blink.uf2 --flash 16384 --start-image end.bin --image same.bin --json";
    let ran = folder.ends(0, again);
    assert!(ran.out.contains("\"Kept\", \"count\": 63"), "{}", ran.out);
    assert_eq!(folder.get("same.bin"), pages(64));
    // the refusals are the same
    let ran = folder.ends(
        1,
        "make blink.bin -o no.uf2 --family arm-s --start 0x11fff000 --regions",
    );
    assert!(ran.err.contains("52 PastWindow"), "{}", ran.err);
}

/// How many regions are told: sectors that begin before the image and end after it count.
#[test]
fn regions_are_the_sectors_touched() {
    let folder = Folder::new();
    folder.put("two", pages(2));
    for (start, regions) in [
        ("0x10000000", "1 region"),
        ("0x10000e00", "1 region"),
        ("0x10000f00", "2 regions"),
    ] {
        let line = format!("make two -o out.uf2 --family data --start {start} --regions");
        let ran = folder.ends(0, &line);
        assert!(ran.out.ends_with(&format!(", {regions}\n")), "{}", ran.out);
    }
    let ran = folder.ends(
        0,
        "make two -o out.uf2 --family data --start 0x10000000 --regions --json",
    );
    assert!(ran.out.contains("\"regions\": true"), "{}", ran.out);
}

/// An image that is no whole number of pages is filled up where that is said.
#[test]
fn the_last_page_filled_up() {
    let folder = Folder::new();
    folder.put("ragged", [7; 300]);
    folder.put("whole", [7; 256]);
    for (pad, byte) in [
        ("0xFF", 0xFF),
        ("0xff", 0xFF),
        ("255", 0xFF),
        ("0x00", 0),
        ("0", 0),
    ] {
        let line = format!("make ragged -o out.uf2 --family arm-s --start 0x10000000 --pad {pad}");
        let ran = folder.ends(0, &line);
        assert_eq!(ran.out, "out.uf2: 2 blocks of family arm-s (0xe48bff59), for 0x10000000 to 0x100001ff, the last 212 bytes by --pad\n");
        let file = folder.get("out.uf2");
        assert!(file[512 + 32..512 + 76].iter().all(|&b| b == 7));
        assert!(file[512 + 76..512 + 288].iter().all(|&b| b == byte));
    }
    let line = "--family arm-s --start 0x10000000 --pad 0xFF";
    let ran = folder.ends(0, &format!("make whole -o out.uf2 {line}"));
    assert!(
        ran.out.ends_with("for 0x10000000 to 0x100000ff\n"),
        "{}",
        ran.out
    );
    folder.put("empty", []);
    let ran = folder.ends(1, &format!("make empty -o no.uf2 {line}"));
    assert!(ran.err.contains("50 BadImage"), "{}", ran.err);
    folder.wrong(
        "make ragged -o no.uf2 --family arm-s --start 0x10000000 --pad 7",
        "make: --pad is 0xFF or 0x00; `vantorel make --help` says how",
    );
}

/// What begins as another kind of file is made, with a warning.
#[test]
fn what_begins_as_no_image() {
    let folder = Folder::new();
    for (start, kind) in [
        (&b"UF2\nWQ]\x9e"[..], "a UF2 file"),
        (b"\x7fELF\x01", "an ELF file"),
        (b":020000040000FA\n", "an Intel Hex file"),
    ] {
        let mut image = [0; 256];
        image[..start.len()].copy_from_slice(start);
        folder.put("image", image);
        let ran = folder.ends(0, "make image -o out.uf2 --family arm-s --start 0x10000000");
        assert_eq!(ran.err, format!("vantorel: warning: image begins as {kind}, which is no image: its bytes are taken as they are\n"));
    }
    folder.put("image", [b':'; 256]);
    let ran = folder.ends(
        0,
        "make image -o out.uf2 --family RP2350_ARM_S --start 0x10000000",
    );
    assert_eq!(ran.err, "");
    assert!(
        ran.out.contains("of family arm-s (0xe48bff59)"),
        "{}",
        ran.out
    );
}
