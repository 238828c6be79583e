//! `vantorel tags`.

use crate::common::{block, Folder, ARM_S, FAMILY};

/// A block with bytes after its page, and the flag of tags.
fn tagged(number: u32, bytes: &[u8]) -> Vec<u8> {
    let mut block = block(
        FAMILY | 0x8000,
        0x1000_0000 + 256 * number,
        number,
        2,
        ARM_S,
        7,
    );
    block[288..288 + bytes.len()].copy_from_slice(bytes);
    block
}

/// A tag, filled up to a multiple of 4.
pub fn tag(kind: u32, contents: &[u8]) -> Vec<u8> {
    let [a, b, c, _] = kind.to_le_bytes();
    let mut tag = vec![contents.len() as u8 + 4, a, b, c];
    tag.extend_from_slice(contents);
    tag.resize(tag.len().next_multiple_of(4), 0);
    tag
}

const VERSION: u32 = 0x9f_c7bc;

/// A file that names its version, its device and its page size.
pub fn display() -> Vec<u8> {
    let first = [
        tag(VERSION, b"0.1.2"),
        tag(0x65_0d9d, b"ACME Toaster mk3"),
        tag(0x0b_e9f7, &[0, 1, 0, 0]),
        tag(0x12_3456, &[0xde, 0xad]),
    ];
    let plain = block(FAMILY, 0x1000_0100, 1, 2, ARM_S, 7);
    [tagged(0, &first.concat()), plain].concat()
}

#[test]
fn the_tags_and_the_version() {
    let folder = Folder::new();
    folder.put("display.uf2", display());
    let ran = folder.ends(0, "tags display.uf2");
    assert_eq!(
        ran.out,
        "piece 0, block 0: version (0x9fc7bc): \"0.1.2\"\n\
         piece 0, block 0: device (0x650d9d): \"ACME Toaster mk3\"\n\
         piece 0, block 0: page size (0x0be9f7): 00 01 00 00\n\
         piece 0, block 0: another type (0x123456): de ad\n\
         display.uf2: 2 pieces, 4 tags\n\
         version: 0.1.2\n"
    );
}

#[test]
fn no_version_or_two() {
    let folder = Folder::new();
    folder.put("none", block(FAMILY, 0x1000_0000, 0, 1, ARM_S, 7));
    let ran = folder.ends(0, "tags none");
    assert_eq!(
        ran.out,
        "none: 1 piece, 0 tags\nversion: the file names none\n"
    );
    let versions = [
        tagged(0, &tag(VERSION, b"1.0")),
        tagged(1, &tag(VERSION, b"1.1")),
    ];
    folder.put(
        "two",
        [&versions[0][..], &versions[1], &versions[0]].concat(),
    );
    let ran = folder.ends(0, "tags two");
    assert!(
        ran.out.ends_with("version: the file names 2: 1.0, 1.1\n"),
        "{}",
        ran.out
    );
    // a text with a byte that moves a terminal's cursor is shown as bytes
    folder.put("odd", tagged(0, &tag(VERSION, b"1\x1b[2J")));
    let ran = folder.ends(0, "tags odd");
    assert!(
        ran.out.contains("version (0x9fc7bc): 31 1b 5b 32 4a\n"),
        "{}",
        ran.out
    );
    assert!(
        ran.out.ends_with("version: 31 1b 5b 32 4a\n"),
        "{}",
        ran.out
    );
}

#[test]
fn tags_that_cannot_be_read() {
    let folder = Folder::new();
    let good = tag(VERSION, b"0.1.2");
    for (bytes, told) in [
        (
            &[3, 1, 2, 3][..],
            "piece 0, block 0: 62 ShortTag: a tag with a size of 1 to 3",
        ),
        (
            &[0, 1, 2, 3],
            "piece 0, block 0: 63 TypedEnd: a tag with a size of 0 and a type",
        ),
        (
            &[255, 1, 2, 3],
            "piece 0, block 0: 64 PastRoom: a tag that runs past the data, or into the checksum of flag 0x4000",
        ),
    ] {
        folder.put("bad", tagged(0, &[&good, bytes].concat()));
        let ran = folder.ends(1, "tags bad");
        assert!(ran.out.contains(told), "{}", ran.out);
        assert!(ran.out.ends_with("version: 0.1.2\nNOT WHOLE: of 1 piece the tags cannot be read, as said above. Get the file again.\n"), "{}", ran.out);
    }
    folder.put("text", "not a UF2 file");
    let ran = folder.ends(1, "tags text");
    assert!(ran
        .out
        .starts_with("piece 0: 1 BadLength: the block is not 512 bytes\n"));
    folder.put("zeros", [0; 512]);
    let ran = folder.ends(1, "tags zeros");
    assert!(ran
        .out
        .starts_with("piece 0: 4 NotBlock: no UF2 block: a magic number differs\n"));
    folder.put("empty", []);
    let ran = folder.ends(1, "tags empty");
    assert!(ran.out.ends_with("NOT WHOLE: the file is empty.\n"));
    folder.wrong(
        "tags nothing",
        "cannot read nothing: No such file or directory",
    );
    folder.wrong(
        "tags",
        "tags: FILE.uf2 is missing; `vantorel tags --help` says how",
    );
}
