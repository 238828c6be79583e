//! Whole Universal Hex files, first of all the one that document 002 prints.

use super::hex::{failed, record, summed, Panel};
use crate::hex::{Boards, Stand, V1, V2};

/// The Universal Hex of 002, without the notes beside its lines.
const PRINTED: &str = "\
:020000040000FA
:0400000A9900C0DEBB
:2000000000400020218E01005D8E01005F8E010000000000000000000000000000000000F6
:20002000000000000000000000000000618E01000000000000000000638E0100658E0100EA
:20004000678E01005D3D000065950100678E0100678E010000000000218F0100678E010082
:2000600069E80000D59A0100D9930100678E0100678E0100678E0100678E0100678E010084
:020000040001F9
:2000000003D13000F8BD4010F3E7331D01221800F8F7B2FD4460EFE7E4B30200F0B5070015
:2000200089B000201E000D00019215F0ECFB0E4B04D8
:020000041000EA
:1C10C0007CB0EE17FFFFFFFF0A0000000000E300FFFFFFFF2D6D03000000000061
:2000000CFFFFFFFFFFFFFFFFFFFFFFFFFFFFFFFFFFFFFFFFFFFFFFFFFFFFFFFFFFFFFFFFF4
:2000000CFFFFFFFFFFFFFFFFFFFFFFFFFFFFFFFFFFFFFFFFFFFFFFFFFFFFFFFFFFFFFFFFF4
:2000000CFFFFFFFFFFFFFFFFFFFFFFFFFFFFFFFFFFFFFFFFFFFFFFFFFFFFFFFFFFFFFFFFF4
:2000000CFFFFFFFFFFFFFFFFFFFFFFFFFFFFFFFFFFFFFFFFFFFFFFFFFFFFFFFFFFFFFFFFF4
:2000000CFFFFFFFFFFFFFFFFFFFFFFFFFFFFFFFFFFFFFFFFFFFFFFFFFFFFFFFFFFFFFFFFF4
:2000000CFFFFFFFFFFFFFFFFFFFFFFFFFFFFFFFFFFFFFFFFFFFFFFFFFFFFFFFFFFF4
:0000000BF5
:020000040000FA
:0400000A9903C0DEB8
:2000000D00040020810A000015070000610A00001F0700002907000033070000000000000D
:2000200D000000000000000000000000A50A00003D0700000000000047070000510700001A
:2000400D5B070000650700006F07000079070000830700008D07000097070000A10700006B
:2000600DAB070000B5070000BF070000C9070000CB
:020000040003F7
:2000000D440205004A0200003C020500FA0D000064020500D20F000034020500B20E0000AB
:2000200D7C020500720D000070020500420B0000F80405004A0B0000F00405003A0B000059
:020000041000EA
:0810140D0080070000E0070059
:1C10C00D7CB0EE47FFFFFFFF0C00000000005300FFFFFFFF00000000000000004F
:2000000CFFFFFFFFFFFFFFFFFFFFFFFFFFFFFFFFFFFFFFFFFFFFFFFFFFFFFFFFFFFFFFFFF4
:2000000CFFFFFFFFFFFFFFFFFFFFFFFFFFFFFFFFFFFFFFFFFFFFFFFFFFFFFFFFFFFFFFFFF4
:2000000CFFFFFFFFFFFFFFFFFFFFFFFFFFFFFFFFFFFFFFFFFFFFFFFFFFFFFFFFFFFFFFFFF4
:2000000CFFFFFFFFFFFFFFFFFFFFFFFFFFFFFFFFFFFFFFFFFFFFFFFFFFFFFFFFFFFFFFFFF4
:2000000CFFFFFFFFFFFFFFFFFFFFFFFFFFFFFFFFFFFFFFFFFFFFFFFFFFFFFFFFFFFFFFFFF4
:1600000BFFFFFFFFFFFFFFFFFFFFFFFFFFFFFFFFFFFFFFFFFFFFF5
:00000001FF
";

/// The lines of it whose length field disagrees with their digits.
const WRONG: [usize; 3] = [8, 16, 23];

/// What 002 says is in it: data records of its Intel Hex files, with their
/// upper addresses. Those in the window at 0x1000 are left out.
const V1_DATA: [(u16, &str); 11] = [
    (0, ":1000000000400020218E01005D8E01005F8E010006"),
    (0, ":1000100000000000000000000000000000000000E0"),
    (0, ":10002000000000000000000000000000618E0100E0"),
    (0, ":100030000000000000000000638E0100658E0100DA"),
    (0, ":10004000678E01005D3D000065950100678E01002F"),
    (0, ":10005000678E010000000000218F0100678E010003"),
    (0, ":1000600069E80000D59A0100D9930100678E01006C"),
    (0, ":10007000678E0100678E0100678E0100678E0100A8"),
    (1, ":1000000003D13000F8BD4010F3E7331D0122180082"),
    (1, ":10001000F8F7B2FD4460EFE7E4B30200F0B5070083"),
    (1, ":1000200089B000201E000D00019215F0ECFB0E4B74"),
];
const V2_DATA: [(u16, &str); 11] = [
    (0, ":1000000000040020810A000015070000610A0000BA"),
    (0, ":100010001F07000029070000330700000000000050"),
    (0, ":10002000000000000000000000000000A50A000021"),
    (0, ":100030003D070000000000004707000051070000D6"),
    (0, ":100040005B070000650700006F07000079070000EC"),
    (0, ":10005000830700008D07000097070000A10700003C"),
    (0, ":10006000AB070000B5070000BF070000C90700008C"),
    (3, ":10000000440205004A0200003C020500FA0D00000F"),
    (3, ":1000100064020500D20F000034020500B20E000099"),
    (3, ":100020007C020500720D000070020500420B00000A"),
    (3, ":10003000F80405004A0B0000F00405003A0B00002C"),
];

fn bytes(text: &str) -> Vec<u8> {
    let digits = &text[1..];
    let byte = |at| u8::from_str_radix(&digits[at..at + 2], 16).unwrap();
    (0..digits.len()).step_by(2).map(byte).collect()
}

/// The line with the length that its digits have, and the sum for it: as many
/// characters as before, so that the sections stay where they are.
fn mended(text: &str) -> String {
    let mut bytes = bytes(text);
    bytes.pop();
    bytes[0] = (bytes.len() - 4) as u8;
    summed(&bytes)
}

fn with_ending(lines: &[String], ending: &str) -> Vec<String> {
    lines.iter().map(|text| format!("{text}{ending}")).collect()
}

fn printed() -> Vec<String> {
    PRINTED.lines().map(String::from).collect()
}

fn printed_mended() -> Vec<String> {
    printed().iter().map(|text| mended(text)).collect()
}

fn answers(panel: &mut Panel, lines: &[String]) -> Vec<u8> {
    lines.iter().map(|text| panel.send(text)).collect()
}

/// Adds 0Cs and a 0B that fill the section up to a multiple of 512 bytes.
fn close(section: &mut Vec<String>) {
    let len: usize = section.iter().map(String::len).sum();
    let mut left = 512 - len % 512;
    if left < 12 {
        left += 512;
    }
    let filling = |kind, len: usize| record(kind, 0, &vec![0xFF; (len - 12) / 2]) + "\n";
    while left > 76 {
        let len = 76.min(left - 12);
        section.push(filling(0x0C, len));
        left -= len;
    }
    section.push(filling(0x0B, left));
    let len: usize = section.iter().map(String::len).sum();
    assert_eq!(len % 512, 0);
}

/// A section of the board with one data record at that address.
fn section(board: u16, address: u32, data: &[u8]) -> Vec<String> {
    let kind = if board == V1 { 0x00 } else { 0x0D };
    let [high, low, ..] = address.to_be_bytes();
    let mut lines = vec![
        record(0x04, 0, &[0, 0]) + "\n",
        record(0x0A, 0, &board.to_be_bytes()) + "\n",
        record(0x04, 0, &[high, low]) + "\n",
        record(kind, address as u16, data) + "\n",
    ];
    close(&mut lines);
    lines
}

fn end() -> Vec<String> {
    vec![record(0x01, 0, &[]) + "\n"]
}

#[test]
fn which_lines_of_the_printed_file_are_wrong() {
    for (index, (text, mended)) in printed().iter().zip(printed_mended()).enumerate() {
        assert_eq!(*text != mended, WRONG.contains(&index), "{index}");
        assert_eq!(text.len(), mended.len());
        let mut panel = Panel::new(V1);
        // Where a wrong line stands doesn't matter: 24 goes before 26.
        assert_eq!(panel.send(text) == 24, WRONG.contains(&index), "{index}");
    }
}

#[test]
fn printed_file() {
    let lines = with_ending(&printed(), "\n");
    for (own, data) in [(V1, 33), (V2, 34)] {
        let mut panel = Panel::new(own);
        let mut expected = vec![34, 34, data, data, data, data, 34, data];
        expected.resize(lines.len(), 24);
        assert_eq!(answers(&mut panel, &lines), expected);
        assert_eq!(panel.reader.stand, failed(24));
        assert_eq!(panel.reader.offset, 432);
        let gave = Boards {
            v1: true,
            v2: false,
        };
        assert_eq!(panel.reader.gave, gave);
    }
}

/// With only some lines mended, the first one that isn't fails.
#[test]
fn printed_file_partly_mended() {
    for (index, offset) in WRONG.into_iter().zip([432, 942, 1288]) {
        let mut lines = printed();
        lines[..index].clone_from_slice(&printed_mended()[..index]);
        let mut panel = Panel::new(V2);
        let answers = answers(&mut panel, &with_ending(&lines, "\n"));
        assert_eq!(answers.iter().position(|&answer| answer == 24), Some(index));
        assert!(answers[index..].iter().all(|&answer| answer == 24));
        assert_eq!(panel.reader.offset, offset);
    }
}

#[test]
fn mended_file() {
    let lines = with_ending(&printed_mended(), "\n");
    let v1: &[usize] = &[2, 3, 4, 5, 7, 8];
    let v2: &[usize] = &[20, 21, 22, 23, 25, 26];
    for (own, stored, outside, data) in [(V1, v1, &[10][..], V1_DATA), (V2, v2, &[28, 29], V2_DATA)]
    {
        let mut panel = Panel::new(own);
        let mut image = panel.image.clone();
        let expected: Vec<u8> = (0..lines.len())
            .map(|index| match index {
                36 => 35,
                _ if stored.contains(&index) => 33,
                _ if outside.contains(&index) => 32,
                _ => 34,
            })
            .collect();
        assert_eq!(answers(&mut panel, &lines), expected);
        assert_eq!(panel.reader.stand, Stand::Ended);
        assert_eq!(panel.reader.offset, 2060);

        for (upper, text) in data {
            let bytes = bytes(text);
            let address = usize::from(bytes[1]) << 8 | usize::from(bytes[2]);
            let start = usize::from(upper) << 16 | address;
            image[start..start + 16].copy_from_slice(&bytes[4..20]);
        }
        if own == V1 {
            // The byte too many in the line that has seventeen.
            image[0x1_0030] = 0x04;
        }
        assert!(panel.image == image);
        assert_eq!(panel.send(":00000001FF\n"), 31);
    }
}

/// Each CR moves the second section on, away from its boundary.
#[test]
fn mended_file_with_cr_lf() {
    let mut panel = Panel::new(V1);
    let answers = answers(&mut panel, &with_ending(&printed_mended(), "\r\n"));
    assert_eq!(answers.iter().position(|&answer| answer == 27), Some(18));
    assert!(answers[18..].iter().all(|&answer| answer == 27));
    assert_eq!(panel.reader.offset, 1024 + 18);
}

#[test]
fn sections_in_any_order_with_others_between() {
    let v9 = || section(0x9999, 0, &[9]);
    let lines = [
        v9(),
        section(V2, 0x0002_0000, &[2]),
        v9(),
        section(0x0000, 0, &[8]),
        section(V1, 0x0001_0000, &[1]),
        v9(),
        end(),
    ]
    .concat();
    for (own, at) in [(V1, 0x1_0000), (V2, 0x2_0000)] {
        let mut panel = Panel::new(own);
        let mut image = panel.image.clone();
        let answers = answers(&mut panel, &lines);
        assert_eq!(answers.iter().filter(|&&answer| answer == 33).count(), 1);
        assert_eq!(
            answers.iter().filter(|&&answer| answer == 34).count(),
            lines.len() - 2
        );
        assert_eq!(answers.last(), Some(&35));
        image[at] = if own == V1 { 1 } else { 2 };
        assert!(panel.image == image);
    }
}

#[test]
fn a_second_section_of_a_board() {
    for board in [V1, V2] {
        let first = section(board, 0, &[1]);
        let lines = [
            first.clone(),
            section(0x9999, 0, &[2]),
            section(board, 0, &[3]),
        ]
        .concat();
        let mut panel = Panel::new(V1);
        let answers = answers(&mut panel, &lines);
        // It is found at its 0A, after its opening 04.
        let at = lines.len() - first.len() + 1;
        assert_eq!(answers.iter().position(|&answer| answer == 28), Some(at));
        assert_eq!(panel.image[0] == 1, board == V1);
    }
}

#[test]
fn a_board_missing() {
    for (lines, expected) in [
        (vec![], 30),
        (section(V1, 0, &[1]), 30),
        (section(V2, 0, &[2]), 30),
        (
            [section(V1, 0, &[1]), section(0x9999, 0, &[2])].concat(),
            30,
        ),
        ([section(V1, 0, &[1]), section(V2, 0, &[])].concat(), 30),
        ([section(V1, 0, &[1]), section(V2, 0, &[2])].concat(), 35),
        // Not stored, but given.
        (
            [
                section(V1, 0x1000_10C0, &[1]),
                section(V2, 0x1000_10C0, &[2]),
            ]
            .concat(),
            35,
        ),
    ] {
        for own in [V1, V2] {
            let mut panel = Panel::new(own);
            let answers = answers(&mut panel, &[lines.clone(), end()].concat());
            assert!(answers[..lines.len()].iter().all(|&answer| answer >= 32));
            assert_eq!(answers.last(), Some(&expected));
        }
    }
}

/// The upper address of one section's last 04 is not that of the next.
#[test]
fn the_latest_04_counts() {
    let mut lines = section(V2, 0x0003_0000, &[2]);
    let mut v1 = vec![
        record(0x04, 0, &[0, 1]) + "\n",
        record(0x0A, 0, &[0x99, 0x00]) + "\n",
        record(0x00, 0x0005, &[1]) + "\n",
        record(0x04, 0xFFFF, &[0, 2]) + "\n",
        record(0x00, 0x0005, &[2]) + "\n",
    ];
    close(&mut v1);
    lines.append(&mut v1);
    let mut panel = Panel::new(V1);
    let mut image = panel.image.clone();
    assert!(answers(&mut panel, &lines)
        .iter()
        .all(|&answer| answer >= 33));
    (image[0x1_0005], image[0x2_0005]) = (1, 2);
    assert!(panel.image == image);
}
