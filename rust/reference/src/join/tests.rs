use super::*;
use crate::hex::{fresh, line, Stand};

const FILE_LIMIT: usize = 4_194_304;
const END: &str = ":00000001FF\n";

/// A right record with its LF.
fn rec(kind: u8, address: u16, data: &[u8]) -> String {
    let [high, low] = address.to_be_bytes();
    let bytes = [&[data.len() as u8, high, low, kind], data].concat();
    let sum: u32 = bytes.iter().map(|&byte| u32::from(byte)).sum();
    let digits: String = bytes.iter().map(|byte| format!("{byte:02X}")).collect();
    format!(":{digits}{:02X}\n", (256 - sum % 256) % 256)
}

/// A plain file of one data byte.
fn tiny() -> String {
    rec(0, 0, &[0x5A]) + END
}

fn joined(v1: impl AsRef<[u8]>, v2: impl AsRef<[u8]>) -> Result<String, JoinRefusal> {
    let (v1, v2) = (v1.as_ref(), v2.as_ref());
    // More than it can come to, and more than is allowed for a long one.
    let room = 4 * (v1.len() + v2.len()) + 2048;
    let mut out = vec![0xA7; room.min(FILE_LIMIT + 100)];
    match join(v1, v2, &mut out) {
        Ok(len) => {
            assert!(out[len..].iter().all(|&byte| byte == 0xA7));
            out.truncate(len);
            Ok(String::from_utf8(out).unwrap())
        }
        Err(refusal) => {
            assert!(out.iter().all(|&byte| byte == 0xA7));
            Err(refusal)
        }
    }
}

/// The refusal of an input, the same for V1 and V2.
fn fault(file: impl AsRef<[u8]>) -> (usize, u32, u32) {
    let first = joined(&file, "").unwrap_err();
    let second = joined(tiny(), &file).unwrap_err();
    assert_eq!((first.board, second.board), (0x9900, 0x9903));
    let parts = |refusal: JoinRefusal| (refusal.line, refusal.answer, refusal.position);
    assert_eq!(parts(first), parts(second));
    parts(first)
}

/// What the reader of that board stores of a file.
fn image_of(board: u16, file: &str) -> Vec<u8> {
    let mut image = vec![0xA7; 1_048_576];
    let mut reader = fresh(board);
    for text in file.split_inclusive('\n') {
        reader = line(reader, text.as_bytes(), &mut image).0;
    }
    assert_eq!(reader.stand, Stand::Ended);
    assert_eq!(reader.offset as usize, file.len());
    image
}

#[test]
fn the_smallest_file() {
    // 16 + 16 + 14 characters, and 12 for an empty 0B: 454 are missing.
    let section = |board, kind| {
        let mut lines = rec(0x04, 0, &[0, 0]);
        lines += &rec(0x0A, 0, &[0x99, board]);
        lines += &rec(kind, 0, &[0x5A]);
        lines += &rec(0x0C, 0, &[0xFF; 26]).repeat(7);
        lines + &rec(0x0B, 0, &[0xFF; 3])
    };
    let expected = section(0, 0x00) + &section(3, 0x0D) + END;
    assert_eq!(expected.len(), 1036);
    assert_eq!(joined(tiny(), tiny()), Ok(expected.clone()));
    assert!(expected.starts_with(":020000040000FA\n:0200000A99005B\n:010000005AA5\n:1A00000C"));
    assert!(expected.ends_with(":0300000BFFFFFFF5\n:00000001FF\n"));
}

/// Every number of characters that may be missing.
#[test]
fn filling() {
    let mut met = [false; 512];
    for extra in 0..600 {
        let mut file = String::new();
        for _ in 0..extra / 32 {
            file += &rec(0, 0, &[0x11; 32]);
        }
        file += &rec(0, 0, &vec![0x22; 1 + extra % 32]);
        let data = file.len();
        let text = joined(tiny(), file + END).unwrap();
        assert_eq!(text.len() % 512, 12);
        let section = &text[512..text.len() - 12];
        let missing = (512 - (32 + data + 12) % 512) % 512;
        met[missing] = true;
        let mut filled = rec(0x0C, 0, &[0xFF; 26]).repeat(missing.saturating_sub(1) / 64);
        filled += &rec(0x0B, 0, &vec![0xFF; (missing - filled.len()) / 2]);
        assert_eq!(section[32 + data..], filled, "{missing}");
        assert_eq!(section.len(), 32 + data + 12 + missing);
    }
    assert_eq!(met.iter().filter(|&&met| met).count(), 256);
}

#[test]
fn what_02_and_04_rule() {
    let mut file = rec(0, 0x0010, &[1]);
    file += &rec(2, 0, &[0x30, 0x00]);
    file += &rec(0, 0x0010, &[2]);
    file += &rec(4, 0, &[0x00, 0x03]);
    file += &rec(0, 0x0020, &[3]);
    file += &rec(4, 0, &[0x10, 0x00]);
    file += &rec(2, 0xABCD, &[0x00, 0x01]);
    file += &rec(0, 0x0010, &[4]);
    file += &rec(2, 0, &[0xFF, 0xFF]);
    file += &rec(3, 0, &[1, 2, 3, 4]);
    file += &rec(5, 0, &[1, 2, 3, 4]);
    file += &rec(0, 0x0000, &[]);
    file += &rec(0, 0x0000, &[5]);
    file += &rec(0, 0xFFFF, &[6]);
    file += &rec(4, 0, &[0xFF, 0xFF]);
    file += &rec(0, 0xFFFF, &[7]);
    file += &rec(4, 0, &[0, 0]);
    let text = joined(file + END, tiny()).unwrap();
    let mut expected = rec(4, 0, &[0, 0]) + &rec(0x0A, 0, &[0x99, 0]);
    expected += &rec(0, 0x0010, &[1]);
    expected += &rec(4, 0, &[0, 3]);
    expected += &rec(0, 0x0010, &[2]);
    expected += &rec(0, 0x0020, &[3]);
    expected += &rec(4, 0, &[0, 0]);
    expected += &rec(0, 0x0020, &[4]);
    expected += &rec(4, 0, &[0, 0x0F]);
    expected += &rec(0, 0xFFF0, &[5]);
    expected += &rec(4, 0, &[0, 0x10]);
    expected += &rec(0, 0xFFEF, &[6]);
    expected += &rec(4, 0, &[0xFF, 0xFF]);
    expected += &rec(0, 0xFFFF, &[7]);
    assert_eq!(text[..expected.len()], expected);
    assert!(text[expected.len()..].starts_with(":1A00000CFF"));
}

/// The first data's upper half, even if earlier records name others.
#[test]
fn the_opening_04() {
    let mut file = rec(4, 0, &[0x20, 0x00]) + &rec(0, 5, &[]) + &rec(4, 0, &[0x10, 0x00]);
    file += &rec(0, 0x10C0, &[1, 2]);
    let text = joined(file + END, tiny()).unwrap();
    let opening = ":020000041000EA\n:0200000A99005B\n";
    assert!(text.starts_with(&(opening.to_string() + &rec(0, 0x10C0, &[1, 2]) + ":1A")));
}

#[test]
fn split_at_a_multiple_of_65536() {
    let data: Vec<u8> = (1..=32).collect();
    for first in 0..=33u16 {
        // The record begins `first` bytes before 0x20000, by segment 0x1001.
        let address = 0xFFF0 - first;
        let file = rec(2, 0, &[0x10, 0x01]) + &rec(0, address, &data) + END;
        // A field whose end passes 65,536 is refused, wherever it begins.
        if usize::from(address) + 32 > 65_536 {
            assert_eq!(fault(&file), (1, 29, 0));
            continue;
        }
        let text = joined(file, tiny()).unwrap();
        let at = 0u16.wrapping_sub(first);
        let cut = usize::from(first).min(32);
        let expected = match cut {
            0 => rec(0, 0, &data),
            32 => rec(0, at, &data),
            _ => rec(0, at, &data[..cut]) + &rec(4, 0, &[0, 2]) + &rec(0, 0, &data[cut..]),
        };
        let upper = if cut == 0 { 2 } else { 1 };
        let opening = rec(4, 0, &[0, upper]) + &rec(0x0A, 0, &[0x99, 0]);
        assert!(text.starts_with(&(opening + &expected + ":1A")), "{first}");
    }
}

#[test]
fn lower_case_and_cr_lf_are_read_but_not_written() {
    let file = ":01abcd00ef98\r\n:00000001ff";
    let text = joined(file, tiny()).unwrap();
    assert_eq!(text.lines().nth(2), Some(":01ABCD00EF98"));
    assert!(!text.contains('\r'));
}

/// The plain files that 002 prints.
#[test]
fn the_files_of_002() {
    let v1 = "\
:020000040000FA
:1000000000400020218E01005D8E01005F8E010006
:1000100000000000000000000000000000000000E0
:10002000000000000000000000000000618E0100E0
:100030000000000000000000638E0100658E0100DA
:10004000678E01005D3D000065950100678E01002F
:10005000678E010000000000218F0100678E010003
:1000600069E80000D59A0100D9930100678E01006C
:10007000678E0100678E0100678E0100678E0100A8
:020000040001F9
:1000000003D13000F8BD4010F3E7331D0122180082
:10001000F8F7B2FD4460EFE7E4B30200F0B5070083
:1000200089B000201E000D00019215F0ECFB0E4B74
:020000041000EA
:1010C0007CB0EE17FFFFFFFF0A0000000000E30006
:0C10D000FFFFFFFF2D6D0300000000007B
:0400000500018E2147
:00000001FF
";
    let v2 = "\
:1000000000040020810A000015070000610A0000BA
:100010001F07000029070000330700000000000050
:020000023000CC
:10000000440205004A0200003C020500FA0D00000F
:1000100064020500D20F000034020500B20E000099
:020000020000FC
:020000041000EA
:081014000080070000E0070066
:1010C0007CB0EE47FFFFFFFF0C0000000000530064
:0C10D000FFFFFFFF000000000000000018
:040000033000225156
:00000001FF
";
    let text = joined(v1, v2).unwrap();
    let lines: Vec<&str> = text.lines().collect();
    let plain: Vec<&str> = v1.lines().collect();
    assert_eq!(lines[..2], [":020000040000FA", ":0200000A99005B"]);
    assert_eq!(lines[2..17], plain[1..16]);
    let start = lines.iter().position(|&l| l == ":0200000A990358").unwrap();
    assert_eq!(lines[start - 1], ":020000040000FA");
    assert_eq!(lines[start + 3], ":020000040003F7");
    assert_eq!(lines[start + 6], ":020000041000EA");
    assert_eq!(lines[start + 7], ":0810140D0080070000E0070059");
    let image = image_of(V2, &text);
    assert_eq!(image[0x3_0000..0x3_0004], [0x44, 0x02, 0x05, 0x00]);
    assert_eq!(image_of(V1, &text)[0x1_0000..0x1_0002], [0x03, 0xD1]);
}

#[test]
fn bad_lines() {
    let good = rec(0, 0, &[1]);
    for (bad, answer, position) in [
        ("\n", 20, 0),
        ("\r\n", 20, 0),
        ("x\n", 20, 0),
        (":0000000\n", 21, 0),
        (":00000001F\n", 21, 0),
        (":00000001FF\r", 21, 0),
        (":0000000gFF\n", 22, 8),
        (":x000000gFF\n", 22, 1),
        (":00000001Fx\r\n", 22, 10),
        (":00000001FF:00000001FF\n", 21, 0),
        (":00000001FF\r:00000001FF\n", 22, 11),
        (":21000001DE\n", 23, 0),
        (":01000001FE\n", 24, 0),
        (":00000001FE\n", 25, 0),
    ] {
        assert_eq!(fault(bad), (0, answer, position), "{bad:?}");
        let file = good.repeat(3) + bad + END;
        // A line without LF takes in the one after it.
        if bad.ends_with('\n') {
            assert_eq!(fault(file), (3, answer, position), "{bad:?}");
        }
    }
    let long = format!(":{}\n", "x".repeat(520));
    assert_eq!(fault(&long), (0, 22, 1));
    let last = format!(":{}x\n", "0".repeat(519));
    assert_eq!(fault(&last), (0, 22, 520));
    assert_eq!(fault(format!(":{}x\n", "0".repeat(521))), (0, 21, 0));
}

#[test]
fn types_and_lengths() {
    for kind in 0..=255 {
        for len in 0..=32 {
            let file = rec(kind, 0, &vec![0x11; len]);
            let allowed = match kind {
                0x00 => true,
                0x01 => len == 0,
                0x02 | 0x04 => len == 2,
                0x03 | 0x05 => len == 4,
                _ => false,
            };
            // A good line leads on to the missing 01, or after the 01.
            let expected = match kind {
                _ if !allowed => (1, 26, 0),
                0x01 => (2, 31, 0),
                _ => (3, 26, 0),
            };
            assert_eq!(fault(rec(0, 0, &[1]) + &file + &rec(0, 0, &[1])), expected);
        }
    }
}

#[test]
fn the_end() {
    assert_eq!(fault(""), (0, 26, 0));
    assert_eq!(fault(rec(0, 0, &[1])), (1, 26, 0));
    assert_eq!(fault(rec(0, 0, &[1]).trim_end()), (1, 26, 0));
    assert_eq!(fault(tiny() + "\n"), (2, 31, 0));
    assert_eq!(fault(tiny() + "x"), (2, 31, 0));
    assert_eq!(fault(tiny() + "\r"), (2, 31, 0));
    assert_eq!(fault(tiny() + END), (2, 31, 0));
    assert!(joined(tiny().trim_end(), tiny()).is_ok());
    // The address field of a 01 is of no account.
    assert!(joined(rec(0, 0, &[1]) + &rec(1, 0x1234, &[]), tiny()).is_ok());
}

#[test]
fn no_data_byte() {
    assert_eq!(fault(END), (1, 30, 0));
    assert_eq!(fault(rec(0, 7, &[]) + END), (2, 30, 0));
    assert_eq!(
        fault(rec(4, 0, &[0, 1]) + &rec(0, 7, &[]) + END),
        (3, 30, 0)
    );
    // Not before the end of its own input, but before the other's lines.
    assert_eq!(fault(END.to_string() + "x"), (1, 31, 0));
    let refusal = joined(END, "x").unwrap_err();
    assert_eq!((refusal.board, refusal.answer), (V1, 30));
}

#[test]
fn crossing() {
    for len in 1..=32u16 {
        let data = vec![1; len.into()];
        let last = 0u16.wrapping_sub(len);
        assert!(joined(rec(0, last, &data) + END, tiny()).is_ok());
        if len > 1 {
            assert_eq!(fault(rec(0, last + 1, &data) + END), (0, 29, 0));
        }
    }
    assert_eq!(fault(rec(0, 0xFFFF, &[]) + END), (2, 30, 0));
    // A segment doesn't matter to it.
    let file = rec(2, 0, &[0, 1]) + &rec(0, 0xFFFF, &[1, 2]) + END;
    assert_eq!(fault(file), (1, 29, 0));
}

/// A plain file of that length: empty data lines, and one with data.
fn file_of(len: usize) -> String {
    let mut file = rec(0, 0, &[1]);
    let left = len - file.len() - END.len();
    let unit = rec(0, 0, &[]);
    let mut fill = unit.repeat(left / 12);
    // A CR takes up what is left, one for each line.
    fill = fill.replacen('\n', "\r\n", left % 12);
    file += &fill;
    file + END
}

#[test]
fn inputs_too_long() {
    let file = file_of(FILE_LIMIT);
    assert_eq!(file.len(), FILE_LIMIT);
    assert!(joined(&file, &file).is_ok());
    let lines = file.lines().count();
    // After the end it is 31 first.
    assert_eq!(fault(file.clone() + "x"), (lines, 31, 0));
    let longer = file_of(FILE_LIMIT + 1);
    let lines = longer.lines().count();
    assert_eq!(fault(&longer), (lines - 1, 36, 0));
    // Before all that is wrong with the line.
    let junk = longer[..longer.len() - 12].to_string() + "xxxxxxxxxxxxx";
    assert_eq!(fault(junk), (lines - 1, 36, 0));
    // The missing end of a file at the limit is 26.
    let open = file[..file.len() - 12].to_string() + &rec(0, 0, &[]);
    assert_eq!(fault(open), (file.lines().count(), 26, 0));
}

#[test]
fn output_too_long() {
    let refusal = JoinRefusal {
        board: 0,
        line: 0,
        answer: 36,
        position: 0,
    };
    for (room, expected) in [(0, Err(refusal)), (1035, Err(refusal)), (1036, Ok(1036))] {
        let mut out = vec![0xA7; room];
        assert_eq!(
            join(tiny().as_bytes(), tiny().as_bytes(), &mut out),
            expected
        );
        if expected.is_err() {
            assert!(out.iter().all(|&byte| byte == 0xA7));
        }
    }
    // Sections of 8191 times 512 bytes are the most, as the 01 finds no room
    // after 8192 times.
    let of = |lines: usize| rec(0, 0, &[1; 32]).repeat(lines) + END;
    let len = |lines: usize| (32 + 76 * lines + 12).next_multiple_of(512) + 512 + 12;
    let most = (1..).find(|&lines| len(lines + 1) > FILE_LIMIT).unwrap();
    let text = joined(of(most), tiny()).unwrap();
    assert_eq!(text.len(), len(most));
    assert_eq!(text.len(), FILE_LIMIT - 512 + 12);
    assert_eq!(joined(of(most + 1), tiny()), Err(refusal));
    assert_eq!(joined(tiny(), of(most + 1)), Err(refusal));
    // A fault of an input goes before.
    assert_eq!(joined(of(most + 1), "").unwrap_err().answer, 26);
}

#[test]
fn v1_whole_goes_before_v2() {
    let refusal = joined(tiny() + "x", "x").unwrap_err();
    assert_eq!((refusal.board, refusal.line, refusal.answer), (V1, 2, 31));
    let mut out = [0xA7; 3];
    let refusal = join(tiny().as_bytes(), b":", &mut out).unwrap_err();
    assert_eq!((refusal.board, refusal.line, refusal.answer), (V2, 0, 21));
}

fn any(state: &mut u64, below: u64) -> u64 {
    *state ^= *state << 13;
    *state ^= *state >> 7;
    *state ^= *state << 17;
    (*state >> 11) % below
}

/// A plain file and the image that its bytes make, one by one.
fn any_plain(state: &mut u64) -> (String, Vec<u8>) {
    let mut image = vec![0xA7; 1_048_576];
    let (mut file, mut base) = (String::new(), 0usize);
    for i in 0..1 + any(state, 30) {
        let word = [0, 0x0FFF, 0x1000, 0x0001, 0xF001, 0xFFFF, 0x000F, 0x0010];
        let word = word[any(state, 8) as usize];
        let bytes = u16::to_be_bytes(word);
        match any(state, 6) {
            0 => {
                file += &rec(2, 0, &bytes);
                base = usize::from(word) * 16;
            }
            1 => {
                file += &rec(4, 0, &bytes);
                base = usize::from(word) * 65_536;
            }
            2 => file += &rec(3, 0, &[bytes, bytes].concat()),
            _ => {}
        }
        let len = if i == 0 { 5 } else { any(state, 33) as usize };
        let edges = [0, 0x40, 0xFFC0, 0xFFE0];
        let address = edges[any(state, 4) as usize] + any(state, 33) as usize;
        let address = address.min(65_536 - len).min(65_535);
        let data: Vec<u8> = (0..len).map(|_| any(state, 256) as u8).collect();
        file += &rec(0, address as u16, &data);
        for (k, byte) in data.into_iter().enumerate() {
            // Its length is a multiple of 65,536, so that no piece is cut.
            if let Some(place) = image.get_mut(base + address + k) {
                *place = byte;
            }
        }
    }
    (file + END, image)
}

#[test]
fn read_for_each_board_it_stores_what_the_plain_file_does() {
    let mut state = 4711;
    for _ in 0..60 {
        let (v1, first) = any_plain(&mut state);
        let (v2, second) = any_plain(&mut state);
        let text = joined(v1, v2).unwrap();
        assert!(image_of(V1, &text) == first);
        assert!(image_of(V2, &text) == second);
    }
}
