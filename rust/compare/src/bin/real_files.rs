//! Real files through the proved receiver and reader and through the reference, side by side: the UF2 files of Debian's package `snek` and
//! the Intel Hex file of `firmware-microbit-micropython`, where they are installed. `REAL_FILES` names another place than /usr/share. The plain
//! file is joined for both boards too, and the images of what is written are compared with those that `srecord` and `python3-intelhex` make of
//! the plain file, where they are installed.

use std::error::Error;
use std::fs;
use std::path::{Path, PathBuf};
use std::process::Command;

use compare::hex::{record, Text};
use compare::{proved_settings, Buffers, Random};
use proved::hex::{Board, Reader};
use reference::{hex, Arch, Entry, Settings, ARM_S, MAX_ENTRIES};

type Done = Result<(), Box<dyn Error>>;

const WINDOW: u32 = 0x1000_0000;
const FLASH_LEN: usize = 1 << 20;
const IMAGE_LEN: usize = 262_144;

const SETTINGS: Settings = Settings {
    arm: true,
    riscv: false,
    current: Arch::Arm,
    auto_switch: false,
    absolute: false,
    count: 0,
    table: [Entry::EMPTY; MAX_ENTRIES],
};

fn main() -> Done {
    let root = std::env::var("REAL_FILES").unwrap_or_else(|_| "/usr/share".into());
    let root = Path::new(&root);
    let uf2 = files(&root.join("snek"), "uf2");
    if uf2.is_empty() {
        println!("no UF2 file of snek in {}: left out", root.display());
    }
    for path in &uf2 {
        println!("{}: {}", name(path), uf2_file(&fs::read(path)?)?);
    }
    let plain = files(&root.join("firmware-microbit-micropython"), "hex");
    if plain.is_empty() {
        println!(
            "no Intel Hex file of firmware-microbit-micropython in {}: left out",
            root.display()
        );
    }
    for path in &plain {
        println!("{}: {}", name(path), hex_file(&fs::read(path)?)?);
        println!("{}: {}", name(path), joined_file(path)?);
    }
    Ok(())
}

fn files(folder: &Path, extension: &str) -> Vec<PathBuf> {
    let Ok(entries) = fs::read_dir(folder) else {
        return Vec::new();
    };
    let mut found: Vec<PathBuf> = entries.flatten().map(|e| e.path()).collect();
    found.retain(|p| p.extension().is_some_and(|e| e == extension));
    found.sort();
    found
}

fn name(path: &Path) -> String {
    path.file_name()
        .unwrap_or_default()
        .to_string_lossy()
        .into_owned()
}

fn check(holds: bool, what: &str) -> Done {
    if holds {
        Ok(())
    } else {
        Err(what.into())
    }
}

/// The file as it is, which has no family, and with one put in, in several orders.
fn uf2_file(file: &[u8]) -> Result<String, Box<dyn Error>> {
    let blocks: Vec<&[u8]> = file.chunks(512).collect();
    let (answers, _) = deliver(&blocks)?;
    check(
        answers.iter().all(|&a| a == 7),
        "a block without a family is not answered 7",
    )?;
    let given: Vec<Vec<u8>> = blocks.iter().map(|b| with_family(b)).collect();
    let mut order: Vec<&[u8]> = given.iter().map(Vec::as_slice).collect();
    let mut random = Random(20);
    for turn in 0..4 {
        let (answers, flash) = deliver(&order)?;
        check(
            answers.iter().filter(|&&a| a == 15).count() == 1,
            "not completed once",
        )?;
        check(
            answers.last() == Some(&15) || turn == 3,
            "not completed by the last block",
        )?;
        for block in &given {
            let at = (field(block, 12) - WINDOW) as usize;
            check(
                flash[at..at + 256] == block[32..288],
                "a payload is not at its address",
            )?;
        }
        match turn {
            0 => order.reverse(),
            1 => random.shuffle(&mut order),
            // every block twice
            _ => {
                let again = order.clone();
                order.extend(again);
                random.shuffle(&mut order);
            }
        }
    }
    Ok(format!(
        "{} blocks, each answered 7; with a family and the window's addresses taken in order, reversed, shuffled and repeated",
        blocks.len()
    ))
}

fn field(block: &[u8], at: usize) -> u32 {
    u32::from_le_bytes([block[at], block[at + 1], block[at + 2], block[at + 3]])
}

/// The block with the family arm-s, and its address counted from the window's start.
fn with_family(block: &[u8]) -> Vec<u8> {
    let mut given = block.to_vec();
    let mut put = |at: usize, x: u32| given[at..at + 4].copy_from_slice(&x.to_le_bytes());
    put(8, field(block, 8) | 0x2000);
    put(12, field(block, 12) + WINDOW);
    put(28, ARM_S);
    given
}

/// The answers to arrivals from Idle, and the flash afterwards, the same on both sides.
fn deliver(arrivals: &[&[u8]]) -> Result<(Vec<u8>, Vec<u8>), Box<dyn Error>> {
    let settings = proved_settings(&SETTINGS);
    let (mut p, mut r) = (proved::Transfer::new(), reference::Transfer::Idle);
    let mut ours = Buffers::filled(FLASH_LEN, 0);
    let mut theirs = ours.clone();
    let mut answers = Vec::new();
    for arrival in arrivals {
        let looked = proved::look(&settings, p, arrival, &ours.lend());
        let got = proved::take(&settings, &mut p, arrival, &mut ours.lend());
        let wanted = theirs.plain_take(&SETTINGS, r, arrival);
        r = wanted.transfer;
        check(looked == got, "the look says something else")?;
        check(got.answer.number() == wanted.answer, "the answers differ")?;
        answers.push(wanted.answer);
    }
    check(ours == theirs, "the buffers differ")?;
    Ok((answers, ours.flash))
}

/// The file as it is, which has no sections, and as the V1 section of a file for both boards.
fn hex_file(file: &[u8]) -> Result<String, Box<dyn Error>> {
    let plain: Vec<&[u8]> = file.split_inclusive(|&c| c == b'\n').collect();
    let (answers, _) = read(Board::V1, &plain)?;
    let refused = answers.iter().position(|&a| a == 26);
    check(
        refused == Some(1),
        "a plain file is not refused at its second line",
    )?;
    let (lines, wanted) = universal(&plain);
    let lines: Vec<&[u8]> = lines.iter().map(Vec::as_slice).collect();
    let (answers, image) = read(Board::V1, &lines)?;
    check(answers.last() == Some(&35), "the file does not end")?;
    check(image == wanted, "the image is not what the plain file says")?;
    let stored = answers.iter().filter(|&&a| a == 33).count();
    let outside = answers.iter().filter(|&&a| a == 32).count();
    let (answers, image) = read(Board::V2, &lines)?;
    check(
        answers.last() == Some(&35),
        "the other board's file does not end",
    )?;
    check(
        image[..2] == [1, 2] && image[2..].iter().all(|&b| b == 0xFF),
        "the other board's image",
    )?;
    Ok(format!(
        "{} lines, refused with 26 at the second; as a section of V1: {stored} records stored, {outside} outside the image, ended",
        plain.len()
    ))
}

/// The file joined with itself, for both boards, by both sides; and the image of each board from what is written.
fn joined_file(path: &Path) -> Result<String, Box<dyn Error>> {
    let file = fs::read(path)?;
    let mut ours = vec![0xA7; tools::HEX_FILE_BYTES];
    let mut theirs = ours.clone();
    let written = tools::join(&file, &file, &mut ours).map_err(|e| format!("{e:?}"))?;
    let wanted = reference::join::join(&file, &file, &mut theirs).map_err(|e| format!("{e:?}"))?;
    check(
        written == wanted && ours == theirs,
        "the joined files differ",
    )?;
    let lines: Vec<&[u8]> = ours[..written].split_inclusive(|&c| c == b'\n').collect();
    let (answers, image) = read(Board::V1, &lines)?;
    check(answers.last() == Some(&35), "the joined file does not end")?;
    let (answers, second) = read(Board::V2, &lines)?;
    check(answers.last() == Some(&35), "the joined file does not end")?;
    check(image == second, "the two boards' images differ")?;
    let plain: Vec<&[u8]> = file.split_inclusive(|&c| c == b'\n').collect();
    check(
        image == universal(&plain).1,
        "the image is not what the plain file says",
    )?;
    let mut beside = Vec::new();
    for (tool, made) in [
        ("srecord", by_srecord(path)),
        ("python3-intelhex", by_intelhex(path)),
    ] {
        match made {
            Some(made) => {
                check(made == image, "another tool's image differs")?;
                beside.push(format!("the images are those of {tool}"));
            }
            None => beside.push(format!("{tool} is not installed: left out")),
        }
    }
    Ok(format!(
        "joined for both boards: {written} bytes, {} lines, read to the end by both; {}",
        lines.len(),
        beside.join("; ")
    ))
}

/// The image of a plain file, of `IMAGE_LEN` bytes from 0 on, 0xFF where there is no data: by `srec_cat`.
fn by_srecord(path: &Path) -> Option<Vec<u8>> {
    let out = std::env::temp_dir().join(format!("real_files.{}.bin", std::process::id()));
    let (from, to) = ("0", IMAGE_LEN.to_string());
    let ran = Command::new("srec_cat")
        .arg(path)
        .args([
            "-intel", "-crop", from, &to, "-fill", "0xFF", from, &to, "-o",
        ])
        .arg(&out)
        .arg("-binary")
        .output()
        .ok()?;
    let made = fs::read(&out).ok();
    let _ = fs::remove_file(&out);
    made.filter(|_| ran.status.success())
}

/// The same by `python3-intelhex`, of the system's Python.
fn by_intelhex(path: &Path) -> Option<Vec<u8>> {
    let program = "import sys, intelhex\n\
        h = intelhex.IntelHex(sys.argv[1])\n\
        h.padding = 0xFF\n\
        sys.stdout.buffer.write(bytes(h.tobinarray(start=0, size=int(sys.argv[2]))))";
    let ran = Command::new("/usr/bin/python3")
        .args(["-c", program])
        .arg(path)
        .arg(IMAGE_LEN.to_string())
        .output()
        .ok()?;
    ran.status.success().then_some(ran.stdout)
}

/// The answers to lines from a fresh reader, and the image afterwards, the same on both sides.
fn read(own: Board, lines: &[&[u8]]) -> Result<(Vec<u8>, Vec<u8>), Box<dyn Error>> {
    let (mut p, mut r) = (Reader::new(own), hex::fresh(own.number()));
    let (mut image, mut image_r) = (vec![0xFF; IMAGE_LEN], vec![0xFF; IMAGE_LEN]);
    let mut answers = Vec::new();
    for line in lines {
        let ours = p.line(line, &mut image);
        let (next, theirs) = hex::line(r, line, &mut image_r);
        r = next;
        let same = ours.number() == theirs.number && ours.position() == theirs.position;
        check(same, "the answers differ")?;
        answers.push(theirs.number);
    }
    check(image == image_r, "the images differ")?;
    Ok((answers, image))
}

fn digits(line: &[u8], from: usize, n: usize) -> usize {
    let text = std::str::from_utf8(&line[from..from + n]).unwrap_or("0");
    usize::from_str_radix(text, 16).unwrap_or(0)
}

/// The lines of a plain file as V1's section with a small one of V2, and the image that the plain file gives.
fn universal(plain: &[&[u8]]) -> (Vec<Vec<u8>>, Vec<u8>) {
    let mut text = Text::new(b"\n");
    text.open(0, hex::V1, &[]);
    let mut image = vec![0xFF; IMAGE_LEN];
    let mut upper = 0;
    for line in plain {
        match digits(line, 7, 2) {
            4 => upper = digits(line, 9, 4),
            0 => {
                let at = upper << 16 | digits(line, 3, 4);
                for i in 0..digits(line, 1, 2) {
                    if let Some(byte) = image.get_mut(at + i) {
                        *byte = digits(line, 9 + 2 * i, 2) as u8;
                    }
                }
            }
            // 05 and 01 are no part of a section
            _ => continue,
        }
        text.put(line.trim_ascii_end().to_vec());
    }
    text.close(&[]);
    text.open(0, hex::V2, &[]);
    text.put(record(13, 0, &[1, 2]));
    text.close(&[]);
    text.end();
    (text.lines, image)
}
