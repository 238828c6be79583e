//! Real files, where they are installed: the UF2 files of Debian's package `snek` and the Intel Hex file of `firmware-microbit-micropython`.
//! `REAL_FILES` names another place than /usr/share.

use crate::common::{set, Folder, ARM_S};
use std::path::{Path, PathBuf};

fn files(folder: &str, extension: &str) -> Vec<PathBuf> {
    let root = std::env::var("REAL_FILES").unwrap_or_else(|_| "/usr/share".into());
    let folder = Path::new(&root).join(folder);
    let Ok(entries) = std::fs::read_dir(&folder) else {
        println!("nothing in {}: left out", folder.display());
        return Vec::new();
    };
    let found = entries.flatten().map(|entry| entry.path());
    found
        .filter(|path| path.extension().is_some_and(|e| e == extension))
        .collect()
}

fn read(path: &Path) -> Vec<u8> {
    std::fs::read(path).expect("a file")
}

/// They name no family; with one, and the window's addresses, they load.
#[test]
fn files_of_snek() {
    for path in files("snek", "uf2") {
        let folder = Folder::new();
        let mut file = read(&path);
        folder.put("snek.uf2", &file);
        let ran = folder.ends(1, "load snek.uf2");
        assert!(ran.out.contains("the block names no family"), "{}", ran.out);
        folder.ends(0, "tags snek.uf2");
        for block in file.chunks_exact_mut(512) {
            let address = u32::from_le_bytes([block[12], block[13], block[14], block[15]]);
            let flags = u32::from_le_bytes([block[8], block[9], block[10], block[11]]);
            set(block, 8, flags | 0x2000);
            set(block, 12, address | 0x1000_0000);
            set(block, 28, ARM_S);
        }
        folder.put("given.uf2", &file);
        folder.ends(
            0,
            "load given.uf2 --shuffle 1 --repeat 2 --image a.bin --record t.trace",
        );
        folder.ends(0, "load given.uf2 --image b.bin");
        assert!(
            folder.get("a.bin") == folder.get("b.bin"),
            "{}",
            path.display()
        );
        folder.ends(0, "replay t.trace");
        folder.ends(1, "load given.uf2 --drop 1");
    }
}

/// A plain file is refused as a universal one; joined for both boards, both read the same.
#[test]
fn the_file_of_micropython() {
    for path in files("firmware-microbit-micropython", "hex") {
        let folder = Folder::new();
        folder.put("plain.hex", read(&path));
        folder.ends(1, "hex plain.hex --board v1");
        folder.ends(0, "join plain.hex plain.hex -o both.hex");
        for board in ["v1", "v2"] {
            let ran = folder.run(&format!(
                "hex both.hex --board {board} --bytes 256K --image {board}.bin"
            ));
            assert!(
                ran.out.contains("the file was read to its end"),
                "{}",
                ran.out
            );
            assert_eq!(
                ran.status == 1,
                ran.out.contains("left out: line "),
                "{}",
                ran.out
            );
        }
        assert!(
            folder.get("v1.bin") == folder.get("v2.bin"),
            "{}",
            path.display()
        );
    }
}
