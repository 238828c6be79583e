//! A folder for a test, the tool run in it, and files to run it on.

use std::fs;
use std::path::{Path, PathBuf};
use std::process::{Command, Output, Stdio};
use std::sync::atomic::{AtomicU32, Ordering};

/// The tool: that of a release, where VANTOREL_TOOL names it as the tests are built.
pub const TOOL: &str = match option_env!("VANTOREL_TOOL") {
    Some(tool) => tool,
    None => env!("CARGO_BIN_EXE_vantorel"),
};

/// A folder of its own, removed at the end.
pub struct Folder(PathBuf);

/// What the tool did.
pub struct Ran {
    pub status: i32,
    pub out: String,
    pub err: String,
}

impl Folder {
    pub fn new() -> Folder {
        static NEXT: AtomicU32 = AtomicU32::new(0);
        let name = format!(
            "vantorel.{}.{}",
            std::process::id(),
            NEXT.fetch_add(1, Ordering::Relaxed)
        );
        let path = Path::new(env!("CARGO_TARGET_TMPDIR")).join(name);
        fs::create_dir_all(&path).expect("a folder");
        Folder(path)
    }

    pub fn path(&self) -> &Path {
        &self.0
    }

    pub fn put(&self, name: &str, bytes: impl AsRef<[u8]>) {
        fs::write(self.0.join(name), bytes).expect(name);
    }

    pub fn get(&self, name: &str) -> Vec<u8> {
        fs::read(self.0.join(name)).expect(name)
    }

    /// The names of all files, so that what was left behind is seen.
    pub fn names(&self) -> Vec<String> {
        let entries = fs::read_dir(&self.0).expect("a folder");
        let mut names: Vec<String> = entries
            .map(|entry| {
                entry
                    .expect("an entry")
                    .file_name()
                    .to_string_lossy()
                    .into()
            })
            .collect();
        names.sort();
        names
    }

    /// Runs the tool with the words of a line.
    pub fn run(&self, line: &str) -> Ran {
        let words: Vec<&str> = line.split_whitespace().collect();
        let mut command = Command::new(TOOL);
        command
            .args(words)
            .current_dir(&self.0)
            .stdin(Stdio::null());
        told(command.output().expect("the tool runs"))
    }

    /// Runs it, and holds its exit status to one.
    pub fn ends(&self, status: i32, line: &str) -> Ran {
        let ran = self.run(line);
        assert_eq!(ran.status, status, "{line}\n{}{}", ran.out, ran.err);
        ran
    }

    /// Runs it, holds its exit status to 2, its output to nothing, and its error to a sentence.
    pub fn wrong(&self, line: &str, sentence: &str) {
        let ran = self.ends(2, line);
        assert_eq!(ran.err, format!("vantorel: {sentence}\n"), "{line}");
        assert_eq!(ran.out, "", "{line}");
    }
}

impl Drop for Folder {
    fn drop(&mut self) {
        let _ = fs::remove_dir_all(&self.0);
    }
}

pub fn told(output: Output) -> Ran {
    Ran {
        status: output.status.code().expect("an exit status"),
        out: String::from_utf8(output.stdout).expect("text"),
        err: String::from_utf8(output.stderr).expect("text"),
    }
}

/// An image of so many pages, no two of them alike.
pub fn pages(count: usize) -> Vec<u8> {
    let mut state = 1u32;
    let mut next = || {
        state = state.wrapping_mul(1_664_525).wrapping_add(1_013_904_223);
        (state >> 24) as u8
    };
    (0..count * 256).map(|_| next()).collect()
}

/// A block: flags, address, number, total, family, and what fills its 256 bytes.
pub fn block(flags: u32, address: u32, number: u32, total: u32, family: u32, fill: u8) -> Vec<u8> {
    let mut block = vec![0; 512];
    block[32..288].fill(fill);
    let fields = [
        (0, 0x0a32_4655),
        (4, 0x9e5d_5157),
        (8, flags),
        (12, address),
        (16, 256),
        (20, number),
        (24, total),
        (28, family),
        (508, 0x0ab1_6f30),
    ];
    for (at, x) in fields {
        set(&mut block, at, x);
    }
    block
}

/// Sets a field of a block.
pub fn set(block: &mut [u8], at: usize, x: u32) {
    block[at..at + 4].copy_from_slice(&x.to_le_bytes());
}

pub const ARM_S: u32 = 0xe48b_ff59;
pub const RISCV: u32 = 0xe48b_ff5a;
pub const ABSOLUTE: u32 = 0xe48b_ff57;
/// The flag of a family.
pub const FAMILY: u32 = 0x2000;

/// A record of a hex file: its type, its address field and its data.
pub fn record(kind: u8, address: u16, data: &[u8]) -> String {
    let [high, low] = address.to_be_bytes();
    let mut bytes = vec![data.len() as u8, high, low, kind];
    bytes.extend_from_slice(data);
    let sum = bytes.iter().fold(0u8, |sum, b| sum.wrapping_add(*b));
    bytes.push(sum.wrapping_neg());
    let digits: String = bytes.iter().map(|b| format!("{b:02X}")).collect();
    format!(":{digits}\n")
}

/// A plain Intel Hex file that stores bytes from an address on, in records of at most 16 that cross no multiple of 65,536.
pub fn plain(address: u32, bytes: &[u8]) -> String {
    let mut text = String::new();
    let (mut at, mut rest) = (address as usize, bytes);
    while !rest.is_empty() {
        if text.is_empty() || at % 0x1_0000 == 0 {
            text += &record(4, 0, &((at >> 16) as u16).to_be_bytes());
        }
        let (data, after) = rest.split_at(rest.len().min(16).min(0x1_0000 - at % 0x1_0000));
        text += &record(0, at as u16, data);
        (at, rest) = (at + data.len(), after);
    }
    text + ":00000001FF\n"
}

/// The stored inputs of a program: each one's path, and what the program writes.
pub fn stored(program: &str, extension: &str) -> Vec<(PathBuf, String)> {
    let inputs = Path::new(env!("CARGO_MANIFEST_DIR"))
        .join("../../tests")
        .join(program);
    let entries = fs::read_dir(&inputs).expect("inputs").flatten();
    let paths = entries.map(|entry| entry.path());
    let paths = paths.filter(|path| path.extension().is_some_and(|e| e == extension));
    paths
        .map(|path| {
            let wrote = fs::read_to_string(path.with_extension("out")).expect("an output");
            (path, wrote)
        })
        .collect()
}
