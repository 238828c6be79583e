//! Every command of the tool that reads a file, on one input at a time, in this process: it ends with status 0, 1 or 2, it does not panic, and it
//! leaves no file half written.
//!
//! libFuzzer hands over the inputs, guided by the branches of the tool (tools/fuzz tool). An input is a byte that picks a command line of [`LINES`],
//! two bytes that say where the first file ends, and the bytes of two files, `a` and `b`. After a byte from 128 on, the bytes are the words of
//! the command line themselves. What is wrong ends the process with a sentence.

use std::ffi::OsString;
use std::fs::{self, File};
use std::io::{Read, Seek, SeekFrom};
use std::os::fd::AsRawFd;
use std::panic::{catch_unwind, AssertUnwindSafe};
use std::path::{Path, PathBuf};

/// The command lines. `out` and `out.trace` are what they write. New ones go to the end: kept inputs pick by number.
pub const LINES: &[&str] = &[
    "load a --image out --record out.trace",
    "load a -v --flash 32K --shuffle 3 --repeat 2 --json",
    "load a --arm --riscv --auto-switch --main-ram --xip-ram -v --image out",
    "load a --settings b --record out.trace",
    "load a --start-image b --flash 8K --drop 0,2-3",
    "check a",
    "check a --json",
    "check a --settings b",
    "check a --flash 8K --main-ram --xip-ram",
    "why a -v",
    "why a --json",
    "why a --block 1 --settings b",
    "why place arm-s --settings a",
    "tags a",
    "tags a --json",
    "replay a --flash 32K",
    "replay a --main-ram --xip-ram --json",
    "replay a b --jobs 1 --settings b",
    "figures a b --flash 32K --jobs 1 --save out",
    "figures a --flash 8K --jobs 1 --json",
    "figures --merge a b --save out",
    "figures --merge a --json",
    "hex a --board v1 --image out",
    "hex a --board v2 --bytes 4096 -v",
    "hex a --board v2 --json",
    "join a b -o out",
    "join a b -o out --json",
    "make a -o out --family arm-s --start 0x10000000 --pad 0xFF",
    "make a -o out --family data --start 0x11fff000 --regions --json",
    "settings show a",
    "settings show a --flash 64K --json",
    "settings pack a -o out",
    "settings pack a -o out --flash 64K --json",
];

/// The commands whose words an input may say: `mark` would run what it is handed.
const COMMANDS: [&str; 11] = [
    "load", "check", "why", "tags", "replay", "figures", "hex", "join", "make", "settings", "help",
];

/// What stands under the name of an output before.
const OLD: &[u8] = b"what was there before";

/// A folder of its own, in which the tool runs, and a file for what it says.
pub struct Desk {
    said: File,
}

extern "C" {
    fn dup(fd: i32) -> i32;
    fn dup2(from: i32, to: i32) -> i32;
    fn close(fd: i32) -> i32;
}

/// What a run came to.
struct Ran {
    status: Option<u8>,
    said: Vec<u8>,
}

impl Desk {
    /// Goes into a folder, which is made where it is not there.
    pub fn new(folder: &Path) -> std::io::Result<Desk> {
        fs::create_dir_all(folder)?;
        let mut said = PathBuf::from(folder);
        said.as_mut_os_string().push(".said");
        let said = File::options()
            .read(true)
            .write(true)
            .create(true)
            .truncate(true)
            .open(said)?;
        std::env::set_current_dir(folder)?;
        let nothing = File::open("/dev/null")?;
        // SAFETY: numbers of open files alone. Standard input is empty from here on.
        unsafe { dup2(nothing.as_raw_fd(), 0) };
        Ok(Desk { said })
    }

    /// Runs an input: a sentence where something is wrong.
    pub fn run(&mut self, input: &[u8]) -> Result<(), String> {
        let (words, files) = read(input);
        lay(&files).map_err(|why| format!("the files cannot be laid out: {why}"))?;
        let ran = self.tool(&words);
        // words may name a file as an output, which is then another one
        let fixed = input.first().is_none_or(|pick| *pick < 128);
        let wrong = wrong(&ran)
            .or_else(part)
            .or_else(|| match (fixed, ran.status) {
                (true, Some(status)) => left(status, &files),
                _ => None,
            });
        clear().map_err(|why| format!("the folder cannot be cleared: {why}"))?;
        match wrong {
            None => Ok(()),
            Some(why) => Err(format!(
                "vantorel {}\n{why}\nit said:\n{}",
                words.join(" "),
                String::from_utf8_lossy(&ran.said)
            )),
        }
    }

    /// Runs the tool; what it writes to standard output and standard error goes to a file.
    fn tool(&mut self, words: &[String]) -> Ran {
        let trouble = "the file for what is said";
        self.said.set_len(0).expect(trouble);
        self.said.seek(SeekFrom::Start(0)).expect(trouble);
        // SAFETY: numbers of open files alone; 1 and 2 are what they were afterwards.
        let kept = unsafe {
            let kept = [dup(1), dup(2)];
            dup2(self.said.as_raw_fd(), 1);
            dup2(self.said.as_raw_fd(), 2);
            kept
        };
        let words = words.iter().map(OsString::from);
        let status = catch_unwind(AssertUnwindSafe(|| cli::status(words))).ok();
        // SAFETY: as above.
        unsafe {
            for (fd, to) in kept.into_iter().zip([1, 2]) {
                dup2(fd, to);
                close(fd);
            }
        }
        let mut said = Vec::new();
        self.said.seek(SeekFrom::Start(0)).expect(trouble);
        self.said.read_to_end(&mut said).expect(trouble);
        Ran { status, said }
    }
}

/// The words and the two files of an input.
fn read(input: &[u8]) -> (Vec<String>, [Vec<u8>; 2]) {
    let (&pick, rest) = input.split_first().unwrap_or((&0, &[]));
    if pick >= 128 {
        return (said(pick, rest), [Vec::new(), Vec::new()]);
    }
    let (end, rest) = rest.split_first_chunk().unwrap_or((&[0xFF; 2], rest));
    let end = usize::from(u16::from_le_bytes(*end)).min(rest.len());
    let (a, b) = rest.split_at(end);
    let line = LINES[usize::from(pick) % LINES.len()];
    let words = line.split(' ').map(String::from).collect();
    (words, [a.to_vec(), b.to_vec()])
}

/// The words that an input says. No name leads out of the folder.
fn said(pick: u8, text: &[u8]) -> Vec<String> {
    let command = COMMANDS[usize::from(pick) % COMMANDS.len()];
    let text = String::from_utf8_lossy(text).replace(['/', '\\'], "_");
    let words = text.split([' ', '\0']).map(String::from);
    std::iter::once(command.to_string()).chain(words).collect()
}

fn lay(files: &[Vec<u8>; 2]) -> std::io::Result<()> {
    for (name, bytes) in [("a", &*files[0]), ("b", &files[1]), ("out", OLD)] {
        fs::write(name, bytes)?;
    }
    Ok(())
}

fn clear() -> std::io::Result<()> {
    for entry in fs::read_dir(".")? {
        let path = entry?.path();
        // the three that are laid out are written over
        if !["./a", "./b", "./out"]
            .iter()
            .any(|name| path == Path::new(name))
        {
            fs::remove_file(path)?;
        }
    }
    Ok(())
}

/// What is wrong with a run.
fn wrong(ran: &Ran) -> Option<String> {
    let Some(status) = ran.status else {
        return Some("it panicked".into());
    };
    if status > 2 {
        return Some(format!("it ended with status {status}"));
    }
    if status != 0 && ran.said.is_empty() {
        return Some(format!("it said nothing and ended with status {status}"));
    }
    let harmful = |c: char| c.is_control() && c != '\n';
    match std::str::from_utf8(&ran.said) {
        Err(_) => Some("it said what is no text in UTF-8".into()),
        Ok(said) if said.contains(harmful) => Some("it said a control character".into()),
        Ok(_) => None,
    }
}

/// A part of a file that is left, as the tool names it while it writes.
fn part() -> Option<String> {
    let names = fs::read_dir(".").ok()?.flatten();
    let mut names = names.filter_map(|entry| entry.file_name().into_string().ok());
    let name = names.find(|name| name.starts_with(".vantorel.part"))?;
    Some(format!("{name} is left"))
}

/// What is wrong with the files that are there afterwards: inputs stay, and with status 2 an output is as it was.
fn left(status: u8, files: &[Vec<u8>; 2]) -> Option<String> {
    for (name, bytes) in ["a", "b"].iter().zip(files) {
        if fs::read(name).ok().as_ref() != Some(bytes) {
            return Some(format!("the input {name} is another one"));
        }
    }
    let out = fs::read("out").ok();
    (status == 2 && out.as_deref() != Some(OLD)).then(|| "it failed, and wrote the output".into())
}

/// What libFuzzer calls with each input. The environment names the folder: FUZZ_FOLDER.
///
/// # Safety
/// `data` points to `size` bytes.
#[no_mangle]
pub unsafe extern "C" fn LLVMFuzzerTestOneInput(data: *const u8, size: usize) -> i32 {
    use std::cell::RefCell;
    thread_local! {
        static DESK: RefCell<Option<Desk>> = const { RefCell::new(None) };
    }
    let bytes = if size == 0 {
        &[]
    } else {
        // SAFETY: libFuzzer says so.
        unsafe { std::slice::from_raw_parts(data, size) }
    };
    DESK.with_borrow_mut(|desk| {
        let desk = desk.get_or_insert_with(|| {
            let folder = std::env::var_os("FUZZ_FOLDER").expect("FUZZ_FOLDER names a folder");
            Desk::new(Path::new(&folder)).expect("a folder")
        });
        if let Err(why) = desk.run(bytes) {
            // a panic here would run into C
            eprintln!("{why}");
            std::process::abort();
        }
    });
    0
}
