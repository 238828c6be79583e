//! The inputs of a call: laid out for libFuzzer, packed into tests/fuzz, and run to see which branches of the reference they reach.
//!
//!     corpus seeds CALL FOLDER     writes the packed inputs of a call, and the stored inputs of tests/, each to a file
//!     corpus pack CALL FOLDER      packs the files of a folder into tests/fuzz/CALL.inputs
//!     corpus run                   runs every packed input of every call
//!     corpus coverage [FOLDER]     the same, or those of FOLDER/CALL, and says which branches of the reference were reached
//!
//! It is run from the root of the repository (tools/fuzz does).

use std::collections::BTreeSet;
use std::fs;
use std::path::Path;
use std::sync::atomic::{AtomicUsize, Ordering::Relaxed};

use fuzz::input::Input;
use fuzz::{pack, packed, Desk, TARGETS};

static COUNTERS: [AtomicUsize; 2] = [AtomicUsize::new(0), AtomicUsize::new(0)];
static PLACES: [AtomicUsize; 2] = [AtomicUsize::new(0), AtomicUsize::new(0)];

/// What an instrumented crate calls before main: where its counters are, a byte to a branch.
#[no_mangle]
extern "C" fn __sanitizer_cov_8bit_counters_init(start: usize, end: usize) {
    COUNTERS[0].store(start, Relaxed);
    COUNTERS[1].store(end, Relaxed);
}

/// And where the code of each branch is: two words, of which the first is its address.
#[no_mangle]
extern "C" fn __sanitizer_cov_pcs_init(start: usize, end: usize) {
    PLACES[0].store(start, Relaxed);
    PLACES[1].store(end, Relaxed);
}

/// The addresses of all branches in the file of the program, and whether each was reached.
fn branches() -> Vec<(usize, bool)> {
    let [start, end] = [0, 1].map(|i| COUNTERS[i].load(Relaxed));
    let places = PLACES[0].load(Relaxed);
    let base = base();
    let branch = |i: usize| {
        // SAFETY: the compiler made a counter and two words for each branch, and they stay.
        let (counter, place) = unsafe {
            let place = (places as *const usize).add(2 * i);
            (std::ptr::read_volatile((start + i) as *const u8), *place)
        };
        (place - base, counter != 0)
    };
    (0..end - start).map(branch).collect()
}

/// Where the program lies in memory.
fn base() -> usize {
    let maps = fs::read_to_string("/proc/self/maps").unwrap_or_default();
    let first = maps.split('-').next().unwrap_or_default();
    usize::from_str_radix(first, 16).unwrap_or(0)
}

fn files(folder: &Path) -> Vec<Vec<u8>> {
    let entries = folder.read_dir().into_iter().flatten().flatten();
    let mut paths: Vec<_> = entries.map(|entry| entry.path()).collect();
    paths.sort();
    let read = |path| fs::read(path).ok();
    paths.into_iter().filter_map(read).collect()
}

/// The inputs of a call that stand in tests/.
fn stored(call: &str) -> Vec<Vec<u8>> {
    fs::read(format!("tests/fuzz/{call}.inputs")).map_or(Vec::new(), |bytes| packed(&bytes))
}

/// A text of settings, from which the fuzzer of the tool goes on.
const SETTINGS: &str = "arm = true\ncurrent = \"arm\"\n[[partition]]\nfirst = 2\nsectors = 64\naccepts = [\"arm-s\", 0x12345678]\n[[partition]]\nfirst = 66\nsectors = 64\naccepts = [\"arm-s\"]\nb-of = 0\nnot-bootable = [\"riscv\"]\n";

/// The command lines of rust/toolfuzz: so many, and an input picks one by its first byte.
const LINES: u8 = 33;

/// Inputs of the tool: each command line with each kind of file, as both of its files. A trace has a byte 14, written, before each block, and 15
/// before the last.
fn tool_seeds() -> Vec<Vec<u8>> {
    let short = |file: &Vec<u8>| file.len() <= 2048;
    let mut kinds: Vec<Vec<u8>> = files(Path::new("tests/hexlines"));
    for blocks in files(Path::new("tests/receive")) {
        let last = blocks.len().div_ceil(512).saturating_sub(1);
        let record = |(k, block): (usize, &[u8])| [&[14 + u8::from(k == last)], block].concat();
        kinds.push(blocks.chunks(512).enumerate().flat_map(record).collect());
        kinds.push(blocks);
    }
    kinds.push(SETTINGS.into());
    kinds.retain(short);
    let mut inputs = Vec::new();
    for line in 0..LINES {
        for file in &kinds {
            let end = (file.len() as u16).to_le_bytes();
            inputs.push([&[line], &end[..], file, file].concat());
        }
    }
    let words = |line: u8| {
        [
            &[128 + line],
            &b"a --flash 32K --json -v -o out --board v1"[..],
        ]
        .concat()
    };
    inputs.extend((0..11).map(words));
    inputs
}

/// The stored inputs of the two programs, as a call takes them: after its lengths a byte 0, which says that a text or a file follows.
fn seeds(call: &str) -> Vec<Vec<u8>> {
    if call == "tool" {
        return tool_seeds();
    }
    let (folder, head): (_, &[u8]) = match call {
        "uhex_line" => ("tests/hexlines", &[0, 100, 0]),
        "uhex_join" => ("tests/hexlines", &[0, 0, 2, 0]),
        "uf2_accept" | "uf2_take_all" | "uf2_why" => ("tests/receive", &[0, 0]),
        "uf2_stands" => ("tests/receive", &[255, 1, 0]),
        "uf2_replay" => ("tests/receive", &[0, 0, 0, 0, 0]),
        "uf2_figures" => ("tests/receive", &[0, 0, 0, 0, 0, 0]),
        _ => ("tests/receive", &[0]),
    };
    let inputs = files(Path::new(folder)).into_iter();
    inputs
        .filter(|file| file.len() <= 4096)
        .map(|file| [head, &file].concat())
        .collect()
}

fn main() -> std::io::Result<()> {
    let words: Vec<String> = std::env::args().skip(1).collect();
    let words: Vec<&str> = words.iter().map(String::as_str).collect();
    match words[..] {
        ["seeds", call, folder] => {
            fs::create_dir_all(folder)?;
            for (i, input) in stored(call).into_iter().chain(seeds(call)).enumerate() {
                fs::write(format!("{folder}/seed-{i:05}"), input)?;
            }
            Ok(())
        }
        ["pack", call, folder] => {
            let inputs: BTreeSet<_> = files(Path::new(folder)).into_iter().collect();
            fs::create_dir_all("tests/fuzz")?;
            fs::write(format!("tests/fuzz/{call}.inputs"), pack(&inputs))
        }
        ["run"] => {
            println!("{} inputs, no difference", run(None));
            Ok(())
        }
        ["coverage"] | ["coverage", _] => {
            println!("{} inputs", run(words.get(1).copied()));
            let branches = branches();
            let reached = branches.iter().filter(|branch| branch.1).count();
            println!("{reached} of {} branches", branches.len());
            for (place, _) in branches.iter().filter(|branch| !branch.1) {
                println!("{place:#x}");
            }
            Ok(())
        }
        _ => {
            eprintln!("corpus: seeds CALL FOLDER, pack CALL FOLDER, run or coverage [FOLDER]");
            std::process::exit(2);
        }
    }
}

/// Runs the inputs of every call: how many there were.
fn run(folder: Option<&str>) -> usize {
    let mut desk = Desk::default();
    let mut number = 0;
    for &(call, target) in TARGETS {
        let inputs = match folder {
            Some(folder) => files(&Path::new(folder).join(call)),
            None => stored(call),
        };
        for input in &inputs {
            target(&mut desk, &mut Input(input));
        }
        number += inputs.len();
    }
    number
}
