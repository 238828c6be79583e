//! Every input that a fuzzer found and that is kept (tests/fuzz), and some of any bytes: no call differs from the reference. A call that differs ends
//! the test, and so does one that the headers have and no target.

use std::path::{Path, PathBuf};

use fuzz::input::Input;
use fuzz::{packed, Desk, NAMES, TARGETS};

fn root() -> PathBuf {
    Path::new(env!("CARGO_MANIFEST_DIR")).join("../..")
}

#[test]
fn inputs_that_were_found() {
    let mut desk = Desk::default();
    for &(call, target) in TARGETS {
        let file = root().join(format!("tests/fuzz/{call}.inputs"));
        let inputs = packed(&std::fs::read(&file).unwrap_or_default());
        assert!(!inputs.is_empty(), "{} has none", file.display());
        for input in inputs {
            target(&mut desk, &mut Input(&input));
        }
    }
}

#[test]
fn inputs_of_any_bytes() {
    let mut desk = Desk::default();
    let mut seed = 1u64;
    for &(_, target) in TARGETS {
        for i in 0..2_000 {
            let mut input = Vec::new();
            for _ in 0..i % 200 {
                seed = seed
                    .wrapping_mul(6_364_136_223_846_793_005)
                    .wrapping_add(99);
                // small numbers as often as any
                let byte = (seed >> 33) as u8;
                input.push(if seed >> 63 == 0 { byte } else { byte % 8 });
            }
            target(&mut desk, &mut Input(&input));
        }
    }
}

/// The calls of include/*.h, as tests/board/run reads them.
#[test]
fn every_call_of_the_headers() {
    let calls: Vec<&str> = TARGETS.iter().map(|(call, _)| *call).collect();
    assert_eq!(calls, NAMES, "each call has a target");
    for entry in root()
        .join("include")
        .read_dir()
        .expect("include")
        .flatten()
    {
        let path = entry.path();
        if path.extension().is_none_or(|extension| extension != "h") {
            continue;
        }
        let text = std::fs::read_to_string(&path).expect("a header");
        let starts = |line: &&str| line.starts_with(|c: char| c.is_ascii_lowercase());
        let lines = text
            .lines()
            .filter(starts)
            .filter(|line| !line.starts_with("static"));
        for line in lines {
            let Some((before, _)) = line.split_once('(') else {
                continue;
            };
            let call = before.rsplit(' ').next().unwrap_or_default();
            assert!(
                calls.contains(&call),
                "{call} of {} has no target",
                path.display()
            );
        }
    }
}
