//! Finds the proved static library, libvantorel.a, and links it. Its folder is the first of these:
//!
//! - the one that VANTOREL_LIB_DIR names;
//! - `target/MACHINE` of the repository, as `tools/target` writes it;
//! - `lib/MACHINE` of this package, as a release has it.

use std::env;
use std::path::{Path, PathBuf};
use std::process::exit;

const LIBRARY: &str = "libvantorel.a";

/// The folder of a target's library, and the word for `tools/target` that writes it.
fn machine(target: &str) -> Option<(&'static str, &'static str)> {
    Some(match target {
        "x86_64-unknown-linux-gnu" | "x86_64-unknown-linux-musl" => ("staticlib", "--host"),
        "x86_64-pc-windows-gnu" | "x86_64-pc-windows-gnullvm" => ("windows", "windows"),
        "thumbv8m.main-none-eabi" => ("cortex-m33", "cortex-m33"),
        "riscv32imac-unknown-none-elf" => ("rv32imac", "rv32imac"),
        "aarch64-unknown-none" | "aarch64-unknown-none-softfloat" => ("aarch64", "aarch64"),
        "wasm32-unknown-unknown" => ("wasm", "wasm"),
        _ => return None,
    })
}

/// The folder of the library for a target, where the package stands here and VANTOREL_LIB_DIR is this; or what to do, in a sentence.
pub fn folder(target: &str, here: &Path, said: Option<PathBuf>) -> Result<PathBuf, String> {
    if let Some(said) = said {
        return match said.join(LIBRARY).is_file() {
            true => Ok(said),
            false => Err(format!(
                "VANTOREL_LIB_DIR is {}, which has no {LIBRARY}",
                said.display()
            )),
        };
    }
    let Some((name, word)) = machine(target) else {
        return Err(format!(
            "the proved library is not built for {target}: VANTOREL_LIB_DIR may name a folder that has {LIBRARY}"
        ));
    };
    // in the repository never a copy that somebody left in lib/
    let root = here.join("../..");
    let folder = match root.join("tools/target").is_file() {
        true => root.join("target").join(name),
        false => here.join("lib").join(name),
    };
    match folder.join(LIBRARY).is_file() {
        true => Ok(folder),
        false => Err(format!(
            "the proved library for {target} is missing: `tools/target {word}` in the repository proves it and writes target/{name}/{LIBRARY}, or VANTOREL_LIB_DIR names a folder that has it"
        )),
    }
}

fn main() {
    println!("cargo:rerun-if-env-changed=VANTOREL_LIB_DIR");
    // a machine that only writes the documentation links nothing
    if env::var_os("DOCS_RS").is_some() {
        return;
    }
    let target = env::var("TARGET").expect("cargo sets it");
    let here = PathBuf::from(env::var_os("CARGO_MANIFEST_DIR").expect("cargo sets it"));
    let said = env::var_os("VANTOREL_LIB_DIR").map(PathBuf::from);
    match folder(&target, &here, said) {
        Ok(folder) => {
            println!("cargo:rustc-link-search=native={}", folder.display());
            println!("cargo:rustc-link-lib=static=vantorel");
            println!("cargo:rerun-if-changed={}", folder.join(LIBRARY).display());
        }
        Err(why) => {
            eprintln!("{why}");
            exit(1);
        }
    }
}
