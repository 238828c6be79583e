//! Links every static library that `tools/target --host` writes to target/staticlib.

use std::path::Path;

fn main() {
    let here = std::env::var("CARGO_MANIFEST_DIR").expect("cargo sets it");
    let folder = Path::new(&here).join("../../target/staticlib");
    println!("cargo:rustc-link-search=native={}", folder.display());
    println!("cargo:rerun-if-changed={}", folder.display());
    let Ok(entries) = folder.read_dir() else {
        return;
    };
    for entry in entries.flatten() {
        let file = entry.file_name().into_string().unwrap_or_default();
        let name = file.strip_prefix("lib").and_then(|f| f.strip_suffix(".a"));
        if let Some(name) = name {
            println!("cargo:rustc-link-lib=static={name}");
            println!("cargo:rerun-if-changed={}", entry.path().display());
        }
    }
}
