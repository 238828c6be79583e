//! Where build.rs finds the library, and what it says where there is none.

#[allow(dead_code)]
#[path = "../build.rs"]
mod build;

use build::folder;
use std::fs;
use std::path::{Path, PathBuf};

const LINUX: &str = "x86_64-unknown-linux-gnu";
const CORTEX: &str = "thumbv8m.main-none-eabi";

/// A package in a folder of its own, with a library under each of these paths.
fn package(name: &str, libraries: &[&str]) -> PathBuf {
    let root = Path::new(env!("CARGO_TARGET_TMPDIR")).join(name);
    let _ = fs::remove_dir_all(&root);
    fs::create_dir_all(root.join("rust/proved")).expect("a folder");
    for path in libraries {
        let path = root.join(path);
        fs::create_dir_all(path.parent().expect("a folder")).expect("a folder");
        fs::write(path, "").expect("a file");
    }
    root.join("rust/proved")
}

#[test]
fn of_a_release() {
    let here = package("released", &["rust/proved/lib/cortex-m33/libvantorel.a"]);
    assert_eq!(folder(CORTEX, &here, None), Ok(here.join("lib/cortex-m33")));
    let said = here.join("lib/cortex-m33");
    assert_eq!(folder("any", &here, Some(said.clone())), Ok(said));
}

/// What was just proved wins over a copy that somebody left.
#[test]
fn of_the_repository() {
    let paths = ["tools/target", "rust/proved/lib/staticlib/libvantorel.a"];
    let here = package("unproved", &paths);
    assert!(folder(LINUX, &here, None).is_err());
    let paths = [paths[0], paths[1], "target/staticlib/libvantorel.a"];
    let here = package("repository", &paths);
    assert_eq!(
        folder(LINUX, &here, None),
        Ok(here.join("../../target/staticlib"))
    );
}

#[test]
fn of_no_library() {
    let here = package("empty", &[]);
    let told = folder(CORTEX, &here, None).expect_err("none");
    assert_eq!(told, "the proved library for thumbv8m.main-none-eabi is missing: `tools/target cortex-m33` in the repository proves it and writes target/cortex-m33/libvantorel.a, or VANTOREL_LIB_DIR names a folder that has it");
    let told = folder(LINUX, &here, None).expect_err("none");
    assert!(told.contains("`tools/target --host`"), "{told}");
    let told = folder(LINUX, &here, Some("/nowhere".into())).expect_err("none");
    assert_eq!(
        told,
        "VANTOREL_LIB_DIR is /nowhere, which has no libvantorel.a"
    );
    let told = folder("sparc-unknown-none-elf", &here, None).expect_err("none");
    assert!(
        told.starts_with("the proved library is not built for sparc-unknown-none-elf:"),
        "{told}"
    );
}
