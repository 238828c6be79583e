//! One version: that of the workspace. Headers, packages, changelog and tool say the same.

use crate::common::Folder;
use std::fs;
use std::path::{Path, PathBuf};

const VERSION: &str = env!("CARGO_PKG_VERSION");

fn root() -> PathBuf {
    Path::new(env!("CARGO_MANIFEST_DIR")).join("../..")
}

fn text(name: &str) -> String {
    fs::read_to_string(root().join(name)).expect(name)
}

#[test]
fn of_the_headers() {
    let header = text("include/uf2_len.h");
    let said = |name: &str| {
        let head = format!("#define VANTOREL_VERSION{name} ");
        let line = header.lines().find_map(|line| line.strip_prefix(&head));
        line.expect(name).to_string()
    };
    let parts = [said("_MAJOR"), said("_MINOR"), said("_PATCH")];
    assert_eq!(parts.join("."), VERSION);
    assert_eq!(said("_STRING"), format!("\"{VERSION}\""));
    let sum =
        "(VANTOREL_VERSION_MAJOR * 10000 + VANTOREL_VERSION_MINOR * 100 + VANTOREL_VERSION_PATCH)";
    assert_eq!(said(""), sum);
    // two digits each, so that no two versions are one number
    for part in &parts[1..] {
        assert!(part.parse::<u32>().expect("a number") < 100);
    }
    let call = "uint32_t uf2_version(void) {\n    return VANTOREL_VERSION;\n}";
    assert!(header.contains(call));
}

/// Every header has the macros, by the one that defines them.
#[test]
fn of_every_header() {
    for entry in fs::read_dir(root().join("include")).expect("include/") {
        let name = entry.expect("a file").file_name();
        let name = name.to_string_lossy();
        if name.ends_with(".h") && name != "uf2_len.h" {
            let header = text(&format!("include/{name}"));
            let from = ["uf2_len.h", "uf2_receiver.h", "vantorel.h"]
                .map(|of| format!("#include \"{of}\""));
            assert!(from.iter().any(|line| header.contains(line)), "{name}");
        }
    }
}

#[test]
fn of_the_packages() {
    assert_eq!(proved::VERSION, VERSION);
    for entry in fs::read_dir(root().join("rust")).expect("rust/") {
        let manifest = entry.expect("a folder").path().join("Cargo.toml");
        if let Ok(manifest) = fs::read_to_string(&manifest) {
            assert!(manifest.contains("\nversion.workspace = true\n"));
        }
    }
}

/// The changelog begins with this version and its day, and goes down from there.
#[test]
fn of_the_changelog() {
    let changes = text("CHANGELOG.md");
    let heads: Vec<&str> = changes
        .lines()
        .filter_map(|line| line.strip_prefix("## "))
        .collect();
    let number = |head: &str| -> Vec<u32> {
        let (version, day) = head.split_once(" - ").expect(head);
        let plain = |text: &str| {
            text.chars()
                .map(|c| if c.is_ascii_digit() { '0' } else { c })
                .collect::<String>()
        };
        assert_eq!(plain(day), "0000-00-00", "{head}");
        let parts = version
            .split('.')
            .map(|part| part.parse().expect("a number"));
        parts.collect()
    };
    assert!(heads[0].starts_with(&format!("{VERSION} - ")));
    for pair in heads.windows(2) {
        assert!(number(pair[0]) > number(pair[1]), "{pair:?}");
    }
    for k in 1..=14 {
        let named = format!("(L{k})");
        assert_eq!(changes.matches(&named).count(), 1, "{named}");
    }
}

/// README names the package of this version, and INSTALL.md a version that CMake finds.
#[test]
fn of_the_pages() {
    assert!(text("README.md").contains(&format!("vantorel_{VERSION}_amd64.deb")));
    let (minor, _) = VERSION.rsplit_once('.').expect("three numbers");
    let asked = format!("find_package(vantorel {minor} REQUIRED)");
    assert!(text("docs/INSTALL.md").contains(&asked));
}

#[test]
fn of_the_tool() {
    let folder = Folder::new();
    let ran = folder.ends(0, "--version");
    let said: Vec<&str> = ran.out.split_whitespace().take(2).collect();
    assert_eq!(said, ["vantorel", VERSION]);
    assert_eq!(ran.out.lines().count(), 1);
    assert_eq!(folder.ends(0, "-V").out, ran.out);
    folder.wrong(
        "--version load",
        "no command '--version'; `vantorel --help` lists them",
    );
}
