//! Links of README.md, CHANGELOG.md and docs/ lead somewhere.

use std::fs;
use std::path::{Path, PathBuf};

fn pages() -> Vec<PathBuf> {
    let root = Path::new(env!("CARGO_MANIFEST_DIR")).join("../..");
    let mut pages = vec![root.join("README.md"), root.join("CHANGELOG.md")];
    for folder in ["docs", "docs/landings", "tests"] {
        let entries = fs::read_dir(root.join(folder)).expect(folder);
        let paths = entries.map(|entry| entry.expect("a file").path());
        pages.extend(paths.filter(|path| path.extension().is_some_and(|e| e == "md")));
    }
    pages
}

/// The heading's anchor: its words in lower case with dashes between them.
fn anchors(text: &str) -> Vec<String> {
    let heads = text.lines().filter(|line| line.starts_with('#'));
    let plain = |c: &char| c.is_alphanumeric() || " -_".contains(*c);
    heads
        .map(|line| {
            let words = line.trim_start_matches('#').trim().to_lowercase();
            words
                .chars()
                .filter(plain)
                .collect::<String>()
                .replace(' ', "-")
        })
        .collect()
}

#[test]
fn links_lead_somewhere() {
    let mut count = 0;
    for page in pages() {
        let text = fs::read_to_string(&page).expect("a page");
        for part in text.split("](").skip(1) {
            let link = part.split(')').next().unwrap_or_default();
            if link.contains("://") || link.contains(' ') || link.is_empty() {
                continue;
            }
            let (name, anchor) = link.split_once('#').unwrap_or((link, ""));
            let to = match name {
                "" => page.clone(),
                _ => page.parent().expect("a folder").join(name),
            };
            assert!(to.exists(), "{}: {link}", page.display());
            if !anchor.is_empty() && to.is_file() {
                let known = anchors(&fs::read_to_string(&to).expect("a page"));
                assert!(
                    known.iter().any(|known| known == anchor),
                    "{}: {link}",
                    page.display()
                );
            }
            count += 1;
        }
    }
    assert!(count > 50, "{count}");
}
