//! No output of a command is one of its inputs or another output, by path, by link or under another name.

use crate::common::{plain, Folder};
use crate::load::blink;
use crate::settings::TEXT;
use std::fs;

/// A folder with an input of every kind, and a name of each kind beside it.
fn folder() -> Folder {
    let folder = blink();
    folder.put("board.toml", TEXT);
    folder.ends(0, "settings pack board.toml -o board.store");
    folder.put("before", [0x55; 4096]);
    folder.put("v1.hex", plain(0, &[1; 16]));
    folder.put("v2.hex", plain(0, &[2; 16]));
    folder.ends(0, "join v1.hex v2.hex -o both.hex");
    fs::create_dir(folder.path().join("folder")).expect("a folder");
    folder
}

/// Every command that writes, with each of its outputs and each of its inputs: `IN` is the input, `OUT` the output.
const LINES: &[(&str, &str)] = &[
    ("blink.uf2", "load IN --image OUT"),
    ("blink.uf2", "load IN --record OUT"),
    ("board.store", "load blink.uf2 --settings IN --image OUT"),
    ("board.store", "load blink.uf2 --settings IN --record OUT"),
    ("before", "load blink.uf2 --start-image IN --image OUT"),
    ("before", "load blink.uf2 --start-image IN --record OUT"),
    (
        "blink.bin",
        "make IN -o OUT --family arm-s --start 0x10000000",
    ),
    ("both.hex", "hex IN --board v1 --image OUT"),
    ("v1.hex", "join IN v2.hex -o OUT"),
    ("v2.hex", "join v1.hex IN -o OUT"),
    ("board.toml", "settings pack IN -o OUT"),
];

/// Runs a line with one file under two names, and holds the file to its bytes.
fn kept(folder: &Folder, line: &str, input: &str, output: &str) {
    let before = folder.get(input);
    let line = line.replace("IN", input).replace("OUT", output);
    folder.wrong(
        &line,
        &format!("the output {output} is the same file as the input {input}; give the output another name"),
    );
    assert!(folder.get(input) == before, "{line}");
}

#[test]
fn no_output_is_an_input() {
    let folder = folder();
    for (input, line) in LINES {
        kept(&folder, line, input, input);
        kept(&folder, line, input, &format!("./{input}"));
        kept(&folder, line, input, &format!("folder/../{input}"));
        kept(&folder, line, &format!("./{input}"), input);
    }
}

#[cfg(unix)]
#[test]
fn no_output_is_an_input_by_a_link() {
    let folder = folder();
    let path = |name: &str| folder.path().join(name);
    for (input, line) in LINES {
        std::os::unix::fs::symlink(input, path("symbolic")).expect("a link");
        fs::hard_link(path(input), path("hard")).expect("a link");
        for link in ["symbolic", "hard"] {
            kept(&folder, line, input, link);
            kept(&folder, line, link, input);
            fs::remove_file(path(link)).expect(link);
        }
    }
}

#[test]
fn no_two_outputs_are_one() {
    let folder = folder();
    folder.put("old", [1]);
    for (one, two) in [
        ("new", "new"),
        ("new", "./new"),
        ("folder/new", "folder/../folder/new"),
        ("old", "folder/../old"),
    ] {
        folder.wrong(
            &format!("load blink.uf2 --image {one} --record {two}"),
            &format!(
                "the outputs {one} and {two} are the same file; give one of them another name"
            ),
        );
    }
    assert_eq!(folder.get("old"), [1]);
    assert!(!folder.names().contains(&"new".to_string()));
}

/// A word of a command is no file: a store may be called pack.
#[test]
fn a_store_of_the_name_of_a_word() {
    let folder = folder();
    folder.ends(0, "settings pack board.toml -o pack");
    assert!(folder.get("pack") == folder.get("board.store"));
}

/// A folder of traces is as many inputs as it has files.
#[test]
fn no_output_is_a_trace_of_a_folder() {
    let folder = folder();
    folder.ends(0, "load blink.uf2 --record folder/a.trace");
    let before = folder.get("folder/a.trace");
    for output in ["folder/a.trace", "./folder/../folder/a.trace"] {
        folder.wrong(
            &format!("figures folder --flash 16K --save {output}"),
            &format!("the output {output} is the same file as the input folder/a.trace; give the output another name"),
        );
    }
    assert!(folder.get("folder/a.trace") == before);
    folder.ends(0, "figures folder --flash 16K --save folder/a.part");
    let ran = folder.ends(2, "figures --merge folder/a.part --save folder/a.part");
    assert!(
        ran.err.contains("is the same file as the input"),
        "{}",
        ran.err
    );
}
