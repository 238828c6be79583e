//! `vantorel mark`: sample hand-ins get their marks and their diagnosis, and those that misbehave their sentence.

use crate::common::Folder;

const RIGHT: &str = include_str!("../../../../teaching/samples/right.py");

fn samples() -> Folder {
    let folder = Folder::new();
    folder.ends(0, "mark --samples s");
    folder
}

/// Marks quickly: few random lists, no smaller lists, no bubblewrap.
fn quick(folder: &Folder, status: i32, words: &str) -> String {
    let line = format!("mark --no-bwrap --lists 20 --tries 0 --json {words}");
    folder.ends(status, &line).out
}

#[test]
fn right_samples_hold() {
    let folder = samples();
    for words in [
        "s/right.c",
        "s/right.py",
        "s/right.rs",
        "--hex s/hexright.py",
    ] {
        let told = quick(&folder, 0, words);
        assert!(told.contains("\"verdict\": \"HELD: "), "{told}");
        assert!(told.contains("which is no proof"), "{told}");
        assert!(told.contains("\"diagnosis\": null"), "{told}");
    }
}

/// Each gets its own name, and no other.
#[test]
fn mistakes_are_named() {
    let folder = samples();
    for (id, words) in [
        ("counts-arrivals", "s/counts_arrivals.c"),
        ("counts-arrivals", "s/counts_arrivals.py"),
        ("counts-arrivals", "s/counts_arrivals.rs"),
        ("erases-each-page", "s/erases_each_page.c"),
        ("no-place-discards", "s/no_place_discards.c"),
        ("adds-in-32-bits", "s/adds_in_32_bits.c"),
        ("takes-b-of", "s/takes_b_of.c"),
        ("seen-not-cleared", "s/seen_not_cleared.c"),
        ("invented-count", "s/invented_count.py"),
        ("hex-other-section", "--hex s/hex_other_section.py"),
    ] {
        let told = quick(&folder, 1, words);
        let wanted = format!("\"mistakes\": [\"{id}\"]");
        assert!(
            told.contains(&wanted) && told.contains("\"whole\": true"),
            "{words}: {told}"
        );
    }
}

#[test]
fn hand_ins_that_misbehave() {
    let folder = Folder::new();
    let with = |find: &str, with: &str| RIGHT.replacen(find, with, 1);
    let flags = "    if flags & 0x1000: return 5, 0\n";
    let head = "print(\"arrival answer discarded\")\n";
    let last = |words: &str| RIGHT.to_string() + words;
    for (name, text, said) in [
        (
            "loops.py",
            with(flags, "    while flags & 0x1000: pass\n"),
            "No end within",
        ),
        (
            "crashes.py",
            with("    room = place", "    1 // tot\n    room = place"),
            "ZeroDivisionError",
        ),
        (
            "talks.py",
            with(head, "print(\"Hello\")\n"),
            "the first line is not 'arrival answer discarded' but 'Hello'",
        ),
        (
            "floods.py",
            with(head, "while True: print(\"x\" * 10000)\n"),
            "More than 1,048,576 bytes of output",
        ),
        ("ends.py", last("sys.exit(3)\n"), "It ended with status 3"),
    ] {
        folder.put(name, text);
        let line = format!("mark --no-bwrap --lists 0 --tries 0 {name}");
        let told = folder
            .ends(1, &line)
            .out
            .replace("\n    ", " ")
            .replace("\n  ", " ")
            .to_lowercase();
        assert!(told.contains(&said.to_lowercase()), "{name}: {told}");
    }
    let forks = last(
        "import subprocess\nsubprocess.Popen([\"sleep\", \"77.7\"], start_new_session=True)\n",
    );
    folder.put("forks.py", forks);
    let told = folder
        .ends(1, "mark --no-bwrap --only lost-page forks.py")
        .out;
    assert!(
        told.contains("It left processes running after 1 list; they were ended."),
        "{told}"
    );
    let left = std::process::Command::new("pgrep")
        .args(["-f", "^sleep 77.7"])
        .output();
    assert!(left.is_ok_and(|left| left.stdout.is_empty()));
}

#[test]
fn wrong_command_lines() {
    let folder = Folder::new();
    folder.put("notes.txt", "nothing");
    folder.put("broken.c", "int uf2_take(\n");
    folder.wrong("mark none.py", "none.py: there is no such hand-in");
    assert!(folder
        .ends(2, "mark notes.txt")
        .err
        .contains("it is not executable"));
    assert!(folder
        .ends(1, "mark broken.c")
        .out
        .contains("NOT MARKED: it does not compile."));
    assert!(folder
        .ends(2, "mark notes.txt --set 02")
        .err
        .contains("--set is of 01"));
    assert!(folder
        .ends(0, "mark --cases")
        .out
        .contains("lost-page, point 3\n"));
}

/// A class: a table, a sheet for each, and lists that the other commands open.
#[test]
fn a_class() {
    let folder = samples();
    for name in ["right.c", "counts_arrivals.c", "erases_each_page.c"] {
        std::fs::create_dir_all(folder.path().join("class")).expect("a folder");
        let from = folder.path().join("s").join(name);
        std::fs::copy(from, folder.path().join("class").join(name)).expect(name);
    }
    folder.put(
        "class/bert.py",
        RIGHT.replacen("    if same and num in seen: return 13, 0\n", "", 1),
    );
    let told = folder
        .ends(1, "mark --class class --lists 20 --no-bwrap --out marks")
        .out;
    assert!(told.contains("4 hand-ins: 1 holds all points."), "{told}");
    assert!(told.contains("Commonest: It counts arrivals, 2;"), "{told}");
    let sheet = String::from_utf8(folder.get("marks/bert/sheet.html")).expect("text");
    assert!(sheet.contains("It counts arrivals.") && sheet.contains("and not a proof"));
    assert!(folder.get("marks/class.csv").starts_with(b"student,form,"));
    let replayed = folder
        .ends(1, "replay marks/bert/lost-page.trace --flash 32K")
        .out;
    assert!(replayed.contains("record 1"), "{replayed}");
    folder.ends(1, "load marks/bert/lost-page.uf2 --flash 32K");
}
