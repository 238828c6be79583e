//! What `--json` prints: one line that is JSON, and its values.

use crate::common::{plain, Folder};
use crate::load::blink;
use crate::settings;
use crate::tags::display;
use std::io::Write;
use std::process::{Command, Stdio};

/// Whether Python takes it as JSON; true where there is no Python.
fn is_json(text: &str) -> bool {
    let python = Command::new("python3")
        .args(["-m", "json.tool"])
        .stdin(Stdio::piped())
        .stdout(Stdio::null())
        .spawn();
    let Ok(mut python) = python else {
        return true;
    };
    let written = python
        .stdin
        .take()
        .map(|mut input| input.write_all(text.as_bytes()));
    assert!(matches!(written, Some(Ok(()))));
    python.wait().expect("it ends").success()
}

fn json(folder: &Folder, status: i32, line: &str) -> String {
    let ran = folder.ends(status, &format!("{line} --json"));
    assert_eq!(ran.out.lines().count(), 1, "{line}");
    assert!(is_json(&ran.out), "{line}: {}", ran.out);
    ran.out
}

fn has(text: &str, parts: &[&str]) {
    for part in parts {
        assert!(text.contains(part), "{part}: {text}");
    }
}

#[test]
fn of_loads_and_replays() {
    let folder = blink();
    let text = json(&folder, 0, "load blink.uf2 --record t.trace");
    has(&text, &[
        "\"file\": \"blink.uf2\", \"pieces\": 64, \"arrivals\": 64",
        "\"board\": {\"flash\": 16384, \"flash_said\": false, \"arm\": true",
        "{\"answer\": 14, \"name\": \"Written\", \"count\": 63, \"first\": null}",
        "\"completed\": true",
        "\"transfer\": {\"state\": \"done\", \"family\": 3834380121, \"total\": 64, \"count\": 64, \"memory\": \"flash\"}",
        "\"sectors\": [0, 1, 2, 3]",
        "\"missing\": [], \"takes\": null",
    ]);
    let text = json(&folder, 1, "load blink.uf2 --drop 17 -v");
    has(&text, &[
        "\"completed\": false",
        "\"missing\": [{\"block\": 17, \"in_file\": true, \"offset\": 4352, \"address\": 268439808, \"refused\": null}]",
        "\"takes\": [{\"block\": 0, \"outcome\": {\"answer\": 14, \"name\": \"Written\", \"discarded\": false}}",
    ]);
    let text = json(&folder, 1, "load blink.bin");
    has(&text, &["\"transfer\": {\"state\": \"idle\"}"]);
    let text = json(&folder, 0, "replay t.trace");
    has(
        &text,
        &["\"records\": 64", "\"stop\": \"none\", \"index\": null"],
    );
    let text = json(&folder, 1, "replay t.trace --flash 4096");
    has(
        &text,
        &[
            "\"stop\": \"differs\", \"index\": 0",
            "\"recorded\": {\"answer\": 14, \"name\": \"Written\", \"discarded\": false}",
            "\"ours\": {\"answer\": 10, \"name\": \"BadNumbers\", \"discarded\": false}",
        ],
    );
    folder.put("short.trace", [32; 100]);
    let text = json(&folder, 1, "replay short.trace");
    has(
        &text,
        &["\"stop\": \"bad\", \"index\": 0, \"recorded\": null, \"ours\": null"],
    );
}

#[test]
fn of_files_made_and_tags() {
    let folder = blink();
    let text = json(
        &folder,
        0,
        "make blink.bin -o a\"b.uf2 --family 7 --start 0x10000000",
    );
    has(&text, &["\"out\": \"a\\\"b.uf2\", \"made\": true, \"blocks\": 64, \"family\": 7, \"start\": 268435456, \"refusal\": null"]);
    folder.put("ragged", [1; 3]);
    let text = json(
        &folder,
        1,
        "make ragged -o out --family 7 --start 0x10000000",
    );
    has(
        &text,
        &["\"made\": false, \"blocks\": 0", "\"refusal\": 50"],
    );
    folder.put("display.uf2", display());
    let text = json(&folder, 0, "tags display.uf2");
    has(&text, &[
        "{\"piece\": 0, \"block\": 0, \"type\": 10471356, \"name\": \"version\", \"text\": \"0.1.2\", \"hex\": \"30 2e 31 2e 32\"}",
        "\"versions\": [\"0.1.2\"], \"refused\": 0, \"whole\": true",
    ]);
    let text = json(&folder, 1, "tags ragged");
    has(
        &text,
        &[
            "{\"piece\": 0, \"block\": null, \"refusal\": 1, \"name\": \"BadLength\"}",
            "\"whole\": false",
        ],
    );
}

#[test]
fn of_hex_files() {
    let folder = Folder::new();
    folder.put("v1.hex", plain(0, &[1; 20]));
    folder.put("bad.hex", ":0000000GFF\n");
    let text = json(&folder, 0, "join v1.hex v1.hex -o both.hex");
    has(&text, &["\"written\": true", "\"refusal\": null"]);
    let text = json(&folder, 1, "join v1.hex bad.hex -o no.hex");
    has(&text, &["\"refusal\": {\"answer\": 22, \"name\": \"BadDigit\", \"board\": \"V2\", \"file\": \"bad.hex\", \"line\": 1, \"position\": 8}"]);
    let text = json(&folder, 0, "hex both.hex --board v1");
    has(
        &text,
        &["\"left_out\": [], \"failed\": null, \"ended\": true, \"whole\": true"],
    );
    let text = json(&folder, 1, "hex both.hex --board v1 --bytes 16");
    has(
        &text,
        &[
            "\"left_out\": [{\"line\": 4, \"address\": 16, \"region\": null}]",
            "\"ended\": true, \"whole\": false",
        ],
    );
    let text = json(&folder, 1, "hex bad.hex --board v1");
    has(
        &text,
        &["\"failed\": {\"line\": 1, \"answer\": 22, \"name\": \"BadDigit\", \"position\": 8}"],
    );
}

/// Each line too, with `-v`, as `load` has each arrival.
#[test]
fn of_each_line_of_hex() {
    let folder = Folder::new();
    folder.put("v1.hex", plain(0, &[1; 20]));
    folder.ends(0, "join v1.hex v1.hex -o both.hex");
    let text = json(&folder, 0, "hex both.hex --board v1 -v");
    has(
        &text,
        &[
            "\"takes\": [{\"line\": 1, \"answer\": 34, \"name\": \"Passed\"}, ",
            "{\"line\": 3, \"answer\": 33, \"name\": \"Stored\"}",
        ],
    );
    assert_eq!(
        text.matches("{\"line\": ").count(),
        String::from_utf8_lossy(&folder.get("both.hex"))
            .lines()
            .count()
    );
    let text = json(&folder, 1, "hex v1.hex --board v1");
    has(&text, &["\"plain\": true, \"takes\": null"]);
}

#[test]
fn of_figures() {
    let folder = blink();
    folder.ends(1, "load blink.uf2 --drop 3 --record t.trace");
    folder.put("bad.trace", [1; 513]);
    let text = json(&folder, 1, "figures t.trace bad.trace t.trace");
    has(&text, &[
        "{\"board\": {\"flash\": 16384, ",
        "\"traces\": [{\"trace\": \"t.trace\", \"stop\": \"none\", \"index\": null, \"refusal\": null}, {\"trace\": \"bad.trace\", \"stop\": \"bad\", \"index\": 0, \"refusal\": null}, ",
        "\"records\": 126",
        "{\"answer\": 14, \"name\": \"Written\", \"count\": 126}",
        "{\"answer\": 17, \"name\": \"Kept\", \"count\": 0}",
        "\"discards\": 0, \"marked\": 63, \"missing\": 3}}",
    ]);
}

#[test]
fn of_settings() {
    let folder = settings::display();
    let text = json(&folder, 0, "settings show board.store");
    has(&text, &[
        "{\"store\": \"board.store\", \"bytes\": 68, \"flash\": 33554432, \"settings\": {\"arm\": true, \"riscv\": true, \"current\": \"arm\", \"auto_switch\": false, \"absolute\": false",
        "{\"first\": 66, \"sectors\": 64, \"accepts\": [\"arm-s\", \"riscv\"], \"users\": [], \"not_bootable_arm\": false, \"not_bootable_riscv\": false, \"owned_by\": null, \"b_of\": 0, \"dont_restart\": true}",
        "\"users\": [305419896], ",
        "\"owned_by\": 0, \"b_of\": null",
        "\"refusal\": null}",
    ]);
    let text = json(&folder, 1, "settings show board.toml");
    has(&text, &["\"settings\": null, \"refusal\": 41}"]);
    let text = json(&folder, 0, "settings pack board.toml -o x.store");
    has(&text, &["{\"text\": \"board.toml\", \"out\": \"x.store\", \"written\": true, \"bytes\": 68, \"faults\": []}"]);
    folder.put("bad.toml", "arm = 1\n");
    let text = json(&folder, 1, "settings pack bad.toml -o x.store");
    has(&text, &[
        "\"written\": false, \"bytes\": 0, \"faults\": [{\"line\": 1, \"why\": \"arm is true or false, and not a number\"}, {\"line\": 2, ",
    ]);
}

#[test]
fn of_reasons() {
    let folder = settings::display();
    let text = json(&folder, 1, "why blink.uf2 --flash 4096 --block 17");
    has(&text, &[
        "{\"file\": \"blink.uf2\", \"pieces\": 64, \"board\": {\"flash\": 4096, ",
        "\"block\": 17, \"arrivals\": [{\"arrival\": 17, \"block\": 17, \"outcome\": {\"answer\": 10, \"name\": \"BadNumbers\", \"discarded\": false}, \"reason\": {\"cause\": 1002, \"got\": 16384, \"against\": 4096, ",
        "\"refused\": 1, \"transfer\": {\"state\": \"idle\"}, \"missing\": [], \"verdict\": \"NOT TAKEN: 1 of 1 arrival of block 17, ",
    ]);
    let text = json(&folder, 0, "why blink.uf2");
    has(
        &text,
        &["\"block\": null, \"arrivals\": [], \"refused\": 0"],
    );
    let text = json(&folder, 0, "why place data --settings board.store");
    has(&text, &[
        "\"partitions\": 3, ",
        "\"place\": {\"family\": 3834380120, \"start\": 532480, \"bytes\": 516096, \"answer\": null, \"reason\": {\"cause\": 3, \"got\": 4, \"against\": 0, \"entry\": 2, ",
    ]);
    let text = json(&folder, 1, "why place arm-ns --settings board.store");
    has(
        &text,
        &[
            "\"start\": null, \"bytes\": null, \"answer\": 8, \"reason\": {\"cause\": 806, ",
            "\"marks\": [2, 1, 2, 0, 0, ",
        ],
    );
}
