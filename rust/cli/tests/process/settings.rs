//! `vantorel settings`, and a board whose settings are a store's.

use crate::common::Folder;
use crate::load::blink;

/// Two slots for an image and one for data.
pub const TEXT: &str = "\
# a display with two slots
arm = true
riscv = true
current = \"arm\"

[[partition]]
first = 2
sectors = 64
accepts = [\"arm-s\", \"riscv\"]
not-bootable = [\"riscv\"]

[[partition]]
first = 66
sectors = 64
accepts = [\"arm-s\", \"riscv\"]
b-of = 0
dont-restart = true

[[partition]]
first = 130
sectors = 126
accepts = [\"data\", 0x12345678]
owned-by = 0
";

/// A folder with a file of 64 blocks and that store.
pub fn display() -> Folder {
    let folder = blink();
    folder.put("board.toml", TEXT);
    folder.ends(0, "settings pack board.toml -o board.store");
    folder
}

const SHOWN: &str = "\
# settings of a board with 3 partitions, which need a flash of 1048576 bytes
arm = true
riscv = true
current = \"arm\"
auto-switch = false
absolute = false

# partition 0: flash 0x00002000 to 0x00041fff, an A partition, unowned
[[partition]]
first = 2
sectors = 64
accepts = [\"arm-s\", \"riscv\"]
not-bootable = [\"riscv\"]

# partition 1: flash 0x00042000 to 0x00081fff, the B partition of partition 0
[[partition]]
first = 66
sectors = 64
accepts = [\"arm-s\", \"riscv\"]
b-of = 0
dont-restart = true

# partition 2: flash 0x00082000 to 0x000fffff, an A partition, owned by partition 0
[[partition]]
first = 130
sectors = 126
accepts = [\"data\", 0x12345678]
owned-by = 0
";

#[test]
fn packed_and_shown() {
    let folder = display();
    let ran = folder.ends(0, "settings pack board.toml -o again.store");
    assert_eq!(
        (ran.out.as_str(), ran.err.as_str()),
        (
            "again.store: a store of 68 bytes, 3 partitions, a flash of 1048576 bytes or more\n",
            ""
        )
    );
    let ran = folder.ends(0, "settings show board.store");
    assert_eq!((ran.out.as_str(), ran.err.as_str()), (SHOWN, ""));
    assert_eq!(folder.get("board.store").len(), 68);
    folder.ends(0, "settings show board.store --flash 1M");
}

/// The text that the page of help shows is one.
#[test]
fn the_text_of_the_help() {
    let folder = Folder::new();
    let page = folder.ends(0, "settings --help").out;
    let text = page
        .split("\n\n")
        .find(|part| part.starts_with("    arm = "));
    folder.put("help.toml", text.expect("a text"));
    let ran = folder.ends(0, "settings pack help.toml -o help.store");
    assert_eq!(
        ran.out,
        "help.store: a store of 46 bytes, 2 partitions, a flash of 532480 bytes or more\n"
    );
}

/// A packed store shown and packed again is the same.
#[test]
fn shown_and_packed_again() {
    let folder = Folder::new();
    let many: String = (0..16)
        .map(|k| {
            format!(
                "[[partition]]\nfirst = {}\nsectors = {}\naccepts = [{k}, \"data\"]\ndont-restart = {}\n",
                k * 8,
                k % 8 + 1,
                k % 3 == 0
            )
        })
        .collect();
    for text in [
        TEXT.to_string(),
        "arm = true\ncurrent = \"arm\"\n".into(),
        "riscv = true\ncurrent = \"riscv\"\nabsolute = true\nauto-switch = true\n".into(),
        format!("arm = true\ncurrent = \"arm\"\n{many}"),
        "arm = true\ncurrent = \"arm\"\n[[partition]]\nfirst = 0\nsectors = 8192\n".into(),
    ] {
        folder.put("a.toml", &text);
        folder.ends(0, "settings pack a.toml -o a.store");
        let shown = folder.ends(0, "settings show a.store").out;
        folder.put("b.toml", &shown);
        folder.ends(0, "settings pack b.toml -o b.store");
        assert!(folder.get("a.store") == folder.get("b.store"), "{text}");
        assert_eq!(folder.ends(0, "settings show b.store").out, shown);
    }
}

/// Each error of a text, with its line, and all of them at once; nothing is written.
#[test]
fn errors_of_a_text() {
    let folder = Folder::new();
    let refused = |text: &str, told: &[&str]| {
        folder.put("a.toml", text);
        let ran = folder.ends(1, "settings pack a.toml -o a.store");
        let mut lines: Vec<&str> = ran.err.lines().collect();
        let last = match told.len() {
            1 => "vantorel: nothing was written: 1 error in a.toml".to_string(),
            n => format!("vantorel: nothing was written: {n} errors in a.toml"),
        };
        assert_eq!(lines.pop(), Some(last.as_str()), "{text}");
        let told: Vec<String> = told
            .iter()
            .map(|line| format!("vantorel: a.toml, {line}"))
            .collect();
        assert_eq!(lines, told, "{text}");
        assert_eq!(
            (ran.out.as_str(), folder.names()),
            ("", vec!["a.toml".into()])
        );
    };
    refused(
        "arm = 1\nriscv = maybe\n[[partition]]\nfirst = 1\nfirst = 2\n",
        &[
            "line 1: arm is true or false, and not a number",
            "line 2: 'maybe' is no value: a value is true, false, a number such as 64 or 0x40, a text between double quotes, or a list of these in [ ]",
            "line 3: sectors is missing in this partition",
            "line 5: first is said twice; the first is in line 4",
            "line 6: the text ends, and current is missing: current is \"arm\" or \"riscv\"",
        ],
    );
    for (line, told) in [
        ("[partition]", "line 3: '[partition]' is no header; the only one is [[partition]]"),
        ("arm", "line 3: 'arm' is neither key = value nor [[partition]]"),
        ("a b = 1", "line 3: 'a b' is no key"),
        ("absolute =", "line 3: a value is missing"),
        ("flash = 4", "line 3: no key 'flash' here; the keys are arm, riscv, current, auto-switch and absolute, and those of a partition after [[partition]]"),
        ("arm = true", "line 3: arm is said twice; the first is in line 1"),
    ] {
        refused(&format!("arm = true\ncurrent = \"arm\"\n{line}\n"), &[told]);
    }
    for (line, told) in [
        ("accepts = \"data\"", "accepts is a list, and not a text"),
        ("accepts = [\"absolute\"]", "a partition cannot accept \"absolute\": the names are data, arm-s, riscv and arm-ns, and others are numbers, such as 0x12345678"),
        ("accepts = [\"data\", \"data\"]", "\"data\" is accepted twice"),
        ("accepts = [1, 2, 3, 4, 5]", "a partition accepts at most 4 user families"),
        ("accepts = [0x1_0000_0000]", "4294967296 is no family: it has 32 bits"),
        ("accepts = [true]", "accepts lists names and numbers, and not true or false"),
        ("accepts = [1", "a list ends with ] on the same line"),
        ("not-bootable = [\"x86\"]", "not-bootable lists \"arm\" and \"riscv\""),
        ("not-bootable = [\"arm\", \"arm\"]", "not-bootable names an architecture twice"),
        ("b-of = 16", "b-of = 16 is over the most, 15"),
        ("dont-restart = 1", "dont-restart is true or false, and not a number"),
        ("first_sector = 3", "no key 'first_sector' here; the keys are first, sectors, accepts, not-bootable, owned-by, b-of and dont-restart"),
    ] {
        let text = format!("arm = true\ncurrent = \"arm\"\n[[partition]]\nfirst = 1\nsectors = 1\n{line}\n");
        refused(&text, &[&format!("line 6: {told}")]);
    }
    let many = format!(
        "arm = true\ncurrent = \"arm\"\n{}",
        "[[partition]]\nfirst = 1\nsectors = 1\n".repeat(17)
    );
    refused(&many, &["line 51: a table has at most 16 partitions"]);
}

/// A file that is no text at all: nothing of it reaches the terminal, and its errors are counted.
#[test]
fn a_file_that_is_no_text() {
    let folder = Folder::new();
    let long = "x".repeat(100);
    folder.put("a.toml", format!("\x1b[2J\x07 = 1\n{long}\n"));
    let ran = folder.ends(1, "settings pack a.toml -o a.store");
    let lines: Vec<&str> = ran.err.lines().collect();
    assert_eq!(
        lines[..2],
        [
            "vantorel: a.toml, line 1: '\\u{1b}[2J\\u{7}' is no key".to_string(),
            format!(
                "vantorel: a.toml, line 2: '{}..' is neither key = value nor [[partition]]",
                &long[..60]
            ),
        ]
    );
    let many = [b"\xFF\n".repeat(50), b"current = \"arm\"\n".to_vec()];
    folder.put("a.toml", many.concat());
    let ran = folder.ends(1, "settings pack a.toml -o a.store");
    let lines: Vec<&str> = ran.err.lines().collect();
    assert_eq!(lines.len(), 22, "{}", ran.err);
    assert_eq!(
        lines[19..],
        [
            "vantorel: a.toml, line 20: it is not text in UTF-8",
            "vantorel: a.toml, and 30 more",
            "vantorel: nothing was written: 50 errors in a.toml",
        ]
    );
}

/// What only the library knows to be wrong has a line too: that of the partition, or of the current architecture.
#[test]
fn settings_that_are_bad() {
    let folder = Folder::new();
    let head = "arm = true\ncurrent = \"arm\"\n";
    let one = "[[partition]]\nfirst = 0\nsectors = 4\n";
    for (text, told) in [
        ("arm = true\ncurrent = \"riscv\"\n".to_string(), "line 2: the settings name a current architecture that they do not enable"),
        (format!("{head}{one}[[partition]]\nfirst = 4\nsectors = 0\n"), "line 6: partition 1 has no sectors"),
        (format!("{head}[[partition]]\nfirst = 8192\nsectors = 1\n"), "line 3: partition 0 ends at byte 33558528 of the flash, which has only 33554432 bytes"),
        (format!("{head}[[partition]]\nfirst = 4294967295\nsectors = 4294967295\n"), "line 3: partition 0 ends at byte 35184372080640 of the flash, which has only 33554432 bytes"),
        (format!("{head}{one}[[partition]]\nfirst = 3\nsectors = 1\n"), "line 3: partition 0 shares a sector with partition 1"),
        (format!("{head}[[partition]]\nfirst = 0\nsectors = 4\nb-of = 0\n"), "line 3: partition 0 is linked to partition 0, which does not stand before it in the table"),
        (format!("{head}{one}[[partition]]\nfirst = 4\nsectors = 4\nb-of = 0\n[[partition]]\nfirst = 8\nsectors = 4\nowned-by = 1\n"), "line 10: partition 2 is linked to partition 1, which is itself the B partition of another"),
        (format!("{head}{one}accepts = [0xe48bff57]\n"), "line 3: partition 0 has absolute (0xe48bff57) as a user family, and the families 0xe48bff56 to 0xe48bff5b are reserved"),
    ] {
        folder.put("a.toml", &text);
        let ran = folder.ends(1, "settings pack a.toml -o a.store");
        assert_eq!(
            ran.err,
            format!("vantorel: a.toml, {told}\nvantorel: nothing was written: 1 error in a.toml\n"),
            "{text}"
        );
        assert_eq!(folder.names(), ["a.toml"]);
    }
    folder.put("a.toml", format!("{head}{one}"));
    let ran = folder.ends(1, "settings pack a.toml -o a.store --flash 8192");
    assert!(
        ran.err.starts_with(
            "vantorel: a.toml, line 3: partition 0 ends at byte 16384 of the flash, which has only 8192 bytes\n"
        ),
        "{}",
        ran.err
    );
    folder.ends(0, "settings pack a.toml -o a.store --flash 16K");
}

#[test]
fn files_that_are_no_stores() {
    let folder = display();
    let good = folder.get("board.store");
    let mut version = good.clone();
    version[0] = version[0] & 0x0F | 0x30;
    let mut stray = good.clone();
    *stray.last_mut().expect("a byte") |= 1;
    for (bytes, told) in [
        (
            vec![],
            "41 BadLength: the store has a wrong length: it has 0 bytes",
        ),
        (
            good[..67].to_vec(),
            "41 BadLength: the store has a wrong length: it has 67 bytes",
        ),
        (
            version,
            "40 BadVersion: the store's version is neither 1 nor 2",
        ),
        (
            stray,
            "42 BadBits: the store has stray bits, or numbers that no store has",
        ),
    ] {
        folder.put("bad", bytes);
        let ran = folder.ends(1, "settings show bad");
        assert_eq!(
            (ran.out.as_str(), ran.err),
            (
                "",
                format!("vantorel: bad is no store of this board: {told}\n")
            )
        );
        for command in ["load blink.uf2", "why blink.uf2", "why place data"] {
            folder.wrong(
                &format!("{command} --settings bad"),
                &format!("bad is no store of this board: {told}"),
            );
        }
    }
    let ran = folder.ends(1, "settings show board.store --flash 64K");
    assert_eq!(ran.err, "vantorel: board.store is no store of this board: 2 BadSettings: the settings are not good for this flash: partition 0 ends at byte 270336 of the flash, which has only 65536 bytes\n");
}

/// A file goes to the place that the store gives its family.
#[test]
fn a_board_of_a_store() {
    let folder = display();
    let ran = folder.ends(
        0,
        "load blink.uf2 --settings board.store --image out.bin --record t.trace",
    );
    assert!(ran.out.contains("board: a flash of 1048576 bytes (none was said: as large as the file and the partitions need), Arm and RISC-V, Arm current, 3 partitions, no RAM\n"), "{}", ran.out);
    assert!(
        ran.out.contains("sectors erased: 4 (2 to 5)\n"),
        "{}",
        ran.out
    );
    let flash = folder.get("out.bin");
    assert_eq!(flash.len(), 1_048_576);
    assert!(flash[0x2000..0x6000] == folder.get("blink.bin")[..]);
    assert!(flash[..0x2000]
        .iter()
        .chain(&flash[0x6000..])
        .all(|&b| b == 0xFF));
    assert!(
        ran.out.contains(
            "`vantorel replay t.trace --flash 1048576 --settings board.store` replays it\n"
        ),
        "{}",
        ran.out
    );
    folder.ends(0, "replay t.trace --flash 1048576 --settings board.store");
    folder.ends(0, "figures t.trace --settings board.store");
    let ran = folder.ends(1, "load blink.uf2 --settings board.store --drop 17");
    assert!(ran.out.contains("missing: block 17, whose page would stand in flash from 0x00003100 to 0x000031ff (address 0x10001100)\n"), "{}", ran.out);
    let ran = folder.ends(1, "load blink.uf2 --settings board.store --flash 64K");
    assert!(ran.out.contains("  2 BadSettings      64  "), "{}", ran.out);
    let ran = folder.ends(1, "why blink.uf2 --settings board.store --flash 64K");
    assert!(ran.out.contains("arrivals 0 to 63, blocks 0 to 63: 2 BadSettings: partition 0 ends at byte 270336 of the flash, which has only 65536 bytes\n"), "{}", ran.out);
}

#[test]
fn wrong_words() {
    let folder = display();
    let how = "; `vantorel settings --help` says how";
    for (line, why) in [
        ("settings", "show STORE, or pack FILE.toml, is missing"),
        ("settings list", "it is show or pack, and not 'list'"),
        ("settings show", "STORE is missing"),
        ("settings show a b", "'b' is one word too many"),
        (
            "settings show board.store -o x",
            "-o is for `settings pack`; `settings show` prints",
        ),
        ("settings pack", "FILE.toml is missing"),
        (
            "settings pack board.toml",
            "-o is missing: the name of the store to write",
        ),
        (
            "settings pack board.toml -o x --flash 1",
            "--flash is whole sectors of 4,096 bytes, from 4096 to 32M, and not 1 bytes",
        ),
        ("settings pack board.toml -o", "-o wants a value"),
    ] {
        folder.wrong(line, &format!("settings: {why}{how}"));
    }
    folder.wrong(
        "settings show none",
        "cannot read none: No such file or directory",
    );
    folder.wrong(
        "settings pack board.toml -o board.toml",
        "the output board.toml is the same file as the input board.toml; give the output another name",
    );
    for option in [
        "--arm",
        "--riscv",
        "--current arm",
        "--auto-switch",
        "--absolute",
    ] {
        let name = option.split(' ').next().unwrap_or_default();
        folder.wrong(
            &format!("load blink.uf2 --settings board.store {option}"),
            &format!("load: {name} and --settings do not go together: a store says every switch; `vantorel load --help` says how"),
        );
    }
    folder.wrong(
        "load blink.uf2 --settings none",
        "cannot read none: No such file or directory",
    );
}
