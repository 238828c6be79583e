//! The command line itself: help, no command, and output that nobody takes.

use crate::common::{told, Folder, TOOL};
use crate::load::blink;
use std::path::Path;
use std::process::{Command, Stdio};

const COMMANDS: [&str; 9] = [
    "load", "why", "make", "replay", "figures", "tags", "hex", "join", "settings",
];

#[test]
fn help_for_the_tool() {
    let folder = Folder::new();
    let ran = folder.ends(0, "--help");
    for command in COMMANDS {
        assert!(ran.out.contains(&format!("\n  {command} ")), "{command}");
    }
    assert!(ran
        .out
        .contains("\n    vantorel load blink.uf2 --drop 17\n"));
    assert_eq!(ran.err, "");
    assert_eq!(folder.ends(0, "help").out, ran.out);
    assert_eq!(folder.ends(0, "-h").out, ran.out);
    let bare = folder.ends(2, "");
    assert_eq!(bare.out, ran.out);
    assert_eq!(bare.err, "vantorel: say a command\n");
}

/// Each command has a page with its usage, an example, and the exit status.
#[test]
fn help_for_each_command() {
    let folder = Folder::new();
    for command in COMMANDS {
        let page = folder.ends(0, &format!("{command} --help")).out;
        assert!(page.starts_with(&format!("vantorel {command} ")), "{page}");
        assert!(
            page.contains(&format!("\n    vantorel {command} ")),
            "{page}"
        );
        assert!(page.contains("Exit status 0 where "), "{page}");
        assert_eq!(folder.ends(0, &format!("help {command}")).out, page);
        assert_eq!(folder.ends(0, &format!("{command} x --what -h")).out, page);
        let board = page.contains("\nBOARD, where no option is said, ");
        let played = ["load", "why", "replay", "figures"];
        assert_eq!(board, played.contains(&command), "{page}");
        // every option of the usage has a line of its own
        let usage = page.split("\n\n").next().unwrap_or_default();
        let options = usage
            .split(['[', ']', ' ', '\n'])
            .filter(|w| w.starts_with('-'));
        for option in options {
            assert!(
                page.contains(&format!("\n  {option} ")),
                "{command} {option}"
            );
        }
    }
}

#[test]
fn no_such_command() {
    let folder = Folder::new();
    folder.wrong(
        "lode blink.uf2",
        "no command 'lode'; `vantorel --help` lists them",
    );
    folder.wrong(
        "help lode",
        "no command 'lode'; `vantorel --help` lists them",
    );
}

#[cfg(unix)]
#[test]
fn a_word_that_is_no_text() {
    use std::os::unix::ffi::OsStrExt;
    let word = std::ffi::OsStr::from_bytes(b"a\xFF");
    let ran = told(
        Command::new(TOOL)
            .args(["load".as_ref(), word])
            .output()
            .expect("it runs"),
    );
    assert_eq!(ran.status, 2);
    assert_eq!(ran.err, "vantorel: \"a\\xFF\" is not text in UTF-8\n");
}

/// A reader that goes away, as `head` does, is no error and no panic.
#[test]
fn a_reader_that_goes_away() {
    let folder = blink();
    let mut child = Command::new(TOOL)
        .args(["load", "blink.uf2", "-v", "--repeat", "1000"])
        .current_dir(folder.path())
        .stdout(Stdio::piped())
        .stderr(Stdio::piped())
        .spawn()
        .expect("it runs");
    drop(child.stdout.take());
    let ran = told(child.wait_with_output().expect("it ends"));
    assert_eq!((ran.status, ran.err.as_str()), (0, ""));
}

/// A full disk behind standard output is told.
#[cfg(target_os = "linux")]
#[test]
fn a_full_disk() {
    let folder = blink();
    let full = std::fs::OpenOptions::new()
        .write(true)
        .open("/dev/full")
        .expect("a device");
    let mut command = Command::new(TOOL);
    command
        .args(["load", "blink.uf2"])
        .current_dir(folder.path())
        .stdout(full);
    let ran = told(command.output().expect("it runs"));
    assert_eq!(ran.status, 2);
    assert!(
        ran.err
            .starts_with("vantorel: cannot write to standard output: No space left"),
        "{}",
        ran.err
    );
}

/// Help fits a terminal of 80 columns.
#[test]
fn help_within_80_columns() {
    let folder = Folder::new();
    let mut pages = vec![folder.ends(0, "--help").out];
    pages.extend(COMMANDS.map(|command| folder.ends(0, &format!("{command} --help")).out));
    for line in pages.iter().flat_map(|page| page.lines()) {
        assert!(line.chars().count() <= 80, "{line}");
    }
}

/// Runs the tool with words that may have any character, and something on standard input.
fn with(folder: &Folder, words: &[&str], input: &[u8]) -> crate::common::Ran {
    folder.put("input", input);
    let input = std::fs::File::open(folder.path().join("input")).expect("a file");
    let mut command = Command::new(TOOL);
    command.args(words).current_dir(folder.path()).stdin(input);
    told(command.output().expect("it runs"))
}

/// The name - is standard input, once, and never an output.
#[test]
fn standard_input() {
    let folder = blink();
    let file = folder.get("blink.uf2");
    let ran = with(&folder, &["load", "-"], &file);
    assert_eq!((ran.status, ran.err.as_str()), (0, ""));
    assert!(
        ran.out
            .starts_with("standard input: 64 pieces of 512 bytes, 64 arrivals\n"),
        "{}",
        ran.out
    );
    let words = [
        "make",
        "-",
        "-o",
        "made.uf2",
        "--family",
        "arm-s",
        "--start",
        "0x10000000",
    ];
    assert_eq!(with(&folder, &words, &folder.get("blink.bin")).status, 0);
    assert!(folder.get("made.uf2") == file);
    let ran = with(
        &folder,
        &["load", "blink.uf2", "--start-image", "-", "--image", "out"],
        &[7; 20480],
    );
    assert_eq!(ran.status, 0, "{}", ran.err);
    assert_eq!(folder.get("out")[16384..20480], [7; 4096]);
    let ran = with(&folder, &["join", "-", "-", "-o", "x"], b"");
    assert_eq!(
        (ran.status, ran.err.as_str()),
        (
            2,
            "vantorel: standard input is named twice, and can be read once\n"
        )
    );
    let ran = with(&folder, &["load", "-", "--image", "-"], &file);
    assert_eq!(
        (ran.status, ran.err.as_str()),
        (
            2,
            "vantorel: an output is a file, and not -; give it a name\n"
        )
    );
    // the file behind standard input is an input too
    let ran = with(&folder, &["load", "-", "--image", "input"], &file);
    assert_eq!(ran.err, "vantorel: the output input is the same file as the input standard input; give the output another name\n");
    assert!(folder.get("input") == file);
}

/// A name with control characters does nothing to a terminal, and one with spaces is quoted in a command.
#[test]
fn names_of_any_characters() {
    let folder = blink();
    let bad = "a\x1b[31m\nb.uf2";
    let ran = with(&folder, &["load", bad], b"");
    assert_eq!(
        ran.err,
        "vantorel: cannot read a\\u{1b}[31m\\nb.uf2: No such file or directory\n"
    );
    folder.put(bad, folder.get("blink.uf2"));
    let ran = with(&folder, &["load", bad], b"");
    assert!(
        ran.out.starts_with("a\\u{1b}[31m\\nb.uf2: 64 pieces"),
        "{}",
        ran.out
    );
    for name in [
        "my trace",
        "it's",
        "$(touch x)",
        "a;b",
        "-x",
        "t.trace",
        "a\nb",
        "é",
    ] {
        folder.put("be fore", [7]);
        let record = format!("--record=./{name}");
        let ran = with(
            &folder,
            &["load", "blink.uf2", &record, "--start-image", "be fore"],
            b"",
        );
        let command = ran.out.split('`').nth(1).expect("a command").to_string();
        let path = Path::new(TOOL)
            .parent()
            .expect("a folder")
            .display()
            .to_string();
        let path = format!("{path}:{}", std::env::var("PATH").unwrap_or_default());
        let shell = Command::new("bash")
            .args(["-c", &command])
            .env("PATH", path)
            .current_dir(folder.path())
            .output();
        let Ok(shell) = shell else { return };
        let again = told(shell);
        assert_eq!(again.status, 0, "{command}\n{}{}", again.out, again.err);
    }
    assert!(!folder.names().contains(&"x".to_string()));
}

/// Colour is for a terminal alone, and not where NO_COLOR is set. Left out where util-linux's `script` is missing.
#[cfg(target_os = "linux")]
#[test]
fn colours() {
    let folder = blink();
    let plain = folder.ends(0, "load blink.uf2").out;
    assert!(!plain.contains('\x1b'));
    let shown = |line: &str, set: &[(&str, &str)]| {
        let mut command = Command::new("script");
        let line = format!("{TOOL} {line}");
        command
            .args(["-qec", &line, "/dev/null"])
            .env_remove("NO_COLOR")
            .env("TERM", "xterm");
        command
            .envs(set.iter().copied())
            .current_dir(folder.path())
            .stdin(Stdio::null());
        command
            .output()
            .ok()
            .map(|output| String::from_utf8_lossy(&output.stdout).into_owned())
    };
    let Some(text) = shown("load blink.uf2", &[]) else {
        eprintln!("no command script here: colours on a terminal were left out");
        return;
    };
    assert!(
        text.contains("\x1b[1;32mCOMPLETE\x1b[0m: all 64 blocks came"),
        "{text}"
    );
    let text = shown("load blink.uf2 --drop 3", &[]).unwrap_or_default();
    assert!(
        text.contains("\x1b[1;31mNOT COMPLETE\x1b[0m: 1 of 64"),
        "{text}"
    );
    for set in [("NO_COLOR", "1"), ("TERM", "dumb")] {
        let text = shown("load blink.uf2", &[set]).unwrap_or_default();
        assert!(
            text.contains("COMPLETE: all 64") && !text.contains('\x1b'),
            "{text}"
        );
    }
    let text = shown("load blink.uf2 --json", &[]).unwrap_or_default();
    assert!(!text.contains('\x1b'), "{text}");
    // never green where an update was not complete
    folder.ends(1, "load blink.uf2 --drop 3 --record t.trace");
    let text = shown("replay t.trace", &[]).unwrap_or_default();
    assert!(text.contains("\x1b[1;31mnone\x1b[0m: "), "{text}");
}
