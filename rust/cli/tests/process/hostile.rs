//! Files that nobody meant: of every odd size, names, links, pipes, devices, full disks and too little memory. Nothing is left half written, nothing
//! ends by a signal, and each ends with status 1 or 2 and a sentence.

use crate::common::{pages, told, Folder, Ran, TOOL};
use std::process::{Command, Stdio};

/// A folder with a good image, a good file and a good trace.
fn folder() -> Folder {
    let folder = Folder::new();
    folder.put("image", pages(16));
    folder.ends(
        0,
        "make image -o good.uf2 --family arm-s --start 0x10000000",
    );
    folder.ends(0, "load good.uf2 --record good.trace");
    folder.put("end.hex", ":00000001FF\n");
    folder
}

/// Every command with a file, and the outputs that it may write.
fn commands(name: &str) -> Vec<String> {
    [
        "load FILE --image out --record out.trace",
        "load good.uf2 --settings FILE",
        "check FILE",
        "tags FILE",
        "why FILE",
        "hex FILE --board v1 --image out",
        "join FILE end.hex -o out",
        "join end.hex FILE -o out",
        "make FILE -o out --family arm-s --start 0x10000000",
        "replay FILE",
        "figures FILE --flash 32K",
        "figures --merge FILE --save out",
        "settings show FILE",
        "settings pack FILE -o out",
    ]
    .iter()
    .map(|line| line.replace("FILE", name))
    .collect()
}

/// Runs the tool in a shell, after words of the shell; standard input is a file of that name.
fn shell(folder: &Folder, before: &str, line: &str, input: &str) -> Ran {
    let mut command = Command::new("sh");
    command
        .arg("-c")
        .arg(format!("{before} \"$TOOL\" {line} <{input}"))
        .env("TOOL", TOOL)
        .env("RUST_BACKTRACE", "0")
        .current_dir(folder.path())
        .stdin(Stdio::null());
    told(command.output().expect("sh runs"))
}

/// Status 1 or 2 with words, and no panic in them; what begins was not left.
fn refused(folder: &Folder, before: &str, line: &str, input: &str) -> Ran {
    let ran = shell(folder, before, line, input);
    let words = format!("{before} {line}\n{}{}", ran.out, ran.err);
    assert!(
        matches!(ran.status, 1 | 2),
        "status {}: {words}",
        ran.status
    );
    let said = ran.out.len() + ran.err.len();
    assert!(said > 10 && !words.contains("panicked"), "{words}");
    assert!(!words.contains("os error"), "{words}");
    let left = |name: &String| name.contains(".part");
    assert!(!folder.names().iter().any(left), "left: {words}");
    ran
}

#[test]
fn sizes() {
    let folder = folder();
    folder.put("empty", "");
    folder.put("one", "x");
    folder.put("short", [0; 511]);
    folder.put("long", [0; 513]);
    for name in ["empty", "one", "short", "long", "/dev/null"] {
        for line in commands(name) {
            refused(&folder, "exec", &line, "/dev/null");
        }
    }
}

/// 4 GiB that take no room on the disk, and a device without an end, by name and as standard input: no more than 1 GiB is ever read.
#[test]
fn files_without_an_end() {
    let folder = folder();
    let huge = std::fs::File::create(folder.path().join("huge")).expect("a file");
    if huge.set_len(1 << 32).is_err() {
        return; // this file system has no such files
    }
    let sentence = "it has more than 1 GiB, the most that is read of a file\n";
    for line in commands("huge") {
        let ran = refused(&folder, "exec", &line, "/dev/null");
        assert_eq!(ran.err, format!("vantorel: cannot read huge: {sentence}"));
        assert_eq!((ran.status, ran.out.as_str()), (2, ""), "{line}");
    }
    let memory = "ulimit -v 400000; exec";
    for name in ["/dev/zero", "-"] {
        for line in commands(name) {
            let ran = refused(&folder, memory, &line, "/dev/zero");
            let words = "vantorel: there is not enough memory for this\n";
            assert_eq!((ran.status, ran.err.as_str()), (2, words), "{line}");
        }
    }
}

/// A file that is read, and then little memory for what comes of it.
#[test]
fn too_little_memory() {
    let folder = folder();
    let large = std::fs::File::create(folder.path().join("large")).expect("a file");
    large.set_len(60 << 20).expect("60 MiB");
    for limit in [40_000, 90_000, 150_000] {
        for line in commands("large") {
            refused(
                &folder,
                &format!("ulimit -v {limit}; exec"),
                &line,
                "/dev/null",
            );
        }
    }
    // a flash that was not written completely is shown all the same, whole
    let out = folder.get("out");
    assert!(
        !out.is_empty() && out.len().is_multiple_of(4096),
        "{}",
        out.len()
    );
}

#[test]
fn what_is_no_file() {
    let folder = folder();
    let path = |name: &str| folder.path().join(name);
    std::fs::create_dir(path("folder")).expect("a folder");
    std::os::unix::fs::symlink("loop", path("loop")).expect("a link");
    std::os::unix::fs::symlink("nothing", path("dangling")).expect("a link");
    for name in ["folder", "loop", "dangling", "missing", "good.uf2/x"] {
        for line in commands(name) {
            let ran = refused(&folder, "exec", &line, "/dev/null");
            assert_eq!(ran.status, 2, "{line}: {}", ran.err);
        }
    }
    // a closed pipe is an end, and a file that may not be read is said
    for line in commands("-") {
        refused(&folder, "exec", &line, "/dev/null");
    }
}

/// Files that may not be read, and a folder that may not be written. The owner of the machine may do both, and is nobody for this.
#[test]
fn what_is_not_allowed() {
    use std::os::unix::fs::{MetadataExt, PermissionsExt};
    let folder = folder();
    let owner = std::fs::metadata("/proc/self").is_ok_and(|found| found.uid() == 0);
    let nobody = match owner {
        true => "exec setpriv --reuid=65534 --regid=65534 --clear-groups",
        false => "exec",
    };
    if shell(&folder, nobody, "load good.uf2", "/dev/null").status != 0 {
        return; // nobody does not reach this folder
    }
    folder.put("closed", pages(16));
    let allow = |name: &str, mode: u32| {
        let path = folder.path().join(name);
        std::fs::set_permissions(path, std::fs::Permissions::from_mode(mode)).expect(name);
    };
    allow("closed", 0);
    for line in commands("closed") {
        let ran = refused(&folder, nobody, &line, "/dev/null");
        let words = "vantorel: cannot read closed: Permission denied\n";
        assert_eq!((ran.status, ran.err.as_str()), (2, words), "{line}");
    }
    allow("", 0o555);
    let ran = refused(&folder, nobody, "load good.uf2 --image out", "/dev/null");
    allow("", 0o755);
    let words = "vantorel: cannot write out: Permission denied\n";
    assert_eq!((ran.status, ran.err.as_str()), (2, words));
}

/// Names that are odd are good names; what a terminal would obey is written as such.
#[test]
fn names() {
    let folder = folder();
    let make = |name: &str| {
        let mut command = Command::new(TOOL);
        let words = ["make", "image", "-o", name, "--family", "arm-s"];
        command.args(words).args(["--start", "0x10000000"]);
        told(command.current_dir(folder.path()).output().expect("runs"))
    };
    for name in [
        "two\nlines",
        "\u{1b}[2J",
        "ä ö",
        "a'b\"c",
        "...",
        &"n".repeat(255),
    ] {
        let ran = make(name);
        assert_eq!(ran.status, 0, "{name:?}: {}", ran.err);
        assert_eq!(folder.get(name), folder.get("good.uf2"));
        assert!(
            !ran.out.trim_end().contains(char::is_control),
            "{}",
            ran.out
        );
    }
    let ran = make(&"n".repeat(256));
    assert_eq!(ran.status, 2);
    assert!(ran.err.ends_with(": File name too long\n"), "{}", ran.err);
}

/// Outputs that cannot be written: the old file stays, and nothing is beside it.
#[test]
fn outputs() {
    let folder = folder();
    let path = |name: &str| folder.path().join(name);
    std::fs::create_dir(path("folder")).expect("a folder");
    std::os::unix::fs::symlink("nothing", path("dangling")).expect("a link");
    let before = folder.names();
    let reasons = [
        ("folder", "it is a directory"),
        ("dangling", "it is a link to a file that is not there"),
        ("none/out", "No such file or directory"),
        ("good.uf2/out", "Not a directory"),
        ("/dev/full", "No space left on device"),
    ];
    for (name, reason) in reasons {
        for line in [
            "make image --family arm-s --start 0x10000000 -o",
            "load good.uf2 --image",
            "load good.uf2 --record",
            "figures good.trace --flash 32K --save",
        ] {
            let ran = refused(&folder, "exec", &format!("{line} {name}"), "/dev/null");
            let words = format!("vantorel: cannot write {name}: {reason}\n");
            assert_eq!((ran.status, ran.err), (2, words), "{line}");
        }
        assert_eq!(folder.names(), before, "{name}");
    }
}

/// What is printed to a disk that is full, and to a reader that goes away.
#[test]
fn standard_output() {
    let folder = folder();
    for line in [
        "load good.uf2 -v",
        "check good.uf2",
        "--help",
        "load good.uf2 --json",
    ] {
        let ran = refused(&folder, "exec >/dev/full; exec", line, "/dev/null");
        let words = "vantorel: cannot write to standard output: No space left on device\n";
        assert_eq!((ran.status, ran.err.as_str()), (2, words), "{line}");
    }
    let mut command = Command::new("sh");
    let line = "\"$TOOL\" load good.uf2 -v 2>said | head -n 1 >line; cat said";
    command.args(["-c", line]).env("TOOL", TOOL);
    let ran = told(command.current_dir(folder.path()).output().expect("runs"));
    assert_eq!((ran.out.as_str(), ran.err.as_str()), ("", ""));
}

/// A disk that is full: the file that was there is there still, whole. Where a small disk can be made, by its owner alone.
#[test]
fn full_disk() {
    let folder = folder();
    folder.put("large", pages(2048));
    // in name spaces of its own: nothing is left of it
    let script = "mkdir disk && mount -t tmpfs -o size=64k none disk && printf old >disk/out || exit 77\n\
        for line in 'make large --family arm-s --start 0x10000000 -o' 'load good.uf2 --flash 128K --image'; do\n\
        \"$TOOL\" $line disk/out >said 2>&1; echo \"$? $(cat said) $(cat disk/out) $(ls -A disk)\"\n\
        done";
    let mut command = Command::new("unshare");
    command.args(["-rm", "sh", "-c", script]).env("TOOL", TOOL);
    let Ok(output) = command.current_dir(folder.path()).output() else {
        return;
    };
    let ran = told(output);
    if ran.status == 77 || ran.err.contains("unshare") {
        return; // not allowed here
    }
    let line = "2 vantorel: cannot write disk/out: No space left on device old out\n";
    assert_eq!((ran.out, ran.err), (line.repeat(2), String::new()));
}
