//! `vantorel figures` and `replay` of many traces: threads, parts that are saved and merged, folders, and runs by engines that are installed.

use crate::common::{told, Folder, Ran, TOOL};
use crate::load::blink;
use std::fs;
use std::path::Path;
use std::process::{Command, Stdio};

/// A folder `traces` of so many small traces: whole, lossy, cut short, empty, and with an answer that is not ours.
fn fleet(count: usize) -> Folder {
    let folder = blink();
    folder.ends(0, "load blink.uf2 --record whole.trace");
    folder.ends(1, "load blink.uf2 --drop 17,40 --record lossy.trace");
    let (whole, lossy) = (folder.get("whole.trace"), folder.get("lossy.trace"));
    let mut other = whole.clone();
    other[5 * 513] = 13 << 3;
    fs::create_dir(folder.path().join("traces")).expect("a folder");
    for k in 0..count {
        let trace = match k % 97 {
            13 => &whole[..3 * 513 + 7],
            40 => &[][..],
            77 => &other,
            5 | 8 => &whole,
            n if n % 3 == 0 => &lossy[..513 * (n % 7)],
            n => &whole[..513 * (n % 11)],
        };
        folder.put(&format!("traces/{k:05}.trace"), trace);
    }
    folder
}

/// Runs a line of the shell, with the tool in its path.
fn shell(folder: &Folder, line: &str) -> Ran {
    let tool = Path::new(TOOL).parent().expect("a folder");
    let path = std::env::var("PATH").unwrap_or_default();
    let output = Command::new("sh")
        .args(["-c", line])
        .env("PATH", format!("{}:{path}", tool.display()))
        .current_dir(folder.path())
        .stdin(Stdio::null())
        .output()
        .expect("a shell");
    told(output)
}

fn is_installed(program: &str) -> bool {
    let found = Command::new(program).arg("--version").output();
    found.is_ok_and(|output| output.status.success())
}

/// What is printed from the line with the number of traces on: figures over traces and over parts agree there.
fn figures(text: &str) -> &str {
    let at = text.find(" records replayed\n").expect("figures");
    let start = text[..at].rfind('\n').map_or(0, |k| k + 1);
    &text[start..]
}

#[test]
fn the_same_for_every_number_of_jobs() {
    let folder = fleet(2000);
    for line in [
        "figures traces --flash 32K",
        "figures traces",
        "figures traces --json",
        "figures traces --flash 32K --save -",
        "replay traces --flash 32K",
    ] {
        let one = folder.run(&format!("{line} --jobs 1"));
        assert!(one.status < 2, "{line}: {}", one.err);
        for jobs in [2, 7] {
            let many = folder.run(&format!("{line} --jobs {jobs}"));
            assert_eq!(many.out, one.out, "{line} --jobs {jobs}");
            assert_eq!(many.status, one.status, "{line} --jobs {jobs}");
        }
        let plain = folder.run(line);
        assert_eq!(plain.out, one.out, "{line}");
    }
}

#[test]
fn parts_in_any_grouping() {
    let folder = fleet(100);
    let whole = folder.ends(1, "figures traces --flash 32K");
    let names: Vec<String> = (0..100).map(|k| format!("traces/{k:05}.trace")).collect();
    for sizes in [&[100][..], &[1, 99], &[50, 50], &[7, 13, 40, 1, 39]] {
        let mut parts = String::new();
        let mut rest = &names[..];
        for (k, size) in sizes.iter().enumerate() {
            let (shard, others) = rest.split_at(*size);
            rest = others;
            folder.ends(
                0,
                &format!("figures {} --flash 32K --save {k}.part", shard.join(" ")),
            );
            parts += &format!(" {k}.part");
        }
        let merged = folder.ends(1, &format!("figures --merge{parts}"));
        assert_eq!(figures(&merged.out), figures(&whole.out), "{sizes:?}");
        // merged again, two at a time from the right
        if sizes.len() == 5 {
            folder.ends(0, "figures --merge 3.part 4.part --save right.part");
            folder.ends(0, "figures --merge 1.part 2.part --save middle.part");
            folder.ends(
                0,
                "figures --merge middle.part right.part --save later.part",
            );
            let again = folder.ends(1, "figures --merge 0.part later.part");
            assert_eq!(figures(&again.out), figures(&whole.out));
        }
    }
}

#[test]
fn whole_traces_end_well() {
    let folder = fleet(3);
    let line = "figures traces --flash 32K --save";
    folder.ends(0, &format!("{line} all.part"));
    let out = folder.ends(0, &format!("{line} -")).out;
    assert_eq!(out.as_bytes(), folder.get("all.part"));
    folder.put("a\tb.trace", []);
    let named = Command::new(TOOL)
        .args(["figures", "a\tb.trace", "--flash", "32K", "--save", "-"])
        .current_dir(folder.path())
        .output();
    let named = told(named.expect("the tool runs"));
    assert_eq!((named.status, named.out.as_str()), (2, ""));
    folder.ends(
        0,
        "figures traces/00000.trace traces/00001.trace --flash 32K --save a.part",
    );
    let ran = folder.ends(0, "figures --merge a.part");
    assert!(
        ran.out.starts_with("1 part of one board, whose digest is "),
        "{}",
        ran.out
    );
    assert!(ran
        .out
        .contains("\n2 traces, 1 record replayed\ntraces that stopped: 0 bad, 0 differing\n"));
    let json = folder.ends(0, "figures --merge a.part --json");
    assert!(json.out.contains("\"parts\": 1, \"figures\": {\"traces\": [], \"traces_replayed\": 2, \"bad\": 0, \"differs\": 0, \"records\": 1,"));
}

#[test]
fn what_is_no_part() {
    let folder = fleet(2);
    folder.ends(0, "figures traces --flash 32K --save a.part");
    folder.ends(0, "figures traces --flash 64K --save b.part");
    folder.put("empty.part", "");
    folder.put("text.part", "no part\n");
    let line = String::from_utf8(folder.get("a.part")).expect("text");
    folder.put("more.part", line.replacen("\t0", "\t\t0", 1) + "x");
    folder.wrong(
        "figures --merge a.part b.part",
        "a.part, line 1 (traces/00000.trace) and b.part, line 1 (traces/00000.trace) are of different boards: figures are of one board",
    );
    folder.wrong(
        "figures --merge a.part empty.part",
        "empty.part has no part",
    );
    folder.wrong(
        "figures --merge text.part",
        "text.part, line 1 is no part that --save wrote",
    );
    folder.wrong(
        "figures --merge more.part",
        "more.part, line 1 is no part that --save wrote",
    );
    folder.wrong(
        "figures --merge a.part --flash 32K",
        "figures: --flash and --merge do not go together: nothing is replayed; `vantorel figures --help` says how",
    );
    folder.wrong(
        "figures traces --save c.part",
        "figures: --flash is missing: a part that is saved is of one board, whatever the traces need; `vantorel figures --help` says how",
    );
    folder.wrong(
        "figures traces --jobs 0",
        "figures: --jobs is from 1 to 1024, and not 0; `vantorel figures --help` says how",
    );
    folder.wrong(
        "figures --merge a.part --save a.part",
        "the output a.part is the same file as the input a.part; give the output another name",
    );
    fs::create_dir(folder.path().join("none")).expect("a folder");
    folder.wrong(
        "figures none",
        "the folder none has no file whose name ends in .trace",
    );
    // figures of more records than there are counts: 71, and nothing is merged
    let tab = line.rfind('\t').expect("a part") + 1;
    let broken = format!("{}ffffffff{}", &line[..tab], &line[tab + 8..]);
    folder.put("broken.part", broken);
    let ran = folder.ends(1, "figures --merge a.part broken.part");
    assert_eq!(
        ran.out,
        "broken.part, line 1 (traces/00000.trace): 71 BadReport, nothing is merged: the counts do not sum to the records, more discards than records, or another length\n"
    );
}

#[test]
fn many_replayed() {
    let folder = fleet(98);
    let ran = folder.ends(1, "replay traces --flash 32K");
    let lines: Vec<&str> = ran.out.lines().collect();
    assert_eq!(lines.len(), 100, "{}", ran.out);
    assert_eq!(
        lines[14],
        "00013.trace, 4 records: bad: record 3: it has 7 bytes of 513."
    );
    assert_eq!(
        lines[78],
        "00077.trace, 64 records: differs: record 5: the site got 13 Again; ours is 14 Written."
    );
    assert_eq!(
        lines[99],
        "98 traces: 84 replayed to the end, 2 of them complete; 12 empty; 1 bad; 1 differs"
    );
    let two = folder.ends(
        0,
        "replay traces/00001.trace traces/00002.trace --flash 32K",
    );
    assert!(two
        .out
        .ends_with("2 traces: 2 replayed to the end, 0 of them complete\n"));
    let json = folder.ends(1, "replay traces --flash 32K --json");
    assert!(json
        .out
        .ends_with("\"bad\": 1, \"differs\": 1, \"undecided\": 0}\n"));
}

/// Standard input and a pipe can be read once alone, and are read though no flash is said.
#[test]
fn what_can_be_read_once() {
    let folder = fleet(6);
    let (trace, two) = ("traces/00005.trace", "traces/00004.trace");
    for command in ["figures", "replay"] {
        let plain = folder.run(&format!("{command} {two} {trace}"));
        let line = format!("vantorel {command} {two} - < {trace}");
        let told = shell(&folder, &line).out;
        let told = told.replace("\nstandard input", "\n00005.trace");
        assert_eq!(told, plain.out, "{line}");
        let line =
            format!("mkfifo pipe; cat {trace} > pipe & vantorel {command} {two} pipe; rm pipe");
        let told = shell(&folder, &line).out.replace("\npipe", "\n00005.trace");
        assert_eq!(told, plain.out, "{line}");
    }
}

// ---- engines: the commands are those of docs/FLEET.md

/// The code blocks of docs/FLEET.md of a language.
fn documented(language: &str) -> Vec<String> {
    let page = Path::new(env!("CARGO_MANIFEST_DIR")).join("../../docs/FLEET.md");
    let page = fs::read_to_string(page).expect("the page");
    let start = format!("```{language}\n");
    let blocks = page.split(&start).skip(1);
    blocks
        .map(|rest| rest[..rest.find("```").expect("an end")].to_string())
        .collect()
}

/// Runs a documented block, and holds what it prints to the figures of one run.
fn engine(name: &str, block: &str, run: &str) {
    if !is_installed(name) {
        println!("{name} is not installed: its run was left out");
        return;
    }
    let folder = fleet(230);
    let whole = folder.ends(1, "figures traces --flash 32K");
    folder.put("Makefile", block);
    let ran = shell(&folder, run);
    assert_eq!(figures(&ran.out), figures(&whole.out), "{}", ran.err);
}

#[test]
fn by_xargs_and_parallel() {
    let blocks = documented("sh");
    assert_eq!(blocks.len(), 2);
    engine("xargs", "", &blocks[0]);
    engine("parallel", "", &blocks[1]);
}

#[test]
fn by_make() {
    let blocks = documented("make");
    assert_eq!(blocks.len(), 1);
    engine("make", &blocks[0], "make -s -j2; cat figures.txt");
}
