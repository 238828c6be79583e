//! docs/TOOL.md: what it says that the tool prints is what it prints.

use crate::common::{pages, plain, told, Folder, TOOL};
use crate::settings::TEXT;
use crate::tags::display;
use std::path::Path;
use std::process::{Command, Stdio};

/// The files that the examples of the page are run on.
fn folder() -> Folder {
    let folder = Folder::new();
    folder.put("blink.bin", pages(64));
    folder.put("blink-v1.hex", plain(0, &pages(1)));
    folder.put("blink-v2.hex", plain(0, &pages(2)));
    folder.put("display.uf2", display());
    folder.put("board.toml", TEXT);
    folder
}

/// The examples of a page: indented lines of a code block, a command after `$ ` and then what it prints.
fn examples(page: &str) -> Vec<(String, String)> {
    let mut examples: Vec<(String, String)> = Vec::new();
    let mut inside = false;
    for line in page.lines() {
        match line.strip_prefix("$ ") {
            _ if line.starts_with("```") => inside = line == "```console",
            _ if !inside => {}
            Some(command) => examples.push((command.into(), String::new())),
            None => {
                let (_, text) = examples.last_mut().expect("a command first");
                *text += line;
                *text += "\n";
            }
        }
    }
    examples
}

#[test]
fn examples_print_what_is_said() {
    let folder = folder();
    let page = Path::new(env!("CARGO_MANIFEST_DIR")).join("../../docs/TOOL.md");
    let page = std::fs::read_to_string(page).expect("the page");
    let examples = examples(&page);
    assert!(examples.len() >= 30, "{}", examples.len());
    let tool = Path::new(TOOL).parent().expect("a folder");
    let path = std::env::var("PATH").unwrap_or_default();
    for (command, text) in examples {
        let output = Command::new("sh")
            .args([
                "-c",
                &format!("{command}; status=$?; [ $status -eq 0 ] || echo \"exit status $status\""),
            ])
            .env("PATH", format!("{}:{path}", tool.display()))
            .current_dir(folder.path())
            .stdin(Stdio::null())
            .output()
            .expect("a shell");
        let ran = told(output);
        let status = ran
            .out
            .lines()
            .last()
            .filter(|line| line.starts_with("exit status"));
        let out = status.map_or(ran.out.clone(), |line| {
            ran.out.replace(&format!("{line}\n"), "")
        });
        let end = status.map_or(String::new(), |line| format!("{line}\n"));
        assert_eq!(format!("{out}{}{end}", ran.err), text, "{command}");
    }
}
