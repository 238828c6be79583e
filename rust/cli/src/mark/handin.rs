//! What was handed in: a program, a library or a hex program, by the name of its file and by its text.

use super::run::{self, Ended, Program, Room};
use crate::Trouble;
use std::fs;
use std::os::unix::fs::PermissionsExt;
use std::path::{Path, PathBuf};
use std::time::Duration;

const HEADERS: [(&str, &str); 2] = [
    (
        "uf2_receiver.h",
        include_str!("../../../../include/uf2_receiver.h"),
    ),
    ("uf2_len.h", include_str!("../../../../include/uf2_len.h")),
];

/// The form of a hand-in.
#[derive(Clone, Copy, PartialEq, Eq, Debug)]
pub enum Form {
    Program,
    Library,
    Hex,
}

impl Form {
    /// Its word, which mistakes.json has too.
    pub fn word(self) -> &'static str {
        match self {
            Form::Program => "program",
            Form::Library => "library",
            Form::Hex => "hex",
        }
    }

    /// In a sentence.
    pub fn told(self) -> &'static str {
        match self {
            Form::Program => "a program",
            Form::Library => "a library",
            Form::Hex => "a hex program",
        }
    }
}

/// How it is asked for.
#[derive(Clone, Copy, Default)]
pub struct Wanted<'a> {
    /// It reads Universal Hex.
    pub hex: bool,
    /// A command that runs it.
    pub run: Option<&'a str>,
    /// Bubblewrap is used where it starts.
    pub bwrap: bool,
}

/// A hand-in that can be run.
pub struct HandIn {
    /// The file.
    pub path: PathBuf,
    pub form: Form,
    /// How it is run, in words: "run by python3".
    pub how: String,
    /// What runs it. Of a library, its one word is the library's path.
    pub program: Program,
    /// Why bubblewrap is not used.
    pub bare: Option<String>,
    /// What the compiler remarked.
    pub remarks: Vec<String>,
    /// The SHA-256 of its file.
    pub digest: String,
    /// Where the copy lies that is run; it goes with this value.
    _room: Room,
}

/// What becomes of a file.
pub enum Made {
    Ready(Box<HandIn>),
    /// It does not compile: the compiler's first error.
    Fails {
        path: PathBuf,
        form: Form,
        why: String,
        digest: String,
    },
}

/// The file of a hand-in: itself, or the one of a folder, receiver.* where there are more.
pub fn file(path: &Path) -> Result<PathBuf, Trouble> {
    let trouble = |why: String| Err(Trouble(format!("{}: {why}", path.display())));
    if !path.is_dir() {
        return match path.is_file() {
            true => Ok(path.into()),
            false => trouble("there is no such hand-in".into()),
        };
    }
    let entries = fs::read_dir(path)
        .map_err(|why| Trouble(format!("cannot read {}: {why}", path.display())))?;
    let files = entries
        .flatten()
        .map(|entry| entry.path())
        .filter(|path| path.is_file());
    let hidden = |path: &PathBuf| {
        path.file_name()
            .is_some_and(|name| name.to_string_lossy().starts_with('.'))
    };
    let mut files: Vec<PathBuf> = files.filter(|path| !hidden(path)).collect();
    files.sort();
    let named = files
        .iter()
        .find(|path| path.file_stem().is_some_and(|stem| stem == "receiver"));
    match (files.as_slice(), named) {
        ([one], _) => Ok(one.clone()),
        (_, Some(found)) => Ok(found.clone()),
        ([], _) => trouble("the folder is empty".into()),
        _ => trouble("the folder has several files, and none is named receiver".into()),
    }
}

/// Makes a hand-in, a file or a folder with one, ready to be run: a copy in a folder of its own, compiled where it is a source.
pub fn make(given: &Path, wanted: Wanted) -> Result<Made, Trouble> {
    let path = &file(given)?;
    let trouble = |why: &dyn std::fmt::Display| Trouble(format!("{}: {why}", path.display()));
    let bytes = fs::read(path).map_err(|why| trouble(&why))?;
    let room = Room::new().map_err(|why| trouble(&why))?;
    let folder = room.path().join("handin");
    let name = path
        .file_name()
        .unwrap_or_default()
        .to_string_lossy()
        .into_owned();
    let copied = fs::create_dir(&folder).and_then(|()| {
        // a folder that was handed in may have more than one file
        let beside = fs::read_dir(given).into_iter().flatten().flatten();
        for entry in beside.filter(|entry| entry.path().is_file()) {
            fs::copy(entry.path(), folder.join(entry.file_name()))?;
        }
        fs::copy(path, folder.join(&name))
    });
    copied.map_err(|why| trouble(&why))?;
    let digest = super::sha256::hex(&bytes);
    let text = String::from_utf8_lossy(&bytes).into_owned();
    let bare = match wanted.bwrap {
        true => run::bubblewrap().err(),
        false => Some("--no-bwrap was said".into()),
    };
    let bwrap = bare.is_none();
    let at = |file: &str| match bwrap {
        true => format!("/handin/{file}"),
        false => folder.join(file).to_string_lossy().into_owned(),
    };
    let extension = Path::new(&name)
        .extension()
        .unwrap_or_default()
        .to_string_lossy()
        .into_owned();
    let found = |interpreter: &str| {
        run::find(interpreter).ok_or(trouble(&format!(
            "{interpreter} is not installed in {}",
            run::PATHS.join(", ")
        )))
    };
    let mut remarks = Vec::new();
    let mut limits = run::limits();
    let mut form = if wanted.hex { Form::Hex } else { Form::Program };
    let (words, how) = match extension.as_str() {
        _ if wanted.run.is_some() => {
            let command = wanted.run.unwrap_or_default();
            let command = match command.contains("{}") {
                true => command.replace("{}", &at(&name)),
                false => format!("{command} {}", at(&name)),
            };
            (
                vec![
                    "/bin/sh".into(),
                    "-c".into(),
                    format!("{command} \"$@\""),
                    "sh".into(),
                ],
                format!("run by '{}'", wanted.run.unwrap_or_default()),
            )
        }
        "py" => (
            vec![found("python3")?, "-B".into(), at(&name)],
            "run by python3".to_string(),
        ),
        "js" | "mjs" => {
            // node asks for far more address space than it uses
            limits.memory = 64 << 30;
            (
                vec![found("node")?, "--max-old-space-size=256".into(), at(&name)],
                "run by node".to_string(),
            )
        }
        "c" | "rs" => {
            let source = folder.join(&name);
            let library = !has_main(&text, &extension);
            if library && wanted.hex {
                return Err(trouble(&"a hex program has a function main"));
            }
            if library {
                form = Form::Library;
            }
            let made = if library { "receiver.so" } else { "receiver" };
            let (compiler, compiled) = compile(
                &source,
                &folder.join(made),
                &extension,
                library,
                room.path(),
            )
            .map_err(|why| trouble(&why))?;
            match compiled {
                Ok(said) => remarks.extend(said),
                Err(why) => {
                    return Ok(Made::Fails {
                        path: path.into(),
                        form,
                        why,
                        digest,
                    })
                }
            }
            (vec![at(made)], format!("compiled by {compiler}"))
        }
        "so" => {
            form = Form::Library;
            (vec![at(&name)], "as it is".into())
        }
        _ => {
            let mode = fs::metadata(path).map_or(0, |found| found.permissions().mode());
            if mode & 0o111 == 0 {
                return Err(trouble(&"it cannot be run: it is not executable, and its name ends in none of .py .js .rs .c .so; --run says how"));
            }
            (vec![at(&name)], "as it is".to_string())
        }
    };
    let variable = match form {
        Form::Hex => "VANTOREL_IMAGE",
        _ => "VANTOREL_FLASH",
    };
    Ok(Made::Ready(Box::new(HandIn {
        path: path.into(),
        form,
        how,
        program: Program {
            words,
            folder,
            bwrap,
            binds: Vec::new(),
            variable,
            limits,
        },
        bare,
        remarks,
        digest,
        _room: room,
    })))
}

/// Whether a source is a program.
fn has_main(text: &str, extension: &str) -> bool {
    match extension {
        "rs" => text.contains("fn main("),
        _ => text.match_indices("main").any(|(at, _)| {
            let before = text[..at].chars().next_back();
            let after = text[at + 4..].trim_start();
            !before.is_some_and(|c| c.is_alphanumeric() || c == '_') && after.starts_with('(')
        }),
    }
}

/// What a compiler says: its remarks, or its first error.
type Compiled = Result<Vec<String>, String>;

/// Compiles a source, and says by what.
fn compile(
    source: &Path,
    made: &Path,
    extension: &str,
    library: bool,
    room: &Path,
) -> Result<(&'static str, Compiled), String> {
    let include = room.join("include");
    fs::create_dir(&include).map_err(|why| why.to_string())?;
    for (name, text) in HEADERS {
        fs::write(include.join(name), text).map_err(|why| why.to_string())?;
    }
    let text = |path: &Path| path.to_string_lossy().into_owned();
    let (compiler, words): (&str, Vec<String>) = match extension {
        "rs" => {
            let kind = if library { "cdylib" } else { "bin" };
            (
                "rustc",
                vec![
                    "-O".into(),
                    "--edition=2021".into(),
                    format!("--crate-type={kind}"),
                    "-o".into(),
                    text(made),
                    text(source),
                ],
            )
        }
        _ => {
            let mut words = ["-std=c11", "-O1", "-g", "-Wall", "-Wextra", "-I"]
                .map(String::from)
                .to_vec();
            words.push(text(&include));
            if library {
                words.extend(["-shared".into(), "-fPIC".into()]);
            }
            words.extend([text(source), "-o".into(), text(made)]);
            ("cc", words)
        }
    };
    let Some(found) = compiler_of(compiler) else {
        return Err(format!("{compiler} is not installed"));
    };
    let (ended, said) = run_compiler(&found, &words)?;
    let mut said = said.lines().filter(|line| !line.trim().is_empty());
    if ended == Ended::Well {
        let warnings = said.clone().filter(|line| line.contains("warning")).count();
        let first = said
            .find(|line| line.contains("warning"))
            .map(|line| super::program::short(&without(line, source)));
        return Ok((
            compiler,
            Ok(first
                .map(|line| format!("the compiler warns {} times; first: {line}", warnings))
                .into_iter()
                .collect()),
        ));
    }
    let first = said
        .clone()
        .find(|line| line.contains("error"))
        .or(said.next());
    let why = match (&ended, first) {
        (Ended::Late(_), _) => "the compiler came to no end".to_string(),
        (_, Some(line)) => super::program::short(&without(line, source)),
        _ => "the compiler says nothing".into(),
    };
    Ok((compiler, Err(why)))
}

/// A line of a compiler without the folder of the source.
fn without(line: &str, source: &Path) -> String {
    let folder = source
        .parent()
        .map(|folder| format!("{}/", folder.display()));
    line.replace(&folder.unwrap_or_default(), "")
}

/// Where a compiler is: beside the usual places, where the user's own programs are.
fn compiler_of(name: &str) -> Option<String> {
    let path = std::env::var("PATH").unwrap_or_default();
    let own = path.split(':').map(|folder| format!("{folder}/{name}"));
    own.into_iter()
        .find(|path| Path::new(path).is_file())
        .or_else(|| run::find(name))
}

/// Runs a compiler, which is not the hand-in, with the user's own environment.
fn run_compiler(compiler: &str, words: &[String]) -> Result<(Ended, String), String> {
    use std::os::unix::process::CommandExt;
    let room = Room::new().map_err(|why| why.to_string())?;
    let log = room.path().join("log");
    let out = fs::File::create(&log).map_err(|why| why.to_string())?;
    let mut command = std::process::Command::new(compiler);
    command
        .args(words)
        .stdin(std::process::Stdio::null())
        .stdout(std::process::Stdio::null())
        .stderr(out);
    let limits = run::compiler_limits();
    // SAFETY: what is done between fork and exec makes system calls alone, and allocates nothing.
    unsafe { command.pre_exec(move || super::sys::limit_compiler(limits)) };
    let mut child = command.spawn().map_err(|why| why.to_string())?;
    let time = Duration::from_secs(60);
    let in_time = super::sys::ended_within(child.id(), time);
    super::sys::end_group(child.id());
    let status = child.wait().map_err(|why| why.to_string())?;
    super::sys::end_orphans();
    let said = fs::read(&log)
        .map(|bytes| String::from_utf8_lossy(&bytes).into_owned())
        .unwrap_or_default();
    Ok(match (in_time, status.success()) {
        (false, _) => (Ended::Late(time), said),
        (true, true) => (Ended::Well, said),
        (true, false) => (Ended::Status(1), said),
    })
}
