//! Files, whole or not at all.

use crate::system::{self, reason};
use crate::Trouble;
use std::fs::{self, File, OpenOptions};
use std::io::{self, Read, Write};
use std::path::{Path, PathBuf};

/// The name of standard input.
pub const STANDARD: &str = "-";

/// The most bytes of a file that is read, 1 GiB: a device may have no end, and a file may be larger than memory. The largest file of blocks that a
/// board takes has 64 MiB.
const MOST: u64 = 1 << 30;

/// The bytes of a file, or of standard input.
pub fn read(name: &str) -> Result<Vec<u8>, Trouble> {
    let read = match name {
        STANDARD => whole(io::stdin().lock(), 0),
        // of a directory Windows says only that access is denied
        _ if Path::new(name).is_dir() => Err(io::Error::other("Is a directory")),
        _ => File::open(name).and_then(|file| {
            let len = file.metadata()?.len();
            whole(file, len)
        }),
    };
    read.map_err(|why| Trouble(format!("cannot read {}: {}", called(name), reason(&why))))
}

/// All bytes, of which so many are expected.
fn whole(from: impl Read, len: u64) -> io::Result<Vec<u8>> {
    let too_long = || io::Error::other("it has more than 1 GiB, the most that is read of a file");
    if len > MOST {
        return Err(too_long());
    }
    let mut bytes = Vec::with_capacity(len as usize);
    from.take(MOST + 1).read_to_end(&mut bytes)?;
    match bytes.len() as u64 {
        0..=MOST => Ok(bytes),
        _ => Err(too_long()),
    }
}

/// A name in a sentence.
pub fn called(name: &str) -> &str {
    match name {
        STANDARD => "standard input",
        _ => name,
    }
}

/// A word of a command line as a shell takes it.
pub fn quoted(word: &str) -> String {
    if cfg!(windows) {
        return system::double_quoted(word);
    }
    let plain = |c: char| c.is_ascii_alphanumeric() || "_./=:,+@%-".contains(c);
    if !word.is_empty() && word.chars().all(plain) {
        return word.to_string();
    }
    if word.contains(char::is_control) {
        // the shells bash, ksh and zsh know this form
        let escaped = word.chars().map(|c| match c {
            '\\' | '\'' => format!("\\{c}"),
            c if c.is_control() => format!("\\u{:04x}", u32::from(c)),
            c => c.to_string(),
        });
        return format!("$'{}'", escaped.collect::<String>());
    }
    format!("'{}'", word.replace('\'', "'\\''"))
}

/// The name of a file as a word of a command line: no name begins as an option does.
pub fn quoted_name(name: &str) -> String {
    match name.starts_with('-') && name != STANDARD {
        true => quoted(&format!("./{name}")),
        false => quoted(name),
    }
}

/// The paths of what is in a folder, in no order.
pub fn list(folder: &str) -> Result<Vec<String>, Trouble> {
    let trouble = |why: &io::Error| Trouble(format!("cannot read {folder}: {}", reason(why)));
    let mut paths = Vec::new();
    for entry in fs::read_dir(folder).map_err(|why| trouble(&why))? {
        let path = entry.map_err(|why| trouble(&why))?.path();
        match path.into_os_string().into_string() {
            Ok(path) => paths.push(path),
            Err(path) => return Err(Trouble(format!("{path:?} is not text in UTF-8"))),
        }
    }
    Ok(paths)
}

/// Writes a file whole or not at all: beside it first, then renamed, so that no half of it is ever there under its name.
pub fn write(name: &str, bytes: &[u8]) -> Result<(), Trouble> {
    let written = match target(name) {
        Ok(Target::Renamed(path)) => renamed(&path, bytes),
        Ok(Target::Straight) => fs::write(name, bytes),
        Err(why) => Err(why),
    };
    written.map_err(|why| Trouble(format!("cannot write {name}: {}", reason(&why))))
}

/// How a file is written.
enum Target {
    /// A file: beside it, and then renamed. What a link points to is the file.
    Renamed(PathBuf),
    /// A device or a pipe, whose name must not be taken by a file.
    Straight,
}

fn target(name: &str) -> io::Result<Target> {
    match fs::metadata(name) {
        _ if system::is_device(name) => Ok(Target::Straight),
        Err(_) if fs::symlink_metadata(name).is_ok() => {
            Err(io::Error::other("it is a link to a file that is not there"))
        }
        Err(_) => Ok(Target::Renamed(name.into())),
        Ok(found) if found.is_dir() => Err(io::Error::other("it is a directory")),
        Ok(found) if found.is_file() => Ok(Target::Renamed(fs::canonicalize(name)?)),
        Ok(_) => Ok(Target::Straight),
    }
}

fn renamed(path: &Path, bytes: &[u8]) -> io::Result<()> {
    // a short name: one of 255 bytes has no room for more
    let part = path.with_file_name(format!(".vantorel.part{}", std::process::id()));
    let mut file = OpenOptions::new()
        .write(true)
        .create_new(true)
        .open(&part)?;
    let written = file
        .write_all(bytes)
        .and_then(|()| file.sync_all())
        .and_then(|()| fs::rename(&part, path));
    if written.is_err() {
        let _ = fs::remove_file(&part);
    }
    written
}

/// Refuses an output that is an input or another output: the same path, or one file under two names. The files of a folder that is an input are
/// inputs too.
pub fn apart(outputs: &[&str], inputs: &[&str]) -> Result<(), Trouble> {
    if inputs.iter().filter(|name| **name == STANDARD).count() > 1 {
        return Err(Trouble(
            "standard input is named twice, and can be read once".into(),
        ));
    }
    if outputs.contains(&STANDARD) {
        return Err(Trouble(
            "an output is a file, and not -; give it a name".into(),
        ));
    }
    let folders = inputs.iter().filter(|name| Path::new(name).is_dir());
    let inside: Vec<String> = match outputs {
        [] => Vec::new(),
        _ => folders
            .flat_map(|name| list(name).unwrap_or_default())
            .collect(),
    };
    let inside = inside.iter().map(String::as_str);
    let inputs: Vec<&str> = inputs.iter().copied().chain(inside).collect();
    for (k, name) in outputs.iter().enumerate() {
        let file = Identity::of(name);
        let same = |other: &&&str| Identity::of(other) == file;
        if let Some(input) = inputs.iter().find(same) {
            return Err(Trouble(format!(
                "the output {name} is the same file as the input {}; give the output another name",
                called(input)
            )));
        }
        if let Some(other) = outputs[..k].iter().find(same) {
            return Err(Trouble(format!(
                "the outputs {other} and {name} are the same file; give one of them another name"
            )));
        }
    }
    Ok(())
}

/// Which file a name stands for.
#[derive(PartialEq, Eq)]
enum Identity {
    /// One that is there, whatever it is called: links lead to what they point to, and all hard links of a file are one.
    #[cfg(unix)]
    Inode(u64, u64),
    /// One that is not there yet, or of a system that tells no more.
    Path(PathBuf),
}

impl Identity {
    fn of(name: &str) -> Identity {
        #[cfg(unix)]
        let name = match name {
            STANDARD => "/dev/stdin",
            _ => name,
        };
        #[cfg(unix)]
        if let Ok(found) = fs::metadata(name) {
            use std::os::unix::fs::MetadataExt;
            return Identity::Inode(found.dev(), found.ino());
        }
        Identity::Path(place(Path::new(name)))
    }
}

/// The path of a file without links and dots, though the file is not there.
fn place(path: &Path) -> PathBuf {
    let beside = || {
        let folder = match path.parent() {
            Some(folder) if folder != Path::new("") => folder,
            _ => Path::new("."),
        };
        Ok::<_, io::Error>(fs::canonicalize(folder)?.join(path.file_name().unwrap_or_default()))
    };
    fs::canonicalize(path)
        .or_else(|_| beside())
        .or_else(|_| std::path::absolute(path))
        .unwrap_or_else(|_| path.into())
}

/// The last part of a file's name, for a line of text.
pub fn short(name: &str) -> String {
    let name = called(name);
    Path::new(name).file_name().map_or_else(
        || name.to_string(),
        |part| part.to_string_lossy().into_owned(),
    )
}
