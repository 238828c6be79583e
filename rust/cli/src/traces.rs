//! The traces that a command line names: files, folders of them, and standard input.

use crate::{files, Trouble};
use std::borrow::Cow;
use std::path::Path;

/// The end of a trace's name in a folder.
const ENDING: &str = ".trace";

/// A trace that is named.
pub struct Trace {
    /// Its name.
    pub name: String,
    /// The bytes of what can be read once: standard input, or a pipe. A file is read when it is needed, and again.
    once: Option<Vec<u8>>,
}

impl Trace {
    fn new(name: String) -> Result<Trace, Trouble> {
        let is_file = name != files::STANDARD && Path::new(&name).is_file();
        // of what is not there too the reason is told at once
        let once = match is_file {
            true => None,
            false => Some(files::read(&name)?),
        };
        Ok(Trace { name, once })
    }

    /// Its bytes.
    pub fn bytes(&self) -> Result<Cow<'_, [u8]>, Trouble> {
        match &self.once {
            Some(bytes) => Ok(Cow::Borrowed(bytes)),
            None => files::read(&self.name).map(Cow::Owned),
        }
    }
}

/// The traces: a folder stands for its files that end in `.trace`, in the order of their names.
pub fn named(names: &[&str]) -> Result<Vec<Trace>, Trouble> {
    let mut all = Vec::new();
    for name in names {
        if Path::new(name).is_dir() {
            for path in in_folder(name)? {
                all.push(Trace::new(path)?);
            }
        } else {
            all.push(Trace::new(name.to_string())?);
        }
    }
    Ok(all)
}

fn in_folder(folder: &str) -> Result<Vec<String>, Trouble> {
    let mut found: Vec<String> = files::list(folder)?
        .into_iter()
        .filter(|path| path.ends_with(ENDING) && !Path::new(path).is_dir())
        .collect();
    if found.is_empty() {
        return Err(Trouble(format!(
            "the folder {folder} has no file whose name ends in {ENDING}"
        )));
    }
    found.sort();
    Ok(found)
}
