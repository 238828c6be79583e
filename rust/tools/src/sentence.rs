//! A reason as a sentence: that of words.rs, with what stands in { } filled in.

use crate::why::Reason;
use crate::words;
use core::fmt::{Display, Formatter, Result};

/// The reason in a sentence, without its capital letter and its full stop. A cause that words/answers.tsv does not have is named as one: the library
/// is then not of this version, and nothing is made up.
impl Display for Reason {
    fn fmt(&self, f: &mut Formatter<'_>) -> Result {
        let words = match self.cause {
            3 if self.got < 10 => words::place(30 + self.got as u32),
            cause @ ..3 => words::place(10 * cause),
            cause => words::cause(cause),
        };
        match words {
            Some(words) => filled(words, self, f),
            None => write!(
                f,
                "UNKNOWN CAUSE {} (got {}, against {}, entry {}): the tool and its library are not of the same version",
                self.cause, self.got, self.against, self.entry
            ),
        }
    }
}

fn filled(sentence: &str, reason: &Reason, f: &mut Formatter<'_>) -> Result {
    let mut parts = sentence.split('{');
    f.write_str(parts.next().unwrap_or_default())?;
    for part in parts {
        let (what, rest) = part.split_once('}').unwrap_or((part, ""));
        value(what, reason, f)?;
        f.write_str(rest)?;
    }
    Ok(())
}

/// A number of the reason, as the words after its name say.
fn value(what: &str, reason: &Reason, f: &mut Formatter<'_>) -> Result {
    let mut words = what.split(' ');
    let mut x = match words.next() {
        Some("got") => reason.got,
        Some("against") => reason.against,
        Some("entry") => reason.entry.into(),
        Some("other") => reason.other.into(),
        Some("marks") => return entries(&reason.marks, f),
        _ => return write!(f, "{{{what}}}"),
    };
    for word in words {
        match word {
            "page" => x = x.saturating_add(0x1000_0000).saturating_sub(256),
            "pages" => x /= 256,
            "bytes" if x == 1 => return f.write_str("1 byte"),
            "bytes" => return write!(f, "{x} bytes"),
            "hex" => return write!(f, "0x{x:08x}"),
            "flag" => return write!(f, "0x{x:04x}"),
            "family" => return family(x, f),
            "lacks" => return f.write_str(lacks(x)),
            _ => return write!(f, "{{{what}}}"),
        }
    }
    write!(f, "{x}")
}

/// A family by its number, and by its name where it has one.
fn family(x: u64, f: &mut Formatter<'_>) -> Result {
    match u32::try_from(x).ok().and_then(proved::family::name) {
        Some(name) => write!(f, "{name} (0x{x:08x})"),
        None => write!(f, "0x{x:08x}"),
    }
}

/// Where an address in no window is a RAM's, the board lacks that RAM: else the RAM would have been its window.
fn lacks(address: u64) -> &'static str {
    match address {
        0x2000_0000..0x2008_2000 => words::LACKS_MAIN,
        0x13ff_c000..0x1400_0000 => words::LACKS_XIP,
        _ => "",
    }
}

/// Why each used partition does not take a family.
fn entries(marks: &[u8; 16], f: &mut Formatter<'_>) -> Result {
    let mut first = true;
    for (entry, mark) in (0u8..).zip(marks).filter(|(_, mark)| **mark != 0) {
        if !first {
            f.write_str(", ")?;
        }
        first = false;
        match words::mark((*mark).into()) {
            Some(words) => {
                let (before, after) = words.split_once("{entry}").unwrap_or((words, ""));
                write!(f, "{before}{entry}{after}")?;
            }
            None => write!(f, "partition {entry} has the UNKNOWN MARK {mark}")?,
        }
    }
    Ok(())
}
