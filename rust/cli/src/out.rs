//! What a command prints.

use std::fmt::Display;
use std::io::{self, BufWriter, IsTerminal, Stdout, Write};

/// Standard output. The first error is kept, and nothing is written after it.
pub struct Out {
    text: BufWriter<Stdout>,
    failed: Option<io::Error>,
    /// Whether a terminal shows it, and nobody asked for no colour (https://no-color.org).
    colour: bool,
}

/// Whether colours are wanted and shown.
fn colour() -> bool {
    let none = |name: &str, value: &str| std::env::var(name).is_ok_and(|x| x == value);
    let asked = std::env::var_os("NO_COLOR").is_some_and(|x| !x.is_empty());
    !asked && !none("TERM", "dumb") && io::stdout().is_terminal()
}

/// A text in which control characters, as a file's name may have them, are written as such and do nothing to a terminal.
fn harmless(text: impl Display) -> String {
    let mut shown = String::new();
    for c in text.to_string().chars() {
        if c.is_control() {
            shown.extend(c.escape_default());
        } else {
            shown.push(c);
        }
    }
    shown
}

impl Out {
    pub(crate) fn new() -> Out {
        Out {
            text: BufWriter::new(io::stdout()),
            failed: None,
            colour: colour(),
        }
    }

    /// Writes a line.
    pub fn line(&mut self, text: impl Display) {
        self.text(format_args!("{}\n", harmless(text)));
    }

    /// Writes a line whose first words, up to the colon, say how it ended: green where all is well, and red where not.
    pub fn verdict(&mut self, text: impl Display, well: bool) {
        let text = harmless(text);
        match text.split_once(':') {
            Some((first, rest)) if self.colour => {
                let code = if well { "1;32" } else { "1;31" };
                self.text(format_args!("\x1b[{code}m{first}\x1b[0m:{rest}\n"));
            }
            _ => self.text(format_args!("{text}\n")),
        }
    }

    /// Writes a text as it is.
    pub fn text(&mut self, text: impl Display) {
        if self.failed.is_none() {
            self.failed = write!(self.text, "{text}").err();
        }
    }

    /// Writes a sentence to standard error, after all that was written before.
    pub fn note(&mut self, text: impl Display) {
        if self.failed.is_none() {
            self.failed = self.text.flush().err();
        }
        // where nobody can be told, nothing is left to do
        let _ = writeln!(io::stderr(), "vantorel: {}", harmless(text));
    }

    /// What went wrong with it, once all is written. A reader that went away (`| head`) is no error.
    pub(crate) fn end(mut self) -> Result<(), io::Error> {
        let flushed = self.text.flush();
        match self.failed.map_or(flushed, Err) {
            Err(why) if crate::system::is_gone(&why) => Ok(()),
            result => result,
        }
    }
}

#[cfg(test)]
mod tests {
    use super::harmless;

    #[test]
    fn control_characters() {
        assert_eq!(harmless("a b'\\é"), "a b'\\é");
        assert_eq!(harmless("a\n\x1b[31m\t\u{9b}"), "a\\n\\u{1b}[31m\\t\\u{9b}");
    }
}
