//! A part as a line of text: a key, the board, and the part's bytes, with tabs between. Such lines can be joined by `cat`, sorted and piped.

use crate::board::Board;
use crate::out::Out;
use crate::{files, Trouble};
use tools::part::{Part, PART_BYTES};

/// A part that is saved.
#[derive(Clone, PartialEq, Eq, Debug)]
pub struct Saved {
    /// The name of its first trace.
    pub key: String,
    /// The digest of the board, in hex digits.
    pub board: String,
    /// The part.
    pub part: Part,
}

fn hex(bytes: &[u8]) -> String {
    bytes.iter().map(|byte| format!("{byte:02x}")).collect()
}

/// Bytes of so many hex digits, and no other text.
fn bytes<const N: usize>(text: &str) -> Option<[u8; N]> {
    let mut bytes = [0; N];
    if text.len() != 2 * N || !text.bytes().all(|c| c.is_ascii_hexdigit()) {
        return None;
    }
    for (byte, k) in bytes.iter_mut().zip((0..).step_by(2)) {
        *byte = u8::from_str_radix(&text[k..k + 2], 16).ok()?;
    }
    Some(bytes)
}

impl Saved {
    /// The part of traces, of which this is the first, replayed into this board.
    pub fn new(first: &str, board: &Board, part: Part) -> Result<Saved, Trouble> {
        if first.contains(char::is_control) {
            return Err(Trouble(format!(
                "{first:?}: a name with a tab, a line break or another control character in it cannot stand in a part's line"
            )));
        }
        Ok(Saved {
            key: first.into(),
            board: hex(&board.digest()),
            part,
        })
    }

    /// The line.
    pub fn line(&self) -> String {
        format!("{}\t{}\t{}", self.key, self.board, hex(&self.part.bytes()))
    }

    /// The part of a line, where it is one.
    pub fn read(line: &str) -> Option<Saved> {
        let mut fields = line.split('\t');
        let (key, board, part) = (fields.next()?, fields.next()?, fields.next()?);
        if fields.next().is_some() {
            return None;
        }
        Some(Saved {
            key: key.into(),
            board: hex(&bytes::<16>(board)?),
            part: Part::from_bytes(&bytes::<PART_BYTES>(part)?),
        })
    }

    /// Writes the line to a file, or to standard output.
    pub fn write(&self, name: &str, out: &mut Out) -> Result<(), Trouble> {
        if name == "-" {
            // as it is: its tabs part the fields
            out.text(format_args!("{}\n", self.line()));
            return Ok(());
        }
        files::write(name, format!("{}\n", self.line()).as_bytes())
    }
}

#[cfg(test)]
mod tests {
    use super::*;

    #[test]
    fn a_line_and_back() {
        let part = Part {
            traces: 7,
            bad: 2,
            ..Part::FRESH
        };
        let saved = Saved {
            key: "a b.trace".into(),
            board: "00".repeat(16),
            part,
        };
        assert_eq!(saved.line().len(), 9 + 1 + 32 + 1 + 192);
        assert_eq!(Saved::read(&saved.line()), Some(saved.clone()));
        let line = saved.line();
        for wrong in [
            "",
            "a\tb\tc",
            &line[..line.len() - 1],
            &line[1 + "a b.trace".len()..],
            &format!("{line}0"),
            &format!("{line}\t"),
            &line.replace("\t00", "\t+0"),
        ] {
            assert_eq!(Saved::read(wrong), None, "{wrong}");
        }
    }
}
