//! A failing list saved: as a file of blocks, as a trace, and as a scenario for the page.

use super::judge::Got;
use super::list::{Play, Start};
use super::right::Played;
use crate::{files, Trouble};
use std::fs;
use std::path::Path;

/// The files of a list, by their endings.
pub struct Saved {
    /// The path without its ending.
    pub stem: String,
    pub endings: Vec<&'static str>,
}

/// Writes the files of a list.
pub fn save(
    folder: &Path,
    name: &str,
    title: &str,
    play: &Play,
    got: &Got,
    right: &Played,
) -> Result<Saved, Trouble> {
    fs::create_dir_all(folder)
        .map_err(|why| Trouble(format!("cannot write {}: {why}", folder.display())))?;
    let stem = folder.join(name).to_string_lossy().into_owned();
    let mut endings = Vec::new();
    let mut put = |ending: &'static str, bytes: &[u8]| {
        endings.push(ending);
        files::write(&format!("{stem}{ending}"), bytes)
    };
    match play {
        Play::Hex(_, lines) => put(".hex", &lines.concat())?,
        Play::Uf2(list) => {
            put(".uf2", &list.bytes())?;
            if let Some(trace) =
                trace(&list.arrivals, got).filter(|_| !list.twin && list.is_program())
            {
                put(".trace", &trace)?;
            }
            if list.is_program() {
                put(".json", scenario(title, &list.arrivals, got).as_bytes())?;
            }
        }
    }
    if let Some(contents) = got
        .contents
        .as_ref()
        .filter(|bytes| !bytes.is_empty() && **bytes != right.contents)
    {
        put(
            if matches!(play, Play::Hex(..)) {
                ".image"
            } else {
                ".flash"
            },
            contents,
        )?;
    }
    Ok(Saved { stem, endings })
}

/// A trace with the hand-in's own answers; none where a piece is short, an answer has no room in a record, or there are none.
fn trace(arrivals: &[Vec<u8>], got: &Got) -> Option<Vec<u8>> {
    if got.answers.len() != arrivals.len() || arrivals.is_empty() {
        return None;
    }
    let mut bytes = Vec::new();
    for (piece, answer) in arrivals.iter().zip(&got.answers) {
        if piece.len() != 512 || answer.number > 31 || answer.more > 1 {
            return None;
        }
        bytes.push((answer.number as u8) << 3 | (answer.more as u8) << 2);
        bytes.extend_from_slice(piece);
    }
    Some(bytes)
}

/// A scenario of the training page: the board of document 01's program, the pieces, and the hand-in's answers.
fn scenario(title: &str, arrivals: &[Vec<u8>], got: &Got) -> String {
    use crate::json::Json;
    let mut pieces: Vec<&[u8]> = Vec::new();
    let mut send = Vec::new();
    for piece in arrivals {
        let at = pieces
            .iter()
            .position(|other| *other == piece.as_slice())
            .unwrap_or_else(|| {
                pieces.push(piece);
                pieces.len() - 1
            });
        send.push(format!("#{at}"));
    }
    let start = Start::program();
    let board = Json::Object(vec![
        ("flash", start.flash.into()),
        ("arm", true.into()),
        ("riscv", false.into()),
        ("current", "arm".into()),
        ("autoSwitch", false.into()),
        ("absolute", true.into()),
        ("entries", Json::List(Vec::new())),
        ("main", false.into()),
        ("xip", false.into()),
        ("lent", "erased".into()),
    ]);
    let answers = got.answers.iter().map(|answer| answer.number);
    let scenario = Json::Object(vec![
        ("vantorel", "scenario".into()),
        ("version", 1u32.into()),
        ("title", title.into()),
        ("board", board),
        (
            "file",
            Json::Object(vec![("bytes", base64(&pieces.concat()).into())]),
        ),
        ("send", send.join(" ").into()),
        ("position", 0u32.into()),
        ("guess", false.into()),
        ("answers", Json::list(answers)),
    ]);
    format!("{scenario}\n")
}

/// Base64 (RFC 4648).
fn base64(bytes: &[u8]) -> String {
    const DIGITS: &[u8] = b"ABCDEFGHIJKLMNOPQRSTUVWXYZabcdefghijklmnopqrstuvwxyz0123456789+/";
    let mut text = String::new();
    for part in bytes.chunks(3) {
        let byte = |k: usize| u32::from(part.get(k).copied().unwrap_or(0));
        let word = byte(0) << 16 | byte(1) << 8 | byte(2);
        for k in 0..4 {
            let digit = DIGITS[(word >> (18 - 6 * k) & 63) as usize];
            text.push(if k <= part.len() {
                char::from(digit)
            } else {
                '='
            });
        }
    }
    text
}

#[cfg(test)]
mod tests {
    use super::base64;

    /// The examples of RFC 4648.
    #[test]
    fn digits() {
        for (bytes, text) in [
            ("", ""),
            ("f", "Zg=="),
            ("fo", "Zm8="),
            ("foo", "Zm9v"),
            ("foob", "Zm9vYg=="),
        ] {
            assert_eq!(base64(bytes.as_bytes()), text);
        }
    }
}
