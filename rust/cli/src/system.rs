//! What differs from one operating system to the next: the words of its errors, a reader that went away, names that a shell would have expanded, quotes in
//! a command that is shown, names of devices, and texts in UTF-16.

use std::borrow::Cow;
use std::io::{self, ErrorKind};
use std::path::Path;

/// Why a file could not be read or written. The usual reasons have the same words on every system and in every language; others are told in the
/// system's words, without its number.
pub fn reason(why: &io::Error) -> String {
    let known = match why.kind() {
        ErrorKind::NotFound => "No such file or directory",
        ErrorKind::PermissionDenied => "Permission denied",
        ErrorKind::IsADirectory => "Is a directory",
        ErrorKind::NotADirectory => "Not a directory",
        ErrorKind::StorageFull => "No space left on device",
        ErrorKind::ReadOnlyFilesystem => "Read-only file system",
        // "File name too long" and the like are said by the system, where it says more than that
        _ => "",
    };
    if !known.is_empty() && why.raw_os_error().is_some() {
        return known.into();
    }
    let text = why.to_string();
    let words = text
        .split_once(" (os error")
        .map_or(&*text, |(said, _)| said);
    words.trim_end_matches('.').into()
}

/// Whether an error says that nobody reads any more. Windows has a number for it beside that of a broken pipe.
pub fn is_gone(why: &io::Error) -> bool {
    const NO_DATA: i32 = 232;
    const NOT_CONNECTED: i32 = 233;
    why.kind() == ErrorKind::BrokenPipe
        || cfg!(windows) && matches!(why.raw_os_error(), Some(NO_DATA | NOT_CONNECTED))
}

/// The names that a word stands for. Shells of Windows leave `*` and `?` to the program, and no file there has them in its name: those of the word's last
/// part are matched with the files of its folder, whose names are sorted. Where none fits, and on other systems, the word itself.
pub fn named(word: String) -> Vec<String> {
    match cfg!(windows) && word.contains(['*', '?']) {
        true => expanded(&word).unwrap_or_else(|| vec![word]),
        false => vec![word],
    }
}

fn expanded(word: &str) -> Option<Vec<String>> {
    let path = Path::new(word);
    let pattern = path.file_name()?.to_str()?.to_lowercase();
    let folder = path.parent().filter(|folder| *folder != Path::new(""));
    let entries = std::fs::read_dir(folder.unwrap_or(Path::new("."))).ok()?;
    let names = entries.filter_map(|entry| entry.ok()?.file_name().into_string().ok());
    let mut fitting: Vec<String> = names
        .filter(|name| fits(&pattern, &name.to_lowercase()))
        .map(|name| match folder {
            Some(folder) => folder.join(name).to_string_lossy().into_owned(),
            None => name,
        })
        .collect();
    fitting.sort();
    (!fitting.is_empty()).then_some(fitting)
}

/// Whether a name fits a pattern: `?` is any one character, `*` any number of them.
fn fits(pattern: &str, name: &str) -> bool {
    let (pattern, name): (Vec<char>, Vec<char>) =
        (pattern.chars().collect(), name.chars().collect());
    let (mut p, mut n) = (0, 0);
    // where the last star stands, and how much of the name it takes
    let mut star: Option<(usize, usize)> = None;
    while n < name.len() {
        match (pattern.get(p), star) {
            (Some('*'), _) => {
                star = Some((p, n));
                p += 1;
            }
            (Some(&c), _) if c == '?' || c == name[n] => (p, n) = (p + 1, n + 1),
            (_, Some((at, taken))) => {
                star = Some((at, taken + 1));
                (p, n) = (at + 1, taken + 1);
            }
            _ => return false,
        }
    }
    pattern[p..].iter().all(|&c| c == '*')
}

/// A word of a command line between double quotes, as the shells of Windows take it; no name there has one in it.
pub fn double_quoted(word: &str) -> String {
    let plain = |c: char| c.is_alphanumeric() || "_./\\=:+@-".contains(c);
    match !word.is_empty() && word.chars().all(plain) {
        true => word.into(),
        false => format!("\"{word}\""),
    }
}

/// Whether a name is one of the devices of Windows, which are in every folder: it is written to as it is, and no file beside it is renamed to it.
pub fn is_device(name: &str) -> bool {
    let last = name.rsplit(['/', '\\']).next().unwrap_or(name);
    cfg!(windows)
        && ["NUL", "CON"]
            .iter()
            .any(|device| last.eq_ignore_ascii_case(device))
}

/// A text in UTF-8. Windows PowerShell writes what a command prints as UTF-16, with FF FE before it.
pub fn utf8(text: &[u8]) -> Cow<'_, [u8]> {
    let Some(halves) = text.strip_prefix(&[0xFF, 0xFE]) else {
        return text.into();
    };
    let units = halves.chunks(2).map(|pair| match pair {
        [low, high] => u16::from_le_bytes([*low, *high]),
        _ => 0xFFFD,
    });
    let text: String = char::decode_utf16(units)
        .map(|c| c.unwrap_or(char::REPLACEMENT_CHARACTER))
        .collect();
    text.into_bytes().into()
}

#[cfg(test)]
mod tests {
    use super::*;

    #[test]
    fn patterns() {
        for (pattern, name, fitting) in [
            ("*.trace", "a.trace", true),
            ("*.trace", ".trace", true),
            ("*.trace", "a.tracex", false),
            ("a?.t*", "ab.trace", true),
            ("a?.t*", "a.trace", false),
            ("*", "", true),
            ("?", "", false),
            ("?", "ä", true),
            ("a*b*c", "axxbyyc", true),
            ("a*b*c", "axxbyy", false),
            ("*aab", "aaaab", true),
            ("", "", true),
            ("", "a", false),
        ] {
            assert_eq!(fits(pattern, name), fitting, "{pattern} {name}");
        }
        // in a time that does not double with each star
        assert!(!fits(&"*a".repeat(40), &"a".repeat(39)));
    }

    #[test]
    fn names_of_a_folder() {
        let folder = concat!(env!("CARGO_MANIFEST_DIR"), "/src/settings");
        let found = expanded(&format!("{folder}/L*.RS")).expect("files");
        assert_eq!(found, [format!("{folder}/lex.rs")]);
        let found = expanded(&format!("{folder}/*.rs")).expect("files");
        assert!(found.len() > 3 && found.is_sorted());
        assert_eq!(expanded(&format!("{folder}/*.nothing")), None);
        assert_eq!(expanded("/no such folder/*"), None);
    }

    #[test]
    fn words_of_errors() {
        let missing = std::fs::read("/no such folder/file").expect_err("none");
        assert_eq!(reason(&missing), "No such file or directory");
        let said = io::Error::other("it is a directory");
        assert_eq!(reason(&said), "it is a directory");
        assert!(is_gone(&ErrorKind::BrokenPipe.into()) && !is_gone(&missing));
    }

    #[test]
    fn quotes() {
        for (word, shown) in [
            ("a.trace", "a.trace"),
            ("C:\\täg\\a.trace", "C:\\täg\\a.trace"),
            ("my trace", "\"my trace\""),
            ("a&b", "\"a&b\""),
            ("", "\"\""),
        ] {
            assert_eq!(double_quoted(word), shown);
        }
    }

    #[test]
    fn texts() {
        assert_eq!(*utf8(b"arm = true"), *b"arm = true");
        assert_eq!(*utf8(b"\xff\xfea\0\r\0\n\0\xe4\0"), *"a\r\nä".as_bytes());
        assert_eq!(*utf8(b"\xff\xfea\0b"), *"a\u{fffd}".as_bytes());
        assert_eq!(*utf8(b"\xff\xfe\x00\xd8"), *"\u{fffd}".as_bytes());
    }
}
