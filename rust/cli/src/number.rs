//! Numbers as people write them, and as they are printed.

/// A number in decimal or, after 0x, in hex, with K or M for 1,024 and 1,048,576 after a decimal one.
pub fn parse(text: &str) -> Option<u64> {
    if let Some(digits) = text.strip_prefix("0x").or_else(|| text.strip_prefix("0X")) {
        // `from_str_radix` takes a sign, which is no digit here
        let hex = digits.bytes().all(|c| c.is_ascii_hexdigit());
        return u64::from_str_radix(digits, 16).ok().filter(|_| hex);
    }
    let (digits, unit) = match text.as_bytes().last()? {
        b'K' | b'k' => (&text[..text.len() - 1], 1024),
        b'M' | b'm' => (&text[..text.len() - 1], 1_048_576),
        _ => (text, 1),
    };
    if !digits.bytes().all(|c| c.is_ascii_digit()) {
        return None;
    }
    digits.parse::<u64>().ok()?.checked_mul(unit)
}

/// The same, of at most 32 bits.
pub fn parse_u32(text: &str) -> Option<u32> {
    u32::try_from(parse(text)?).ok()
}

/// "1 block", "2 blocks".
pub fn count(n: u64, thing: &str) -> String {
    if n == 1 {
        format!("1 {thing}")
    } else {
        format!("{n} {thing}s")
    }
}

/// Numbers that rise, those that follow each other put together: "0 to 3, 7".
pub fn ranges(numbers: impl IntoIterator<Item = u32>) -> String {
    let mut found: Vec<(u32, u32)> = Vec::new();
    for x in numbers {
        match found.last_mut() {
            Some((_, last)) if last.checked_add(1) == Some(x) => *last = x,
            _ => found.push((x, x)),
        }
    }
    let words: Vec<String> = found
        .into_iter()
        .map(|(first, last)| match last - first {
            0 => format!("{first}"),
            1 => format!("{first}, {last}"),
            _ => format!("{first} to {last}"),
        })
        .collect();
    words.join(", ")
}

#[cfg(test)]
mod tests {
    use super::*;

    #[test]
    fn numbers() {
        for (text, x) in [
            ("0", Some(0)),
            ("4096", Some(4096)),
            ("0x1000", Some(4096)),
            ("0XffFF", Some(65535)),
            ("64K", Some(65536)),
            ("2M", Some(2_097_152)),
            ("2m", Some(2_097_152)),
            ("", None),
            ("K", None),
            ("+1", None),
            ("-1", None),
            ("0x", None),
            ("0x+1", None),
            ("1G", None),
            ("1 ", None),
            ("99999999999999999999", None),
            ("99999999999999999M", None),
        ] {
            assert_eq!(parse(text), x, "{text}");
        }
        assert_eq!(parse_u32("0xffffffff"), Some(u32::MAX));
        assert_eq!(parse_u32("0x100000000"), None);
    }

    #[test]
    fn numbers_that_follow() {
        assert_eq!(ranges([]), "");
        assert_eq!(ranges([5]), "5");
        assert_eq!(ranges([5, 6]), "5, 6");
        assert_eq!(ranges([0, 1, 2, 3, 7, 9, 10, 11]), "0 to 3, 7, 9 to 11");
        assert_eq!(ranges([u32::MAX]), "4294967295");
    }

    #[test]
    fn counts() {
        assert_eq!(count(1, "block"), "1 block");
        assert_eq!(count(0, "block"), "0 blocks");
    }
}
