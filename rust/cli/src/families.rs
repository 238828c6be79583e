//! Families by name.

use crate::number;
use proved::family;

const NAMES: [(&str, u32); 6] = [
    ("rp2040", family::RP2040),
    ("absolute", family::ABSOLUTE),
    ("data", family::DATA),
    ("arm-s", family::ARM_S),
    ("riscv", family::RISCV),
    ("arm-ns", family::ARM_NS),
];

/// The name of a family, where it has one.
pub fn name(number: u32) -> Option<&'static str> {
    let (name, _) = NAMES.iter().find(|(_, x)| *x == number)?;
    Some(name)
}

/// A family as people write it: its number, and its name where it has one.
pub fn words(number: u32) -> String {
    match name(number) {
        Some(name) => format!("{name} (0x{number:08x})"),
        None => format!("0x{number:08x}"),
    }
}

/// The number of a family that is said by name or as a number; else what to say instead. A name may be in upper case, with the chip before it and
/// with underscores, as other tools write it: RP2350_ARM_S.
pub fn parse(text: &str) -> Result<u32, String> {
    let plain = text.to_ascii_lowercase().replace('_', "-");
    let plain = match plain.strip_prefix("rp2350-") {
        Some(family @ ("arm-s" | "riscv" | "arm-ns")) => family,
        _ => &plain,
    };
    if let Some((_, number)) = NAMES.iter().find(|(name, _)| *name == plain) {
        return Ok(*number);
    }
    number::parse_u32(text).ok_or_else(|| {
        format!(
            "no family '{text}': it is one of {}, or a number of 32 bits, such as 0xe48bff59",
            NAMES.map(|(name, _)| name).join(", ")
        )
    })
}

#[cfg(test)]
mod tests {
    use super::*;

    #[test]
    fn by_name_and_number() {
        assert_eq!(parse("arm-s"), Ok(0xe48b_ff59));
        assert_eq!(parse("0xe48bff59"), Ok(0xe48b_ff59));
        for name in ["ARM-S", "rp2350-arm-s", "RP2350-ARM-S", "RP2350_ARM_S"] {
            assert_eq!(parse(name), Ok(0xe48b_ff59), "{name}");
        }
        assert_eq!(parse("rp2350-riscv"), Ok(0xe48b_ff5a));
        assert_eq!(parse("RP2350-ARM-NS"), Ok(0xe48b_ff5b));
        assert_eq!(parse("Data"), Ok(0xe48b_ff58));
        assert!(parse("rp2350-data").is_err() && parse("rp2350-rp2350-arm-s").is_err());
        assert_eq!(parse("7"), Ok(7));
        assert!(parse("e48bff59").is_err() && parse("0x100000000").is_err() && parse("").is_err());
        assert_eq!(words(0xe48b_ff5a), "riscv (0xe48bff5a)");
        assert_eq!(words(7), "0x00000007");
    }
}
