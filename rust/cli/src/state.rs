//! Where a transfer stands, in words and for scripts.

use crate::families;
use crate::json::Json;
use crate::number::count;
use proved::{Kind, Transfer};

/// A memory by name.
pub fn memory(kind: Kind) -> &'static str {
    match kind {
        Kind::Flash => "flash",
        Kind::MainRam => "main RAM",
        Kind::XipRam => "XIP RAM",
    }
}

/// The memory that a transfer goes to: flash, while no file has begun.
pub fn kind(transfer: Transfer) -> Kind {
    match transfer {
        Transfer::Running { kind, .. } | Transfer::Done { kind, .. } => kind,
        Transfer::Idle => Kind::Flash,
    }
}

/// A transfer in words.
pub fn words(transfer: Transfer) -> String {
    match transfer {
        Transfer::Idle => "idle: no block was taken".into(),
        Transfer::Running {
            family,
            total,
            count: come,
            kind,
        } => format!(
            "running: {come} of {} of family {} came, into {}",
            count(total.into(), "block"),
            families::words(family),
            memory(kind)
        ),
        Transfer::Done {
            family,
            total,
            kind,
        } => format!(
            "done: {} of family {}, into {}",
            count(total.into(), "block"),
            families::words(family),
            memory(kind)
        ),
    }
}

/// A transfer for scripts.
pub fn json(transfer: Transfer) -> Json {
    let (state, family, total, count) = match transfer {
        Transfer::Idle => return Json::Object(vec![("state", "idle".into())]),
        Transfer::Running {
            family,
            total,
            count,
            ..
        } => ("running", family, total, count),
        Transfer::Done { family, total, .. } => ("done", family, total, total),
    };
    Json::Object(vec![
        ("state", state.into()),
        ("family", family.into()),
        ("total", total.into()),
        ("count", count.into()),
        ("memory", memory(kind(transfer)).into()),
    ])
}

/// The numbers whose bits are set in a map, in order.
pub fn marked(map: &[u8]) -> impl Iterator<Item = u32> + '_ {
    map.iter().zip(0u32..).flat_map(|(byte, k)| {
        (0..8)
            .filter(move |bit| byte & (128 >> bit) != 0)
            .map(move |bit| 8 * k + bit)
    })
}

#[cfg(test)]
mod tests {
    use super::*;

    #[test]
    fn marks() {
        let numbers: Vec<u32> = marked(&[0b1000_0001, 0, 0b0100_0000]).collect();
        assert_eq!(numbers, [0, 7, 17]);
    }

    #[test]
    fn transfers() {
        assert_eq!(words(Transfer::Idle), "idle: no block was taken");
        let running = Transfer::Running {
            family: proved::family::ARM_S,
            total: 3,
            count: 1,
            kind: Kind::MainRam,
        };
        assert_eq!(
            words(running),
            "running: 1 of 3 blocks of family arm-s (0xe48bff59) came, into main RAM"
        );
        assert_eq!(
            json(running).to_string(),
            "{\"state\": \"running\", \"family\": 3834380121, \"total\": 3, \"count\": 1, \"memory\": \"main RAM\"}"
        );
        let done = Transfer::Done {
            family: 7,
            total: 1,
            kind: Kind::Flash,
        };
        assert_eq!(
            words(done),
            "done: 1 block of family 0x00000007, into flash"
        );
    }
}
