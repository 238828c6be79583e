//! Reasons of arrivals and of places, in words and for scripts.

use crate::json::Json;
use crate::{families, names, reason};
use proved::{Answer, Outcome, Place};
use tools::why::Reason;

/// A reason for scripts.
pub fn reason_json(why: &Reason) -> Json {
    Json::Object(vec![
        ("cause", why.cause.into()),
        ("got", why.got.into()),
        ("against", why.against.into()),
        ("entry", u32::from(why.entry).into()),
        ("other", u32::from(why.other).into()),
        ("marks", Json::list(why.marks.map(u32::from))),
        ("words", reason::of(why).into()),
    ])
}

/// What is said of an arrival: the answer and the reason.
pub fn said(outcome: Outcome, reason: &Reason) -> String {
    format!("{}: {}", names::outcome(outcome), reason::of(reason))
}

/// A line about an arrival: its place in the order, the block's number where it is one, and what is said of it.
pub fn arrival(k: usize, block: Option<u32>, said: &str) -> String {
    match block {
        Some(number) => format!("arrival {k}, block {number}: {said}"),
        None => format!("arrival {k}, no block: {said}"),
    }
}

/// A line about arrivals one after the other, with the numbers of their blocks one after the other where they are blocks.
pub fn arrivals(first: usize, last: usize, block: Option<u32>, said: &str) -> String {
    let more = (last - first) as u64;
    match block {
        Some(number) => format!(
            "arrivals {first} to {last}, blocks {number} to {}: {said}",
            u64::from(number) + more
        ),
        None => format!("arrivals {first} to {last}, no blocks: {said}"),
    }
}

/// The same for scripts.
pub fn arrival_json(k: usize, block: Option<u32>, outcome: Outcome, reason: &Reason) -> Json {
    Json::Object(vec![
        ("arrival", k.into()),
        ("block", block.into()),
        ("outcome", names::outcome_json(outcome)),
        ("reason", reason_json(reason)),
    ])
}

/// A line about the place of a family.
pub fn place(family: u32, place: Result<Place, Answer>, reason: &Reason) -> String {
    let family = families::words(family);
    match place {
        Ok(place) => format!(
            "family {family}: flash 0x{:08x} to 0x{:08x}: {}",
            place.start,
            (u64::from(place.start) + u64::from(place.len)).saturating_sub(1),
            reason::of(reason)
        ),
        Err(answer) => format!(
            "family {family}: no place, {}: {}",
            names::answer(answer),
            reason::of(reason)
        ),
    }
}

/// The same for scripts.
pub fn place_json(family: u32, place: Result<Place, Answer>, reason: &Reason) -> Json {
    Json::Object(vec![
        ("family", family.into()),
        ("start", place.ok().map(|place| place.start).into()),
        ("bytes", place.ok().map(|place| place.len).into()),
        (
            "answer",
            place.err().map(|answer| u32::from(answer.number())).into(),
        ),
        ("reason", reason_json(reason)),
    ])
}

#[cfg(test)]
mod tests {
    use super::*;

    const REASON: Reason = Reason {
        cause: 901,
        got: 476,
        against: 256,
        entry: 0,
        other: 0,
        marks: [0; 16],
    };

    #[test]
    fn of_an_arrival() {
        let outcome = Outcome {
            answer: Answer::BadPayload,
            discarded: false,
        };
        assert_eq!(
            arrival(3, Some(17), &said(outcome, &REASON)),
            "arrival 3, block 17: 9 BadPayload: the payload has 476 bytes, and must have 256"
        );
        assert_eq!(arrival(3, None, "said"), "arrival 3, no block: said");
        assert_eq!(
            arrivals(3, 5, Some(17), "said"),
            "arrivals 3 to 5, blocks 17 to 19: said"
        );
        assert_eq!(
            arrivals(3, 5, None, "said"),
            "arrivals 3 to 5, no blocks: said"
        );
        let json = arrival_json(3, Some(17), outcome, &REASON).to_string();
        assert!(json.contains("\"cause\": 901, \"got\": 476, \"against\": 256"));
    }

    #[test]
    fn of_a_place() {
        let found = Reason { cause: 2, ..REASON };
        let all = Place {
            start: 0,
            len: 32768,
        };
        assert_eq!(
            place(proved::family::ARM_S, Ok(all), &found),
            "family arm-s (0xe48bff59): flash 0x00000000 to 0x00007fff: the whole flash, since the board has no partition table"
        );
        let none = Reason {
            cause: 802,
            got: 0xe48b_ff56,
            ..REASON
        };
        assert_eq!(
            place(proved::family::RP2040, Err(Answer::NoPlace), &none),
            "family rp2040 (0xe48bff56): no place, 8 NoPlace: the family rp2040 (0xe48bff56) is of another chip, and never has a place"
        );
        let json = place_json(proved::family::RP2040, Err(Answer::NoPlace), &none).to_string();
        assert!(json.contains("\"start\": null, \"bytes\": null, \"answer\": 8"));
    }
}
