//! Answers by name, and what each says to a technician.

use crate::json::Json;
use crate::table;
use proved::hex::HexAnswer;
use proved::{Answer, Outcome};

/// The number and the name of an answer, as the papers write it: "14 Written".
pub fn answer(answer: Answer) -> String {
    format!("{} {answer:?}", answer.number())
}

/// The same, and whether a running transfer was discarded.
pub fn outcome(outcome: Outcome) -> String {
    let discarded = if outcome.discarded {
        ", and a running transfer was discarded"
    } else {
        ""
    };
    format!("{}{discarded}", answer(outcome.answer))
}

/// An outcome for scripts.
pub fn outcome_json(outcome: Outcome) -> Json {
    Json::Object(vec![
        ("answer", u32::from(outcome.answer.number()).into()),
        ("name", format!("{:?}", outcome.answer).into()),
        ("discarded", outcome.discarded.into()),
    ])
}

/// What an answer to an arrival says, in words.
pub fn meaning(answer: Answer) -> &'static str {
    table::words("answer", answer.number())
}

/// The number and the name of an answer to a line of hex, with the place of a bad digit.
pub fn line(answer: HexAnswer) -> String {
    match answer {
        HexAnswer::BadDigit(position) => format!("22 BadDigit at position {position}"),
        _ => format!("{} {answer:?}", answer.number()),
    }
}

/// The name of an answer to a line of hex.
pub fn line_name(answer: HexAnswer) -> String {
    match answer {
        HexAnswer::BadDigit(_) => "BadDigit".into(),
        _ => format!("{answer:?}"),
    }
}

/// What an answer to a line of hex says, in words.
pub fn line_meaning(answer: HexAnswer) -> &'static str {
    table::words("line", answer.number())
}
