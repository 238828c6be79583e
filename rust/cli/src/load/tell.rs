//! What came of a load, in words and for scripts.

use super::play::Played;
use super::stands::Unwritten;
use crate::block::Block;
use crate::board::Board;
use crate::check::verdict::Verdict;
use crate::json::Json;
use crate::missing::{self, Missing};
use crate::number::{count, ranges};
use crate::out::Out;
use crate::{files, names, reason, state, why};
use proved::{Answer, Kind, Outcome, Transfer, ARRIVAL_BYTES};
use std::collections::BTreeMap;

/// A load that was done.
pub struct Load<'a> {
    /// The file's name.
    pub name: &'a str,
    /// How many pieces it has.
    pub pieces: usize,
    /// The arrivals.
    pub sent: &'a [&'a [u8]],
    /// The board afterwards.
    pub board: &'a Board,
    /// What came of the arrivals.
    pub played: &'a Played,
    /// What is missing.
    pub lost: &'a [Missing],
    /// Whether the whole file is valid for the board.
    pub valid: &'a Verdict,
    /// The pages that do not stand, though the file is complete.
    pub unwritten: &'a [Unwritten],
    /// Whether sending the file again completes it.
    pub helps: bool,
    /// The image that was written.
    pub image: Option<&'a str>,
    /// The trace that was written.
    pub record: Option<&'a str>,
    /// Whether each arrival is told.
    pub each: bool,
}

impl Load<'_> {
    /// How many arrivals had each answer, by its number.
    fn counts(&self) -> BTreeMap<u8, (Answer, u64)> {
        let mut counts = BTreeMap::new();
        for Outcome { answer, .. } in &self.played.outcomes {
            counts.entry(answer.number()).or_insert((*answer, 0)).1 += 1;
        }
        counts
    }

    fn discards(&self) -> u64 {
        let discarded = self.played.outcomes.iter().filter(|o| o.discarded);
        discarded.count() as u64
    }

    /// Why most of the refused arrivals were refused: their answer, how many, and the reason of the first.
    fn commonest_refusal(&self) -> Option<String> {
        let counts = self.counts().into_values();
        let refused = counts.filter(|(answer, _)| !answer.is_accepted());
        let (answer, n) = refused.max_by_key(|(_, n)| *n)?;
        let why = self.played.refusals.get(&answer.number())?;
        let first = if n == 1 { "" } else { "the first: " };
        Some(format!(
            "{} {}; {first}{}",
            count(n, "time"),
            names::answer(answer),
            reason::of(&why.reason)
        ))
    }

    /// Arrivals that are no part of the file that was completed.
    fn strangers(&self) -> u64 {
        let Transfer::Done { family, total, .. } = self.played.transfer else {
            return 0;
        };
        let stranger = |(piece, outcome): &(&&[u8], &Outcome)| match outcome.answer {
            Answer::Finished => Block::read(piece)
                .is_none_or(|block| block.family != family || block.total != total),
            answer => answer.number() < Answer::Finished.number(),
        };
        let arrivals = self.sent.iter().zip(&self.played.outcomes);
        arrivals.filter(stranger).count() as u64
    }

    fn short_pieces(&self) -> u64 {
        let short = self
            .sent
            .iter()
            .filter(|piece| piece.len() != ARRIVAL_BYTES);
        short.count() as u64
    }
}

fn each(load: &Load, out: &mut Out) {
    let arrivals = load.sent.iter().zip(&load.played.outcomes);
    for (k, (piece, outcome)) in arrivals.enumerate() {
        let block = match Block::read(piece) {
            Some(block) => format!("block {}", block.number),
            None => "no block".into(),
        };
        out.line(format_args!(
            "arrival {k}, {block}: {}",
            names::outcome(*outcome)
        ));
    }
}

/// Prints what came of it.
pub fn words(load: &Load, out: &mut Out) {
    if load.each {
        each(load, out);
    }
    out.line(format_args!(
        "{}: {} of 512 bytes, {}",
        files::short(load.name),
        count(load.pieces as u64, "piece"),
        count(load.sent.len() as u64, "arrival"),
    ));
    out.line(load.board.line());
    answers(load, out);
    if load.discards() > 0 {
        out.line(format_args!(
            "a running transfer was discarded: {}",
            count(load.discards(), "time")
        ));
    }
    out.line(format_args!(
        "state: {}",
        state::words(load.played.transfer)
    ));
    sectors(load, out);
    for line in missing::lines(load.lost, "file") {
        out.line(line);
    }
    written(load, out);
    validity(load, out);
    let done = matches!(load.played.transfer, Transfer::Done { .. });
    let well = done && load.unwritten.is_empty() && load.valid.is_covered();
    out.verdict(verdict(load), well);
}

fn answers(load: &Load, out: &mut Out) {
    for (answer, n) in load.counts().values() {
        let name = names::answer(*answer);
        out.line(format_args!(
            "  {name:14}{n:7}  {}",
            names::meaning(*answer)
        ));
        if let Some(first) = load.played.refusals.get(&answer.number()) {
            let why = reason::of(&first.reason);
            let line = why::tell::arrival(first.arrival, first.block, &why);
            out.line(format_args!("    {line}"));
        }
    }
}

/// The sectors of a map: how many, and which.
fn erased(map: &[u8]) -> String {
    match state::marked(map).count() {
        0 => "none".into(),
        n => format!("{n} ({})", ranges(state::marked(map))),
    }
}

fn sectors(load: &Load, out: &mut Out) {
    let last = erased(&load.board.sectors);
    if load.discards() > 0 {
        let before = erased(&load.played.discarded);
        out.line(format_args!("sectors erased by the last transfer: {last}"));
        out.line(format_args!(
            "sectors erased by transfers that were discarded: {before}"
        ));
    } else if state::kind(load.played.transfer) == Kind::Flash {
        out.line(format_args!("sectors erased: {last}"));
    }
}

fn written(load: &Load, out: &mut Out) {
    if let Some(image) = load.image {
        let memory = state::memory(state::kind(load.played.transfer));
        out.line(format_args!("written: {image}, the {memory} as it is now"));
    }
    let Some(record) = load.record else { return };
    out.line(format_args!(
        "written: {record}, a trace; `vantorel replay {} {}` replays it",
        files::quoted_name(record),
        load.board.words.join(" ")
    ));
    if load.short_pieces() > 0 {
        out.line(format_args!(
            "left out of the trace: {} of under 512 bytes, since a record holds a whole arrival",
            count(load.short_pieces(), "piece")
        ));
    }
}

/// The last sentence: whether the display was told that the file is complete, and what is missing.
fn verdict(load: &Load) -> String {
    const NEVER: &str = "The display was never told that it is complete.";
    match load.played.transfer {
        Transfer::Done { total, .. } => {
            let strangers = match load.strangers() {
                0 => String::new(),
                n => format!(" {} not taken: see above.", were(n, "arrival")),
            };
            let blocks = if total == 1 {
                "its one block".into()
            } else {
                format!("all {total} blocks")
            };
            match load.unwritten {
                [] => format!("COMPLETE: {blocks} came, and the display was told so.{strangers}"),
                lost => format!(
                    "COMPLETE, AND {}: the display was told that {blocks} came. {}",
                    if lost.len() == 1 {
                        "A PAGE IS LOST".into()
                    } else {
                        format!("{} PAGES ARE LOST", lost.len())
                    },
                    unwritten(&lost[0])
                ),
            }
        }
        Transfer::Idle => match load.commonest_refusal() {
            None => format!("NOT COMPLETE: no block came. {NEVER}"),
            Some(why) => format!("NOT COMPLETE: no block was taken ({why}). {NEVER}"),
        },
        Transfer::Running { total, .. } => format!(
            "NOT COMPLETE: {}. {NEVER} {}",
            missing::lacking(load.lost, total),
            remedy(load.lost, load.helps)
        ),
    }
}

fn unwritten(page: &Unwritten) -> String {
    format!(
        "The page of block {} (piece {}) does not stand at 0x{:08x}.",
        page.number, page.piece, page.address
    )
}

/// What the proof does not speak of, where the display was told that the file is complete: a file that is not valid, and regions that were not checked.
fn validity(load: &Load, out: &mut Out) {
    if !matches!(load.played.transfer, Transfer::Done { .. }) {
        return;
    }
    if !load.valid.is_covered() {
        out.line(format_args!("NOT A VALID FILE: {}", load.valid.line()));
    }
    if let Some(words) = load.valid.regions() {
        out.line(words);
    }
}

fn were(n: u64, thing: &str) -> String {
    let verb = if n == 1 { "was" } else { "were" };
    format!("{} {verb}", count(n, thing))
}

/// What to do where blocks are missing.
fn remedy(lost: &[Missing], helps: bool) -> String {
    match missing::not_in_file(lost) {
        Some(blocks) => format!("Get the file again: it does not have {blocks}."),
        None if helps => "Send the file again, whole.".into(),
        None => "To send the file again does not help: see above.".into(),
    }
}

fn takes(load: &Load) -> Json {
    if !load.each {
        return Json::Null;
    }
    let arrivals = load.sent.iter().zip(&load.played.outcomes);
    Json::list(arrivals.map(|(piece, outcome)| {
        let block = Block::read(piece).map(|block| block.number);
        Json::Object(vec![
            ("block", block.into()),
            ("outcome", names::outcome_json(*outcome)),
        ])
    }))
}

/// The first arrival that was refused by an answer, for scripts.
fn first_json(load: &Load, answer: Answer) -> Option<Json> {
    let first = load.played.refusals.get(&answer.number())?;
    Some(Json::Object(vec![
        ("arrival", first.arrival.into()),
        ("block", first.block.into()),
        ("reason", why::tell::reason_json(&first.reason)),
    ]))
}

/// The same for scripts.
pub fn json(load: &Load) -> Json {
    let answers = load.counts().into_values().map(|(answer, n)| {
        Json::Object(vec![
            ("answer", u32::from(answer.number()).into()),
            ("name", format!("{answer:?}").into()),
            ("count", n.into()),
            ("first", first_json(load, answer).into()),
        ])
    });
    let whole = matches!(load.played.transfer, Transfer::Done { .. });
    Json::Object(vec![
        ("file", load.name.into()),
        ("pieces", load.pieces.into()),
        ("arrivals", load.sent.len().into()),
        ("board", load.board.json()),
        ("answers", Json::list(answers)),
        ("discards", load.discards().into()),
        ("completed", whole.into()),
        ("transfer", state::json(load.played.transfer)),
        ("sectors", Json::list(state::marked(&load.board.sectors))),
        (
            "sectors_discarded",
            Json::list(state::marked(&load.played.discarded)),
        ),
        ("missing", Json::list(load.lost.iter().map(Missing::json))),
        ("takes", takes(load)),
        ("valid", load.valid.is_valid().into()),
        ("covered", load.valid.is_covered().into()),
        (
            "fault",
            (!load.valid.is_valid()).then(|| load.valid.line()).into(),
        ),
        (
            "lost_pages",
            Json::list(load.unwritten.iter().map(|page| page.number)),
        ),
        ("verdict", verdict(load).into()),
    ])
}
