//! All that is told of a hand-in, before it is put into words.

use super::diagnose::{Diagnosis, Shown};
use super::handin::Form;
use super::judge::{leaves, wrong, Got, Kind, Mark, Marks, Player, Result};
use super::list::{List, Play};
use super::right::{Answer, Played};
use super::saved::Saved;
use super::set::Set;
use super::shrink::shrink;
use crate::{names, reason, state};
use proved::hex::{HexAnswer, Reader};
use tools::why::Reason;

/// What a hand-in is called, and how it was marked.
pub struct About {
    /// The student, or the file's name.
    pub name: String,
    pub file: String,
    pub digest: String,
    pub form: Form,
    pub how: String,
    /// Why bubblewrap was not used.
    pub bare: Option<String>,
    pub set: Set,
    pub seed: u64,
}

/// A failing list, as small as it was made.
pub struct Failure {
    pub point: usize,
    pub kind: Kind,
    pub case: String,
    pub asks: String,
    pub paper: String,
    /// How many arrivals it had.
    pub from: usize,
    pub tries: usize,
    pub play: Play,
    pub got: Got,
    pub right: Played,
    pub rows: Vec<Row>,
    pub saved: Option<Saved>,
}

/// An arrival of a failing list: what came, what was answered, what is right and why.
pub struct Row {
    pub what: String,
    pub got: Option<Answer>,
    pub right: Answer,
    /// Why the answer is right, in words.
    pub why: String,
    /// The same as `why` tells it; none of a line.
    pub reason: Option<Reason>,
}

impl Row {
    /// Whether the answer is wrong.
    pub fn is_wrong(&self) -> bool {
        self.got != Some(self.right)
    }
}

/// All of it.
pub struct Report {
    pub about: About,
    /// The marks; none where it does not compile.
    pub marks: Option<Marks>,
    pub runs: u64,
    pub diagnosis: Option<Diagnosis>,
    pub failures: Vec<Failure>,
    pub remarks: Vec<String>,
    /// The path of its sheet, where one was written.
    pub sheet: Option<String>,
}

impl Report {
    /// How a point stands.
    pub fn mark(&self, point: usize) -> Mark {
        match &self.marks {
            Some(_) if point == 3 && self.about.form == Form::Hex => Mark::NotMarked,
            Some(marks) => match marks.mark(point) {
                Mark::InAnswers if self.about.form == Form::Library => Mark::Held,
                Mark::Held if point == 2 && self.about.form == Form::Hex && !marks.contents => {
                    Mark::InAnswers
                }
                mark => mark,
            },
            None => Mark::NotMarked,
        }
    }

    /// The points that this form is asked.
    pub fn points(&self) -> std::ops::RangeInclusive<usize> {
        match self.about.form {
            Form::Hex => 1..=2,
            _ => 1..=3,
        }
    }

    /// Whether every point is held.
    pub fn is_held(&self) -> bool {
        self.points().all(|point| self.mark(point) == Mark::Held)
    }

    /// The last sentence.
    pub fn verdict(&self) -> String {
        let of = |mark: Mark| {
            let points = self.points().filter(|point| self.mark(*point) == mark);
            points.map(|point| point.to_string()).collect::<Vec<_>>()
        };
        let all = self.points().count();
        let said = |points: &[String]| match points {
            [one] => format!("point {one}"),
            [one, two] => format!("points {one} and {two}"),
            _ => format!("all {} points", points.len()),
        };
        let Some(marks) = &self.marks else {
            return "NOT MARKED: it does not compile.".into();
        };
        let lists = format!(
            "over {} lists, which is no proof",
            super::program::thousands(marks.played as u64)
        );
        let parts = [
            (Mark::NotHeld, "NOT HELD"),
            (Mark::NotMarked, "NOT MARKED"),
            (Mark::InAnswers, "HELD IN ANSWERS ALONE"),
        ];
        let parts: Vec<String> = parts
            .iter()
            .map(|(mark, word)| (of(*mark), word))
            .filter(|(points, _)| !points.is_empty())
            .map(|(points, word)| format!("{word}: {}", said(&points)))
            .collect();
        match parts.is_empty() {
            true if all == 3 => format!("HELD: all three points, {lists}."),
            true => format!("HELD: both points, {lists}."),
            false => format!("{}.", parts.join(". ")),
        }
    }

    /// What is shown of it.
    pub fn shown(form: Form, contents: bool) -> Shown {
        match form {
            Form::Library => Shown::Bytes,
            _ if contents => Shown::Contents,
            _ => Shown::Answers,
        }
    }
}

/// An answer to an arrival or a line, by name.
pub fn answer(answer: Answer, play: &Play) -> String {
    match play {
        Play::Uf2(_) => {
            let name = proved::Answer::from_number(answer.number);
            let name = name.map_or_else(
                || format!("{}, which is no answer", answer.number),
                names::answer,
            );
            let discarded = if answer.more == 1 { ", discarded" } else { "" };
            format!("{name}{discarded}")
        }
        Play::Hex(..) => {
            let found = u8::try_from(answer.number)
                .ok()
                .and_then(|number| HexAnswer::from_number(number, answer.more as u16));
            found.map_or_else(
                || format!("{}, which is no answer", answer.number),
                names::line,
            )
        }
    }
}

/// A last line in words.
pub fn end(line: &str) -> String {
    let words: Vec<&str> = line.split(' ').collect();
    match words.as_slice() {
        ["idle", "total", "0", "seen", "0"] => "idle".into(),
        [state, "total", total, "seen", seen] => format!("{state}, {seen} of {total}"),
        _ => line.into(),
    }
}

/// The rows of a list.
pub fn rows(play: &Play, got: &Got) -> Vec<Row> {
    match play {
        Play::Uf2(list) => uf2_rows(list, play, got),
        Play::Hex(own, lines) => {
            let mut reader = Reader::new(*own);
            let mut image = vec![0xFF; super::hex::IMAGE_BYTES];
            let each = lines.iter().enumerate().map(|(k, line)| {
                let answer = reader.line(line, &mut image);
                Row {
                    what: play.told(k),
                    got: got.answers.get(k).copied(),
                    right: Answer::hex(answer),
                    why: names::line_meaning(answer).into(),
                    reason: None,
                }
            });
            each.collect()
        }
    }
}

fn uf2_rows(list: &List, play: &Play, got: &Got) -> Vec<Row> {
    let mut boards = list.boards();
    let mut rows = Vec::new();
    for (call, (board, k)) in list.calls().into_iter().enumerate() {
        let reason = boards[board].why(&list.arrivals[k]);
        let which = if list.twin {
            format!("board {}, ", ["A", "B"][board])
        } else {
            String::new()
        };
        rows.push(Row {
            what: which + &play.told(k),
            got: got.answers.get(call).copied(),
            right: boards[board].take(&list.arrivals[k]),
            why: reason::of(&reason),
            reason: Some(reason),
        });
    }
    rows
}

/// The numbers that are missing where a hand-in says that a file is complete.
pub fn missing(list: &List, got: &Got) -> Vec<u32> {
    let mut board = list.boards().swap_remove(0);
    for piece in &list.arrivals {
        board.take(piece);
    }
    let total: Option<u32> = got
        .end
        .strip_prefix("done total ")
        .and_then(|rest| rest.split(' ').next()?.parse().ok());
    let same = board.end();
    match total {
        Some(total) if same.total == total && same.count < total => {
            let seen: Vec<u32> = state::marked(&board.seen).collect();
            (0..total)
                .filter(|number| !seen.contains(number))
                .take(20)
                .collect()
        }
        _ => Vec::new(),
    }
}

/// The failing lists, made small: one for each point and kind, the worst kinds first.
pub fn failures(
    results: &[Result],
    set: Set,
    tries: usize,
    player: &mut dyn Player,
) -> Vec<Failure> {
    let mut found: Vec<(usize, Kind)> = results
        .iter()
        .flat_map(|result| result.failed.clone())
        .collect();
    found.sort_by_key(|(point, kind)| (*kind, *point));
    found.dedup();
    // a list without an end is told of once
    let told = found.clone();
    found.retain(|(point, kind)| *point == 1 || !kind.is_fault() || !told.contains(&(1, *kind)));
    let each = found.into_iter().filter_map(|(point, kind)| {
        let of: Vec<&Result> = results
            .iter()
            .filter(|result| result.failed.contains(&(point, kind)))
            .collect();
        // the first that fails again by itself
        let again = of
            .iter()
            .take(AGAIN.min(tries))
            .find(|result| fails(&result.case.play, point, kind, set, player));
        let result = again.or(of.first())?;
        Some(failure(point, kind, result, set, tries, player))
    });
    each.collect()
}

/// So many lists are tried until one fails by itself.
const AGAIN: usize = 20;

/// Whether a list fails a point in this kind.
fn fails(play: &Play, point: usize, kind: Kind, set: Set, player: &mut dyn Player) -> bool {
    if let Play::Uf2(list) = play {
        if set.list(list).arrivals.len() < list.arrivals.len() {
            return false;
        }
    }
    player.fresh();
    let right = play.right();
    let got = player.play(play, &right);
    let contents = point == 3 || matches!(play, Play::Hex(..));
    match kind {
        Kind::Changed if got.fault.is_some() => false,
        Kind::Changed => {
            got.changed.is_some() || (player.runs_twice() && !leaves(play, &got, player))
        }
        _ => wrong(&got, &right, contents) == Some(kind),
    }
}

fn failure(
    point: usize,
    kind: Kind,
    result: &Result,
    set: Set,
    most: usize,
    player: &mut dyn Player,
) -> Failure {
    let mut bad = |play: &Play| fails(play, point, kind, set, player);
    let (small, tries) = shrink(result.case.play.clone(), most, &mut bad);
    player.fresh();
    let right = small.right();
    let got = player.play(&small, &right);
    let rows = rows(&small, &got);
    Failure {
        point,
        kind,
        case: result.case.id.clone(),
        asks: result.case.asks.clone(),
        paper: result.case.paper.into(),
        from: result.case.play.items().len(),
        tries,
        play: small,
        got,
        right,
        rows,
        saved: None,
    }
}
