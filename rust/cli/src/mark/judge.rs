//! What is wrong with what a hand-in did, and which of the three points that is.

use super::cases::Case;
use super::diagnose::Deviation;
use super::list::Play;
use super::right::{Answer, Played};
use std::time::{Duration, Instant};

/// In which way a list failed, the worst first.
#[derive(Clone, Copy, PartialEq, Eq, PartialOrd, Ord, Debug)]
pub enum Kind {
    NoEnd,
    Crash,
    Outside,
    Form,
    Changed,
    FalselyComplete,
    Answer,
    State,
    Contents,
}

impl Kind {
    /// Its name for scripts.
    pub fn word(self) -> &'static str {
        match self {
            Kind::NoEnd => "no end",
            Kind::Crash => "crash",
            Kind::Outside => "touched outside",
            Kind::Form => "form",
            Kind::Changed => "refusal changed something",
            Kind::FalselyComplete => "falsely complete",
            Kind::Answer => "answer",
            Kind::State => "state",
            Kind::Contents => "contents",
        }
    }

    /// Whether the list was not played to its end in the right form.
    pub fn is_fault(self) -> bool {
        self <= Kind::Form
    }
}

/// A byte of a buffer that is not what it should be.
#[derive(Clone, Copy, PartialEq, Eq, Debug)]
pub struct Byte {
    /// After which call.
    pub call: usize,
    /// The buffer, of those that a call may write.
    pub buffer: usize,
    pub at: usize,
    pub got: u8,
    pub right: u8,
}

/// What a hand-in did with a list.
#[derive(Clone, Debug, Default)]
pub struct Got {
    /// Where it did not come to an end in the right form: how, and a sentence.
    pub fault: Option<(Kind, String)>,
    pub answers: Vec<Answer>,
    /// Its last line, after the first word.
    pub end: String,
    /// Its flash or image at the end, where it shows it.
    pub contents: Option<Vec<u8>>,
    /// Of a library: the first byte that differs from what is right, while its answers were.
    pub bytes: Option<Byte>,
    /// Of a library: the first byte that a refusal of its own changed.
    pub changed: Option<Byte>,
    /// How many processes it left running.
    pub left: usize,
    /// What it says where its form is read leniently.
    pub mended: Option<(Vec<Answer>, String)>,
}

/// Something that plays lists by a hand-in.
pub trait Player {
    /// Plays a list.
    fn play(&mut self, play: &Play, right: &Played) -> Got;

    /// How many runs or calls there were.
    fn runs(&self) -> u64;

    /// Whether a refusal is asked by a second run: a library is asked after each call.
    fn runs_twice(&self) -> bool;

    /// Forgets whatever a hand-in may remember.
    fn fresh(&mut self) {}
}

/// What is wrong with a list, whatever point asks; the worst first. Contents are told where they are asked.
pub fn wrong(got: &Got, right: &Played, contents: bool) -> Option<Kind> {
    if let Some((kind, _)) = &got.fault {
        return Some(*kind);
    }
    let done = |end: &str| end.starts_with("done") || end.starts_with("ended");
    let first = first_wrong(&got.answers, &right.answers);
    if done(&got.end) && !done(&right.end) {
        return Some(Kind::FalselyComplete);
    }
    match first {
        Some(_) => return Some(Kind::Answer),
        None if !same_end(&got.end, &right.end) => return Some(Kind::State),
        None => {}
    }
    let other = got
        .contents
        .as_ref()
        .is_some_and(|bytes| *bytes != right.contents);
    (got.bytes.is_some() || (contents && other)).then_some(Kind::Contents)
}

/// The first answer that differs.
pub fn first_wrong(got: &[Answer], right: &[Answer]) -> Option<usize> {
    let differs = |k: &usize| got.get(*k) != right.get(*k);
    (0..got.len().max(right.len())).find(differs)
}

/// The same state; a failed reader may leave the position of a bad digit out.
fn same_end(got: &str, right: &str) -> bool {
    got == right
        || right.split(" position ").next().is_some_and(|head| {
            let tail = right.split_once(" offset ").map_or("", |(_, tail)| tail);
            right.contains(" position ") && got == format!("{head} offset {tail}")
        })
}

/// A case that was played.
pub struct Result {
    pub case: Case,
    pub right: Played,
    pub got: Got,
    /// In which way it failed which points.
    pub failed: Vec<(usize, Kind)>,
    /// The first thing in which it differs from what is right.
    pub deviation: Option<Deviation>,
}

/// The marks.
pub struct Marks {
    /// The lists that are kept: those that failed, and as many others as the diagnosis asks.
    pub results: Vec<Result>,
    /// How many lists each point asked, and how many of them failed it.
    counts: [(usize, usize); 4],
    /// How many lists were played.
    pub played: usize,
    /// How many there were to play.
    pub lists: usize,
    /// Why marking stopped before the last of them.
    pub stopped: Option<String>,
    /// Whether contents were shown.
    pub contents: bool,
    /// After how many lists processes were left running.
    pub left: usize,
}

/// The most lists that are kept, right or wrong.
const KEPT: usize = 700;

/// The most lists without an end or in a wrong form.
const BROKEN: usize = 12;

/// How a point stands.
#[derive(Clone, Copy, PartialEq, Eq, Debug)]
pub enum Mark {
    Held,
    /// Held as far as answers show: no contents were.
    InAnswers,
    NotHeld,
    NotMarked,
}

impl Mark {
    /// In words.
    pub fn word(self) -> &'static str {
        match self {
            Mark::Held => "HELD",
            Mark::InAnswers => "HELD IN ANSWERS",
            Mark::NotHeld => "NOT HELD",
            Mark::NotMarked => "NOT MARKED",
        }
    }
}

/// Plays all cases, of which there are so many, until a time.
pub fn mark(
    cases: impl Iterator<Item = Case>,
    lists: usize,
    until: Instant,
    player: &mut dyn Player,
) -> Marks {
    let mut marks = Marks {
        results: Vec::new(),
        counts: [(0, 0); 4],
        played: 0,
        lists,
        stopped: None,
        contents: false,
        left: 0,
    };
    let mut broken = 0;
    for case in cases {
        if Instant::now() > until {
            marks.stopped = Some("the time for one hand-in is over".into());
            break;
        }
        let result = one(case, player);
        broken += usize::from(result.got.fault.is_some());
        marks.add(result);
        if broken >= BROKEN && marks.played < lists {
            marks.stopped = Some(format!(
                "{BROKEN} lists did not come to an end in the right form"
            ));
            break;
        }
    }
    marks
}

fn one(case: Case, player: &mut dyn Player) -> Result {
    let mut right = case.play.right();
    let mut got = player.play(&case.play, &right);
    let mut failed = Vec::new();
    let own = wrong(
        &got,
        &right,
        case.point == 3 || matches!(case.play, Play::Hex(..)),
    );
    match own {
        Some(kind) if kind.is_fault() => {
            failed.push((1, kind));
            if case.point != 1 {
                failed.push((case.point, kind));
            }
        }
        _ => {
            if got.changed.is_some()
                || (asks_twice(&case, player) && !leaves(&case.play, &got, player))
            {
                failed.push((1, Kind::Changed));
            }
            failed.extend(
                own.filter(|_| case.point != 1)
                    .map(|kind| (case.point, kind)),
            );
        }
    }
    let deviation = match got.fault {
        Some(_) => None,
        None => Deviation::of(&got, &right),
    };
    // what is alike is not kept
    if got.contents.as_ref() == Some(&right.contents) {
        right.contents.clear();
        got.contents = Some(Vec::new());
    }
    Result {
        case,
        right,
        got,
        failed,
        deviation,
    }
}

fn asks_twice(case: &Case, player: &dyn Player) -> bool {
    player.runs_twice() && (case.point == 1 || case.id.starts_with("chance-"))
}

/// Whether what a hand-in refused itself changed nothing: the list without it comes to the same end.
pub fn leaves(play: &Play, got: &Got, player: &mut dyn Player) -> bool {
    let items = play.items();
    let kept: Vec<Vec<u8>> = match play {
        Play::Uf2(_) => {
            let kept = items
                .iter()
                .zip(&got.answers)
                .filter(|(_, answer)| !answer.is_refusal());
            kept.map(|(piece, _)| piece.clone()).collect()
        }
        Play::Hex(..) => {
            let fails = |answer: &Answer| !(31..=35).contains(&answer.number);
            let end = got.answers.iter().position(fails).unwrap_or(items.len());
            items[..end].to_vec()
        }
    };
    if kept.len() == items.len() {
        return true;
    }
    let less = play.with(kept);
    let own = player.play(&less, &less.right());
    let same = matches!(play, Play::Hex(..)) || own.end == got.end;
    own.fault.is_some() || (same && own.contents == got.contents)
}

impl Marks {
    /// Counts a list, and keeps it where it is needed.
    fn add(&mut self, result: Result) {
        self.played += 1;
        self.contents |= result.got.contents.is_some();
        self.left += usize::from(result.got.left > 0);
        for point in 1..=3 {
            let (asked, failed) = &mut self.counts[point];
            *asked += usize::from(point == 1 || result.case.point == point);
            *failed += usize::from(result.failed.iter().any(|(p, _)| *p == point));
        }
        let named = !result.case.id.starts_with("chance-");
        if named || self.results.len() < KEPT {
            self.results.push(result);
        }
    }

    /// How many lists a point asked, and how many of them failed.
    pub fn count(&self, point: usize) -> (usize, usize) {
        self.counts[point]
    }

    /// How a point stands. One whose lists were not all played is never held.
    pub fn mark(&self, point: usize) -> Mark {
        let (asked, _) = self.count(point);
        let of = self.results.iter().flat_map(|result| &result.failed);
        let kinds: Vec<Kind> = of
            .filter(|(p, _)| *p == point)
            .map(|(_, kind)| *kind)
            .collect();
        let real = kinds.iter().any(|kind| point == 1 || !kind.is_fault());
        match (kinds.is_empty(), self.stopped.is_some()) {
            _ if asked == 0 => Mark::NotMarked,
            (false, false) => Mark::NotHeld,
            (false, true) if real => Mark::NotHeld,
            (_, true) => Mark::NotMarked,
            (true, false) if point != 2 && !self.contents => Mark::InAnswers,
            (true, false) => Mark::Held,
        }
    }

    /// What the marks would be where the form is read leniently: none where its form is right, or cannot be read.
    pub fn mended(&self) -> Option<Vec<Mark>> {
        let form = |result: &Result| {
            result
                .got
                .fault
                .as_ref()
                .is_some_and(|(kind, _)| *kind == Kind::Form)
        };
        if self
            .results
            .iter()
            .any(|result| result.got.fault.is_some() && !form(result))
            || !self.results.iter().any(form)
        {
            return None;
        }
        let results = self.results.iter().map(|result| {
            let mut got = result.got.clone();
            if form(result) {
                let (answers, end) = result.got.mended.clone()?;
                (got.answers, got.end, got.fault) = (answers, end, None);
            }
            let kind = wrong(&got, &result.right, result.case.point == 3);
            let failed = kind
                .filter(|_| result.case.point != 1)
                .map(|kind| (result.case.point, kind));
            Some((result.case.point, got, failed))
        });
        let results: Vec<_> = results.collect::<Option<_>>()?;
        let mark = |point: usize| match results
            .iter()
            .any(|(_, _, failed)| failed.is_some_and(|(p, _)| p == point))
        {
            true => Mark::NotHeld,
            false if point != 2 && !self.contents => Mark::InAnswers,
            false => Mark::Held,
        };
        Some((1..=3).map(mark).collect())
    }
}

/// The time for all lists of one hand-in.
pub const ALL: Duration = Duration::from_secs(120);
