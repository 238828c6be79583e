//! Which known mistake explains what a hand-in did.

use super::hex;
use super::judge::{first_wrong, Got, Player, Result};
use super::known;
use super::list::{List, Play};
use super::mistakes::{self, Student, Switches};
use super::right::{Answer, Memory, Played};

/// The first thing in which something differs from what is right.
#[derive(Clone, PartialEq, Eq, Debug)]
pub enum Deviation {
    /// The answer to a call.
    Answer(usize, Answer),
    /// A byte after a call: the buffer, where in it, and what stands there.
    Byte(usize, usize, usize, u8),
    /// The state at the end.
    End(String),
    /// A page of 256 bytes at the end, and what stands there.
    Page(usize, Vec<u8>),
}

impl Deviation {
    /// That of a hand-in.
    pub fn of(got: &Got, right: &Played) -> Option<Deviation> {
        let answer = first_wrong(&got.answers, &right.answers);
        match (answer, got.bytes) {
            (Some(k), Some(byte)) if byte.call >= k => {
                Some(Deviation::Answer(k, *got.answers.get(k)?))
            }
            (_, Some(byte)) => Some(Deviation::Byte(byte.call, byte.buffer, byte.at, byte.got)),
            (Some(k), None) => Some(Deviation::Answer(k, *got.answers.get(k)?)),
            (None, None) => at_end(&got.end, got.contents.as_deref(), right),
        }
    }

    /// Of what was played by a model, with contents or without.
    fn of_played(played: &Played, right: &Played, contents: bool) -> Option<Deviation> {
        match first_wrong(&played.answers, &right.answers) {
            Some(k) => Some(Deviation::Answer(k, *played.answers.get(k)?)),
            None => at_end(&played.end, contents.then_some(&played.contents), right),
        }
    }

    /// In a line of teaching/deviations.txt.
    #[cfg(test)]
    pub fn told(&self) -> String {
        match self {
            Deviation::Answer(k, answer) => format!("answer {k} {} {}", answer.number, answer.more),
            Deviation::Byte(call, buffer, at, got) => {
                format!("byte {call} {buffer} {at} 0x{got:02x}")
            }
            Deviation::End(end) => format!("state {end}"),
            Deviation::Page(page, bytes) => {
                let start: String = bytes[..8].iter().map(|x| format!("{x:02x}")).collect();
                format!("page {page} {start}")
            }
        }
    }
}

fn at_end(end: &str, contents: Option<&[u8]>, right: &Played) -> Option<Deviation> {
    if end != right.end && !right.end.contains(" position ") {
        return Some(Deviation::End(end.into()));
    }
    let pages = contents?.chunks(256).zip(right.contents.chunks(256));
    let mut differs = pages.enumerate().filter(|(_, (got, right))| got != right);
    let (page, (got, _)) = differs.next()?;
    Some(Deviation::Page(page, got.to_vec()))
}

/// A known mistake of either reader.
#[derive(Clone, Copy, PartialEq, Eq, Debug)]
pub enum Mistake {
    Uf2(mistakes::Mistake),
    Hex(hex::Mistake),
}

impl Mistake {
    /// Its name in mistakes.json.
    pub fn id(self) -> &'static str {
        match self {
            Mistake::Uf2(x) => x.id(),
            Mistake::Hex(x) => x.id(),
        }
    }
}

/// What is shown of a hand-in.
#[derive(Clone, Copy, PartialEq, Eq, Debug)]
pub enum Shown {
    Answers,
    Contents,
    /// Every byte after each call.
    Bytes,
}

/// The first deviation of receivers with these mistakes in a list.
pub fn deviation(play: &Play, on: &[Mistake], answer: u32, shown: Shown) -> Option<Deviation> {
    match play {
        Play::Uf2(list) => {
            let switches: Vec<mistakes::Mistake> = on
                .iter()
                .filter_map(|x| match x {
                    Mistake::Uf2(x) => Some(*x),
                    Mistake::Hex(_) => None,
                })
                .collect();
            let switches = Switches::of(&switches, answer);
            match shown {
                Shown::Bytes => by_bytes(list, switches),
                _ => Deviation::of_played(
                    &mistakes::play(list, switches),
                    &play.right(),
                    shown == Shown::Contents,
                ),
            }
        }
        Play::Hex(own, lines) => {
            let switches: Vec<hex::Mistake> = on
                .iter()
                .filter_map(|x| match x {
                    Mistake::Hex(x) => Some(*x),
                    Mistake::Uf2(_) => None,
                })
                .collect();
            let played = hex::play(*own, lines, &switches);
            Deviation::of_played(&played, &play.right(), shown != Shown::Answers)
        }
    }
}

/// The first byte of the buffers that a call may write which differs.
pub fn first_byte(got: &Memory, right: &Memory) -> Option<(usize, usize, u8, u8)> {
    let pairs = got.written().into_iter().zip(right.written());
    let mut differs = pairs.enumerate().filter(|(_, (got, right))| got != right);
    let (buffer, (got, right)) = differs.next()?;
    let at = got.iter().zip(right).position(|(a, b)| a != b)?;
    Some((buffer, at, got[at], right[at]))
}

fn by_bytes(list: &List, on: Switches) -> Option<Deviation> {
    let mut boards = list.boards();
    let mut students: Vec<Student> = list
        .boards()
        .into_iter()
        .map(|memory| Student::new(on, memory))
        .collect();
    for (call, (board, k)) in list.calls().into_iter().enumerate() {
        let right = boards[board].take(&list.arrivals[k]);
        let answer = students[board].take(&list.arrivals[k]);
        if answer != right {
            return Some(Deviation::Answer(call, answer));
        }
        if let Some((buffer, at, got, _)) = first_byte(&students[board].memory, &boards[board]) {
            return Some(Deviation::Byte(call, buffer, at, got));
        }
    }
    None
}

/// How well mistakes explain what a hand-in did.
#[derive(Clone, PartialEq, Eq, Debug)]
pub struct Score {
    pub mistakes: Vec<&'static str>,
    /// Wrong lists that it explains.
    pub explains: usize,
    /// Right lists in which it would be wrong.
    pub against: usize,
}

/// What the diagnosis comes to.
pub struct Diagnosis {
    /// The best, where there is one.
    pub best: Option<Score>,
    /// Others that explain as much, with nothing against them.
    pub others: Vec<Score>,
    /// How many lists are wrong.
    pub wrong: usize,
}

impl Diagnosis {
    /// Whether the best explains all, and nothing speaks against it.
    pub fn is_whole(&self) -> bool {
        let whole = |best: &Score| best.explains == self.wrong && best.against == 0;
        self.best.as_ref().is_some_and(whole)
    }
}

/// The same deviation; a hand-in may leave the position of a bad digit out.
fn is_alike(model: &Option<Deviation>, own: &Option<Deviation>) -> bool {
    match (model, own) {
        (Some(Deviation::Answer(k, a)), Some(Deviation::Answer(j, b))) => {
            k == j && (a == b || (a.number == 22 && b.number == 22 && b.more == 0))
        }
        _ => model == own,
    }
}

/// A flash so large that playing every mistake into it takes long; the border is asked all the same, and not diagnosed.
fn is_large(play: &Play) -> bool {
    matches!(play, Play::Uf2(list) if list.start.flash > 1 << 20)
}

/// The most mistakes of which pairs are tried.
const PAIRED: usize = 10;

/// Finds the mistakes that explain what a hand-in did.
pub fn diagnose(results: &[Result], form: &str, needs: &[&str], shown: Shown) -> Option<Diagnosis> {
    let played: Vec<&Result> = results
        .iter()
        .filter(|result| result.got.fault.is_none() && !is_large(&result.case.play))
        .collect();
    let wrong: Vec<&&Result> = played
        .iter()
        .filter(|result| result.deviation.is_some())
        .collect();
    wrong.first()?;
    let answers = wrong.iter().filter_map(|result| match result.deviation {
        Some(Deviation::Answer(_, answer)) => Some(answer.number),
        _ => None,
    });
    let answer = answers.take(1).last().unwrap_or(8);
    // a student who has not a request does as document 01 alone says
    let alone = [
        ("L3", mistakes::Mistake::CommentRefused),
        ("L8", mistakes::Mistake::NumbersFirst),
        ("L9", mistakes::Mistake::RewritesKept),
    ];
    let alone = alone.iter().filter(|(name, _)| !needs.contains(name));
    let alone: Vec<Mistake> = alone.map(|(_, x)| Mistake::Uf2(*x)).collect();
    let score = |on: &[Mistake]| {
        let all: Vec<Mistake> = on.iter().chain(&alone).copied().collect();
        let model = |result: &Result| deviation(&result.case.play, &all, answer, shown);
        let own = |result: &&&&Result| is_alike(&model(result), &result.deviation);
        let explains = wrong.iter().filter(own).count();
        // where nothing is explained, or more speaks against it, the rest is not asked
        let right = played.iter().filter(|result| result.deviation.is_none());
        let against = right.filter(|result| explains > 0 && model(result).is_some());
        Score {
            mistakes: on.iter().map(|x| x.id()).collect(),
            explains,
            against: against.take(explains + 1).count(),
        }
    };
    let rank = |score: &Score| score.against as i64 - score.explains as i64;
    let able = |mistake: &Mistake| {
        let known = known::of(mistake.id());
        let needed = known
            .needs
            .as_deref()
            .is_none_or(|needed| needs.contains(&needed));
        needed && known.forms.iter().any(|name| name == form)
    };
    let all = mistakes::ALL.iter().map(|x| Mistake::Uf2(*x));
    let all: Vec<Mistake> = all
        .chain(hex::ALL.iter().map(|x| Mistake::Hex(*x)))
        .filter(able)
        .collect();
    let mut singles: Vec<(Mistake, Score)> = all.iter().map(|x| (*x, score(&[*x]))).collect();
    singles.sort_by_key(|(_, score)| rank(score));
    let mut scores: Vec<Score> = singles.iter().map(|(_, score)| score.clone()).collect();
    let whole = |score: &Score| score.explains == wrong.len() && score.against == 0;
    if !scores.iter().any(whole) {
        let likely = singles
            .iter()
            .filter(|(_, score)| score.explains > 0 && score.against == 0);
        let likely: Vec<Mistake> = likely.map(|(mistake, _)| *mistake).take(PAIRED).collect();
        for (k, a) in likely.iter().enumerate() {
            scores.extend(likely[k + 1..].iter().map(|b| score(&[*a, *b])));
        }
        scores.sort_by_key(|score| (rank(score), score.mistakes.len()));
    }
    let best = scores
        .first()
        .filter(|score| score.explains > score.against)
        .cloned();
    let others = scores
        .iter()
        .skip(1)
        .filter(|score| whole(score))
        .cloned()
        .collect();
    Some(Diagnosis {
        best,
        others,
        wrong: wrong.len(),
    })
}

/// The diagnosis of a library that remembers something: two boards by turns get other answers than one of them alone.
pub fn memory(
    diagnosis: Option<Diagnosis>,
    results: &[Result],
    player: &mut dyn Player,
) -> Option<Diagnosis> {
    let found = diagnosis?;
    if found.is_whole() {
        return Some(found);
    }
    // two boards by turns are wrong, and one of them alone is right
    let twins = results.iter().find_map(|result| match &result.case.play {
        Play::Uf2(list) if list.twin && result.deviation.is_some() => Some(list),
        _ => None,
    });
    let alone = twins.map(|list| {
        let alone = List {
            twin: false,
            ..list.clone()
        };
        Play::Uf2(alone)
    });
    let right = |play: &Play| {
        player.fresh();
        let right = play.right();
        let got = player.play(play, &right);
        got.fault.is_none() && Deviation::of(&got, &right).is_none()
    };
    if !alone.as_ref().is_some_and(right) {
        return Some(found);
    }
    let best = Score {
        mistakes: vec![mistakes::Mistake::KeepsMemory.id()],
        explains: found.wrong,
        against: 0,
    };
    Some(Diagnosis {
        best: Some(best),
        others: Vec::new(),
        wrong: found.wrong,
    })
}
