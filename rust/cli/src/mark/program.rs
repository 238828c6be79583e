//! A program that was handed in: a list goes to its standard input, and what it prints is read.

use super::judge::{Got, Kind, Player};
use super::list::Play;
use super::right::{Answer, Played};
use super::run::{Ended, Program, Ran, OUTPUT};
use super::sys;
use proved::hex::Board;
use std::time::Duration;

/// The time for a list, and for one after three that had no end.
const LIST: Duration = Duration::from_secs(2);
const AFTER_THREE: Duration = Duration::from_millis(500);

/// Plays lists by a program.
pub struct Programs {
    program: Program,
    runs: u64,
    late: u32,
}

impl Programs {
    /// Those of a program.
    pub fn new(program: Program) -> Programs {
        Programs {
            program,
            runs: 0,
            late: 0,
        }
    }
}

impl Player for Programs {
    fn play(&mut self, play: &Play, right: &Played) -> Got {
        self.runs += 1;
        let time = if self.late < 3 { LIST } else { AFTER_THREE };
        let words: &[&str] = match play {
            Play::Uf2(_) => &[],
            Play::Hex(Board::V1, _) => &["V1"],
            Play::Hex(Board::V2, _) => &["V2"],
        };
        let ran = self.program.run(&play.items().concat(), words, time);
        self.late += u32::from(matches!(ran.ended, Ended::Late(_)));
        read(ran, play, right)
    }

    fn runs(&self) -> u64 {
        self.runs
    }

    fn runs_twice(&self) -> bool {
        true
    }
}

/// What a run says.
fn read(ran: Ran, play: &Play, right: &Played) -> Got {
    let mut got = Got {
        contents: ran.file.clone(),
        left: ran.left,
        ..Got::default()
    };
    if let Some(fault) = fault(&ran) {
        got.fault = Some(fault);
        return got;
    }
    let text = String::from_utf8_lossy(&ran.out).replace("\r\n", "\n");
    let lines: Vec<&str> = text.lines().collect();
    match strict(&lines, play, right) {
        Ok((answers, end)) => (got.answers, got.end) = (answers, end),
        Err(why) => {
            got.fault = Some((Kind::Form, why));
            got.mended = lenient(&lines, play);
        }
    }
    let wanted = right.contents.len();
    if let Some(len) = got
        .contents
        .as_ref()
        .map(Vec::len)
        .filter(|len| *len != wanted && got.fault.is_none())
    {
        let why = format!("the file for its contents has {len} bytes, and must have {wanted}");
        got.fault = Some((Kind::Form, why));
    }
    got
}

/// How it ended, where that was not well.
fn fault(ran: &Ran) -> Option<(Kind, String)> {
    let seconds = |time: Duration| match time.as_millis() {
        x if x % 1000 == 0 => format!("{} seconds", x / 1000),
        x => format!("{}.{} seconds", x / 1000, x % 1000 / 100),
    };
    let err = String::from_utf8_lossy(&ran.err);
    let last = err.lines().rfind(|line| !line.trim().is_empty());
    let said = match last {
        Some(line) => format!("; it said: {}", short(line)),
        None => String::new(),
    };
    Some(match &ran.ended {
        Ended::Well => return None,
        Ended::Late(time) => (Kind::NoEnd, format!("no end within {}", seconds(*time))),
        Ended::Much => (
            Kind::NoEnd,
            format!("more than {} bytes of output", thousands(OUTPUT)),
        ),
        Ended::Signal(24) => (Kind::NoEnd, "no end within 3 seconds of processor".into()),
        Ended::Status(code) => (Kind::Crash, format!("it ended with status {code}{said}")),
        Ended::Signal(signal) => (
            Kind::Crash,
            format!("it crashed: {}{said}", sys::signal_name(*signal)),
        ),
        Ended::Never(why) => (Kind::Crash, format!("it was not started: {why}")),
    })
}

/// A number with commas.
pub fn thousands(n: u64) -> String {
    let digits = n.to_string();
    let mut text = String::new();
    for (k, digit) in digits.chars().enumerate() {
        if k > 0 && (digits.len() - k) % 3 == 0 {
            text.push(',');
        }
        text.push(digit);
    }
    text
}

/// A line that somebody else wrote, cut where it is long.
pub fn short(line: &str) -> String {
    match line.char_indices().nth(70) {
        Some((at, _)) => format!("{}..", &line[..at]),
        None => line.into(),
    }
}

/// The answers and the state, in the form of document 01; else what is wrong with the form.
fn strict(lines: &[&str], play: &Play, right: &Played) -> Result<(Vec<Answer>, String), String> {
    let header = match play {
        Play::Uf2(_) => "arrival answer discarded",
        Play::Hex(..) => "line answer",
    };
    let quoted = |line: &str| format!("'{}'", short(line));
    match lines.first() {
        None => return Err("it printed nothing".into()),
        Some(line) if *line != header => {
            return Err(format!(
                "the first line is not '{header}' but {}",
                quoted(line)
            ))
        }
        _ => {}
    }
    let count = play.items().len();
    let mut answers = Vec::new();
    for (k, line) in lines[1..].iter().take(count).enumerate() {
        let answer = match play {
            Play::Uf2(_) => arrival(k, line),
            Play::Hex(..) => hex(k, line, right.answers[k]),
        };
        let wanted = match play {
            Play::Uf2(_) => format!("'{k} ANSWER DISCARDED'"),
            Play::Hex(..) => format!("'{k} ANSWER'"),
        };
        answers.push(answer.ok_or(format!(
            "line {} is not {wanted} but {}",
            k + 2,
            quoted(line)
        ))?);
    }
    let last = lines[lines.len() - 1];
    let Some(end) = last.strip_prefix("state ").filter(|end| is_end(end, play)) else {
        return Err(format!(
            "the last line does not say the state, but {}",
            quoted(last)
        ));
    };
    if lines.len() != count + 2 {
        return Err(format!(
            "{} lines for {count} arrivals, and not {}",
            lines.len(),
            count + 2
        ));
    }
    Ok((answers, end.into()))
}

/// A number as it is printed.
fn number(word: &str) -> Option<u32> {
    let digits = word.bytes().all(|c| c.is_ascii_digit());
    word.parse().ok().filter(|_| digits)
}

fn arrival(k: usize, line: &str) -> Option<Answer> {
    let words: Vec<&str> = line.split(' ').collect();
    let [index, answer, discarded] = words.try_into().ok()?;
    (number(index)? as usize == k).then_some(())?;
    Some(Answer {
        number: number(answer)?,
        more: number(discarded).filter(|more| *more < 2)?,
    })
}

/// A line's answer; the position of a bad digit may be left out.
fn hex(k: usize, line: &str, right: Answer) -> Option<Answer> {
    let words: Vec<&str> = line.split(' ').collect();
    let (index, answer, more) = match words.as_slice() {
        [index, answer] => (index, number(answer)?, None),
        [index, "22", "position", position] => (index, 22, Some(number(position)?)),
        _ => return None,
    };
    (number(index)? as usize == k).then_some(())?;
    let left_out = if answer == right.number {
        right.more
    } else {
        0
    };
    Some(Answer {
        number: answer,
        more: more.unwrap_or(left_out),
    })
}

fn is_end(end: &str, play: &Play) -> bool {
    let words: Vec<&str> = end.split(' ').collect();
    match (play, words.as_slice()) {
        (Play::Uf2(_), ["idle" | "running" | "done", "total", total, "seen", seen]) => {
            number(total).is_some() && number(seen).is_some()
        }
        (Play::Hex(..), [.., "offset", offset, "v1", v1, "v2", v2]) => {
            [offset, v1, v2].iter().all(|word| number(word).is_some())
        }
        _ => false,
    }
}

/// What it says where any words may stand around the numbers.
fn lenient(lines: &[&str], play: &Play) -> Option<(Vec<Answer>, String)> {
    let Play::Uf2(list) = play else {
        return None;
    };
    let numbers = |line: &str| -> Vec<u32> {
        let words = line.split(|c: char| !c.is_ascii_digit());
        words.filter_map(|word| word.parse().ok()).collect()
    };
    let count = list.arrivals.len();
    let (last, rest) = lines.split_last()?;
    let said: Vec<Vec<u32>> = rest
        .iter()
        .map(|line| numbers(line))
        .filter(|found| found.len() >= 2)
        .collect();
    if said.len() != count {
        return None;
    }
    let answers = said.iter().map(|found| Answer {
        number: found[found.len() - 2],
        more: found[found.len() - 1],
    });
    let lower = last.to_lowercase();
    let state = ["idle", "running", "done"]
        .into_iter()
        .find(|word| lower.contains(word))?;
    let end = match (state, numbers(last).as_slice()) {
        (state, [total, seen]) => format!("{state} total {total} seen {seen}"),
        ("idle", _) => "idle total 0 seen 0".into(),
        _ => return None,
    };
    Some((answers.collect(), end))
}
