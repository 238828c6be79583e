//! A report in words and for scripts.

use super::handin::Form;
use super::judge::{Kind, Mark};
use super::known;
use super::list::Play;
use super::program::thousands;
use super::report::{answer, end, missing, Failure, Report};
use super::right::WRITTEN;
use crate::json::Json;
use crate::number::{count, ranges};
use crate::out::Out;
use crate::{files, why};

/// That it is no sandbox.
pub const NO_SANDBOX: &str =
    "It runs the hand-in on this machine, as you. Mark only what you would run yourself.";

/// The three points, in a few words each.
pub const POINTS: [&str; 3] = [
    "an answer and an end, and a refusal changes nothing",
    "each arrival, check by check",
    "the set of blocks decides how a list ends",
];

/// The width of a line.
const WIDTH: usize = 80;

/// A text in lines of at most 80 letters, those after the first indented by two more.
pub fn wrapped(text: &str, indent: usize) -> Vec<String> {
    let mut lines = Vec::new();
    let mut line = " ".repeat(indent);
    let mut empty = true;
    for word in text.split(' ') {
        if !empty && line.chars().count() + 1 + word.chars().count() > WIDTH {
            lines.push(std::mem::replace(&mut line, " ".repeat(indent + 2)));
            empty = true;
        }
        if !empty {
            line.push(' ');
        }
        line += word;
        empty = false;
    }
    lines.push(line);
    lines
}

fn put(out: &mut Out, text: impl AsRef<str>, indent: usize) {
    for line in wrapped(text.as_ref(), indent) {
        out.line(line);
    }
}

/// Writes the report.
pub fn words(report: &Report, out: &mut Out) {
    head(report, out);
    let Some(marks) = &report.marks else {
        for remark in &report.remarks {
            put(out, remark, 0);
        }
        out.verdict(report.verdict(), false);
        return;
    };
    for point in report.points() {
        let (asked, failed) = marks.count(point);
        let mark = report.mark(point);
        let shown = match mark {
            Mark::NotMarked => String::new(),
            _ => format!(
                ", {} of {}",
                thousands((asked - failed) as u64),
                thousands(asked as u64)
            ),
        };
        out.line(format_args!("point {point}, {}:", POINTS[point - 1]));
        out.line(format_args!("  {}{shown}", mark.word()));
    }
    for line in diagnosis(report) {
        put(out, line, 0);
    }
    for failure in &report.failures {
        told(failure, out);
    }
    for remark in remarks(report) {
        put(out, remark, 0);
    }
    written(report, out);
    if let Some(sheet) = &report.sheet {
        out.line(format_args!("written: {sheet}"));
    }
    for (k, line) in wrapped(&report.verdict(), 0).iter().enumerate() {
        match k {
            0 => out.verdict(line, report.is_held()),
            _ => out.line(line),
        }
    }
}

fn head(report: &Report, out: &mut Out) {
    let about = &report.about;
    let where_ = match &about.bare {
        None => ", in bubblewrap".to_string(),
        Some(_) => String::new(),
    };
    put(
        out,
        format!(
            "{}: {}, {}{where_}; set {}, seed {}",
            about.name,
            about.form.told(),
            about.how,
            about.set.told(),
            about.seed
        ),
        0,
    );
    let Some(marks) = &report.marks else {
        return;
    };
    let contents = match (about.form, marks.contents) {
        (Form::Library, _) => ", every byte after each call",
        (Form::Hex, true) => ", its image too",
        (_, true) => ", its flash too",
        (_, false) => "",
    };
    let unit = if about.form == Form::Library {
        "calls"
    } else {
        "runs"
    };
    put(
        out,
        format!(
            "played: {} lists in {} {unit}{contents}",
            thousands(marks.played as u64),
            thousands(report.runs)
        ),
        0,
    );
}

/// What else is said.
pub fn remarks(report: &Report) -> Vec<String> {
    let mut found = Vec::new();
    let Some(marks) = &report.marks else {
        return found;
    };
    if let Some(why) = &marks.stopped {
        let left = marks.lists - marks.played;
        found.push(format!(
            "Marking stopped: {why}. {} not played.",
            count(left as u64, "list") + if left == 1 { " was" } else { " were" }
        ));
    }
    if !marks.contents && report.about.form == Form::Program {
        found.push(
            "Contents NOT MARKED: it wrote no flash to the file that VANTOREL_FLASH names. What answers cannot show: it erases at each page, \
             never erases, stores by order, stores nothing, stores the first block alone, does not clear the sector map."
                .into(),
        );
    }
    if !marks.contents && report.about.form == Form::Hex {
        found.push(
            "Contents NOT MARKED: it wrote no image to the file that VANTOREL_IMAGE names.".into(),
        );
    }
    if report.about.form == Form::Program {
        found.push("Not marked, since a program has one board: settings and partitions, lengths, and states that are handed in.".into());
    }
    if let Some(mended) = marks.mended() {
        let marks: Vec<String> = mended
            .iter()
            .enumerate()
            .map(|(k, mark)| format!("{} {}", k + 1, mark.word()))
            .collect();
        found.push(format!(
            "With its form mended the points would be: {}.",
            marks.join(", ")
        ));
    }
    if marks.left > 0 {
        found.push(format!(
            "It left processes running after {}; they were ended.",
            count(marks.left as u64, "list")
        ));
    }
    found.extend(report.remarks.iter().cloned());
    if let Some(why) = &report.about.bare {
        found.push(format!("No sandbox: {why}. {NO_SANDBOX}"));
    }
    found
}

/// The diagnosis in sentences; none where nothing is wrong.
pub fn diagnosis(report: &Report) -> Vec<String> {
    let Some(diagnosis) = &report.diagnosis else {
        return Vec::new();
    };
    let wrong = count(diagnosis.wrong as u64, "list");
    let Some(best) = &diagnosis.best else {
        return vec![format!(
            "diagnosis: none of the known mistakes explains the {wrong} in which it is wrong."
        )];
    };
    let known: Vec<&known::Known> = best.mistakes.iter().map(|id| known::of(id)).collect();
    let names: Vec<String> = known.iter().map(|x| x.within()).collect();
    let does: Vec<&str> = known.iter().map(|x| x.does.as_str()).collect();
    let mut lines = Vec::new();
    if diagnosis.is_whole() {
        let others: Vec<String> = diagnosis
            .others
            .iter()
            .map(|score| together(&score.mistakes))
            .collect();
        let both = if known.len() > 1 {
            "Both together explain"
        } else {
            "This explains"
        };
        let other = match others.is_empty() {
            true => ", and no other known mistake does".to_string(),
            false => format!(". So does: {}", others.join("; ")),
        };
        lines.push(format!(
            "diagnosis: as if {}. {} {both} all {} in which it is wrong{other}.",
            names.join(", and "),
            does.join(" "),
            wrong
        ));
    } else {
        lines.push(format!(
            "diagnosis: the nearest known mistake is: {}. It explains {} of {} in which the hand-in is wrong, and {} right {} against it.",
            names.join(", and "),
            best.explains,
            wrong,
            best.against,
            if best.against == 1 { "list speaks" } else { "lists speak" },
        ));
    }
    for x in known {
        let proof = match (&x.promise, &x.edit) {
            (Some(promise), Some(edit)) => format!(" (proved: {promise}; edit {edit})"),
            _ => String::new(),
        };
        lines.push(format!("  right: {}{proof}", x.right));
        lines.push(format!("  danger: {}", x.danger));
    }
    lines
}

/// Mistakes by name.
fn together(ids: &[&str]) -> String {
    let names: Vec<String> = ids.iter().map(|id| known::of(id).within()).collect();
    names.join(", and ")
}

/// How many of a list's arrivals the smallest has.
pub fn size(failure: &Failure) -> String {
    let items = failure.play.items().len();
    let thing = match failure.play {
        Play::Uf2(_) => "arrival",
        Play::Hex(..) => "line",
    };
    match items == failure.from {
        true => count(items as u64, thing),
        false => format!("{items} of its {}", count(failure.from as u64, thing)),
    }
}

/// What went wrong beside the answers, in sentences.
pub fn sentences(failure: &Failure) -> Vec<String> {
    let mut lines = Vec::new();
    let (got, right) = (&failure.got, &failure.right);
    if let Some((_, why)) = &got.fault {
        lines.push(capital(why) + ".");
        return lines;
    }
    if failure.kind == Kind::Changed {
        lines.push(match got.changed {
            Some(byte) => format!("It refused call {} itself, and byte {} of the {} changed from 0x{:02x} to 0x{:02x}.", byte.call, byte.at, WRITTEN[byte.buffer], byte.right, byte.got),
            None => "What it refused itself changed something: without those arrivals the list comes to another end of its own.".into(),
        });
    }
    let position_left_out = right.end.contains(" position ");
    if got.end != right.end && !position_left_out && !got.end.is_empty() {
        lines.push(format!(
            "At the end it says {}. Right is {}.",
            end(&got.end),
            end(&right.end)
        ));
    }
    if let (Kind::FalselyComplete, Play::Uf2(list)) = (failure.kind, &failure.play) {
        let lost = missing(list, got);
        if !lost.is_empty() {
            let pages = if lost.len() == 1 { "page" } else { "pages" };
            lines.push(format!(
                "A display with this receiver is started with {pages} {} missing.",
                ranges(lost)
            ));
        }
    }
    if let (Kind::Contents, Some(byte)) = (failure.kind, got.bytes) {
        lines.push(format!(
            "Its answers are right, and after call {} byte {} of the {} is 0x{:02x}. Right is 0x{:02x}.",
            byte.call, byte.at, WRITTEN[byte.buffer], byte.got, byte.right
        ));
    } else if let (Kind::Contents, Some(contents)) = (failure.kind, &got.contents) {
        let at = contents
            .iter()
            .zip(&right.contents)
            .position(|(a, b)| a != b);
        lines.extend(at.map(|at| page(contents, &right.contents, at, &failure.play)));
    }
    lines
}

/// What stands in the first wrong page.
fn page(got: &[u8], right: &[u8], at: usize, play: &Play) -> String {
    let place = at / 256 * 256;
    let told = |bytes: &[u8]| {
        let page = &bytes[place..place + 256];
        let own = |piece: &&Vec<u8>| piece.len() == 512 && piece[super::list::PAYLOAD] == *page;
        let piece = match play {
            Play::Uf2(list) => list.arrivals.iter().find(own),
            Play::Hex(..) => None,
        };
        match piece {
            Some(piece) => format!("the payload of block {}", super::list::get(piece, 20)),
            None if page.iter().all(|byte| *byte == 0xFF) => "0xFF, erased".into(),
            None => format!("0x{:02x} at byte {at}", bytes[at]),
        }
    };
    let name = match play {
        Play::Uf2(_) => "flash",
        Play::Hex(..) => "image",
    };
    format!(
        "Every answer is right, and page {} of its {name} is {}. Right is {}.",
        at / 256,
        told(got),
        told(right)
    )
}

/// A sentence with a capital letter.
fn capital(text: &str) -> String {
    let mut letters = text.chars();
    let first = letters.next().map(|c| c.to_uppercase().to_string());
    first.unwrap_or_default() + letters.as_str()
}

/// The most rows of a list that are told.
const ROWS: usize = 12;

fn told(failure: &Failure, out: &mut Out) {
    out.line("");
    put(
        out,
        format!(
            "point {}, case {}: {}",
            failure.point, failure.case, failure.asks
        ),
        0,
    );
    out.line(format_args!(
        "the smallest list that fails so, {}:",
        size(failure)
    ));
    let thing = match failure.play {
        Play::Uf2(_) => "arrival",
        Play::Hex(..) => "line",
    };
    let from = failure.rows.len().saturating_sub(ROWS);
    if from > 0 {
        out.line(format_args!(
            "  ({} before these)",
            count(from as u64, thing)
        ));
    }
    for (k, row) in failure.rows.iter().enumerate().skip(from) {
        let said = match row.got {
            _ if failure.got.fault.is_some() => {
                format!("right is {}", answer(row.right, &failure.play))
            }
            Some(got) if got == row.right => answer(got, &failure.play),
            Some(got) => format!(
                "it answered {}. Right is {}: {}",
                answer(got, &failure.play),
                answer(row.right, &failure.play),
                row.why
            ),
            None => continue,
        };
        put(out, format!("{thing} {k}, {}: {said}", row.what), 2);
    }
    for line in sentences(failure) {
        put(out, line, 2);
    }
}

fn written(report: &Report, out: &mut Out) {
    let saved: Vec<_> = report
        .failures
        .iter()
        .filter_map(|failure| Some((failure, failure.saved.as_ref()?)))
        .collect();
    if saved.is_empty() {
        return;
    }
    out.line("");
    for (failure, saved) in &saved {
        out.line(format_args!(
            "written: {}{}",
            saved.stem,
            saved.endings.join(", ")
        ));
        let name = files::quoted_name(&saved.stem);
        let program = matches!(&failure.play, Play::Uf2(list) if list.is_program());
        if program && saved.endings.contains(&".flash") {
            out.line(format_args!(
                "  vantorel load {name}.uf2 --flash 32K --image right.bin"
            ));
            out.line(format_args!("  cmp -l right.bin {name}.flash"));
        } else if program && saved.endings.contains(&".trace") {
            out.line(format_args!("  vantorel replay {name}.trace --flash 32K"));
        } else if program {
            out.line(format_args!("  vantorel load {name}.uf2 --flash 32K -v"));
        }
    }
}

/// The report for scripts.
pub fn json(report: &Report) -> Json {
    let about = &report.about;
    let marks = report.marks.as_ref();
    let point = |point: usize| {
        let (asked, failed) = marks.map_or((0, 0), |marks| marks.count(point));
        Json::Object(vec![
            ("point", point.into()),
            ("mark", report.mark(point).word().into()),
            ("asked", asked.into()),
            ("failed", failed.into()),
        ])
    };
    Json::Object(vec![
        ("file", about.file.as_str().into()),
        ("name", about.name.as_str().into()),
        ("sha256", about.digest.as_str().into()),
        ("form", about.form.word().into()),
        ("how", about.how.as_str().into()),
        ("bwrap", about.bare.is_none().into()),
        ("set", about.set.told().into()),
        ("seed", about.seed.into()),
        ("lists", marks.map_or(0, |marks| marks.played).into()),
        (
            "lists_left",
            marks.map_or(0, |marks| marks.lists - marks.played).into(),
        ),
        ("runs", report.runs.into()),
        ("contents", marks.is_some_and(|marks| marks.contents).into()),
        ("points", Json::list((1..=3).map(point))),
        ("failed_cases", Json::list(failed_cases(report))),
        ("diagnosis", diagnosis_json(report)),
        (
            "failures",
            Json::list(report.failures.iter().map(failure_json)),
        ),
        ("remarks", Json::list(remarks(report))),
        ("verdict", report.verdict().into()),
    ])
}

/// The named cases that failed.
fn failed_cases(report: &Report) -> Vec<&str> {
    let results = report.marks.iter().flat_map(|marks| &marks.results);
    let failed = results.filter(|result| !result.failed.is_empty());
    let ids = failed.map(|result| result.case.id.as_str());
    ids.filter(|id| !id.starts_with("chance-")).collect()
}

fn diagnosis_json(report: &Report) -> Json {
    let Some(diagnosis) = &report.diagnosis else {
        return Json::Null;
    };
    let best = diagnosis.best.as_ref();
    let ids = best.map(|best| best.mistakes.clone()).unwrap_or_default();
    let names = ids.iter().map(|id| known::of(id).name.as_str());
    let others = diagnosis
        .others
        .iter()
        .map(|score| Json::list(score.mistakes.iter().copied()));
    Json::Object(vec![
        ("mistakes", Json::list(ids.iter().copied())),
        ("names", Json::list(names)),
        ("whole", diagnosis.is_whole().into()),
        ("explains", best.map_or(0, |best| best.explains).into()),
        ("wrong", diagnosis.wrong.into()),
        ("against", best.map_or(0, |best| best.against).into()),
        ("others", Json::list(others)),
    ])
}

fn failure_json(failure: &Failure) -> Json {
    let rows = failure.rows.iter().map(|row| {
        Json::Object(vec![
            ("what", row.what.as_str().into()),
            ("got", row.got.map(|got| answer(got, &failure.play)).into()),
            ("right", answer(row.right, &failure.play).into()),
            ("why", row.why.as_str().into()),
            (
                "reason",
                row.reason
                    .as_ref()
                    .map_or(Json::Null, why::tell::reason_json),
            ),
        ])
    });
    let files = failure.saved.iter().flat_map(|saved| {
        saved
            .endings
            .iter()
            .map(|ending| format!("{}{ending}", saved.stem))
    });
    Json::Object(vec![
        ("point", failure.point.into()),
        ("case", failure.case.as_str().into()),
        ("kind", failure.kind.word().into()),
        ("asks", failure.asks.as_str().into()),
        ("from", failure.from.into()),
        ("tries", failure.tries.into()),
        ("list", failure.play.items().len().into()),
        ("arrivals", Json::list(rows)),
        (
            "end",
            Json::Object(vec![
                ("got", failure.got.end.as_str().into()),
                ("right", failure.right.end.as_str().into()),
            ]),
        ),
        ("sentences", Json::list(sentences(failure))),
        ("files", Json::list(files)),
    ])
}
