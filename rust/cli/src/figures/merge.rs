//! Parts that were saved, merged in the order given.

use super::saved::Saved;
use super::tell;
use crate::args::Args;
use crate::board;
use crate::json::Json;
use crate::number::count;
use crate::out::Out;
use crate::{files, table, End, Outcome, Trouble};
use tools::part::Part;

/// A part's line, and where it stands.
struct Line {
    at: String,
    saved: Saved,
}

/// The lines of a file. One that has none is refused: what should be in it is lost.
fn lines(name: &str) -> Result<Vec<Line>, Trouble> {
    let bytes = files::read(name)?;
    let what = files::called(name);
    let text = String::from_utf8_lossy(&bytes);
    let mut lines = Vec::new();
    for (k, line) in text.lines().enumerate() {
        let at = format!("{what}, line {}", k + 1);
        match Saved::read(line) {
            Some(saved) => lines.push(Line { at, saved }),
            None => return Err(Trouble(format!("{at} is no part that --save wrote"))),
        }
    }
    if lines.is_empty() {
        return Err(Trouble(format!("{what} has no part")));
    }
    Ok(lines)
}

/// Every line, of one board.
fn all(names: &[&str]) -> Result<Vec<Line>, Trouble> {
    let mut all: Vec<Line> = Vec::new();
    for name in names {
        for line in lines(name)? {
            match all.first() {
                Some(first) if first.saved.board != line.saved.board => {
                    return Err(Trouble(format!(
                        "{} ({}) and {} ({}) are of different boards: figures are of one board",
                        first.at, first.saved.key, line.at, line.saved.key
                    )))
                }
                _ => all.push(line),
            }
        }
    }
    Ok(all)
}

/// Runs `figures --merge`.
pub fn run(args: &Args, out: &mut Out) -> Outcome {
    let mut beside = args.said_of(board::OPTIONS);
    beside.extend(args.said_of(&[crate::jobs::OPTION]));
    if let Some(option) = beside.first() {
        return args.wrong(format!(
            "{option} and --merge do not go together: nothing is replayed"
        ));
    }
    let lines = all(&args.some_files("PART")?)?;
    let mut part = Part::FRESH;
    for line in &lines {
        if let Err(why) = part.merge(&line.saved.part) {
            out.line(format_args!(
                "{} ({}): {} {why:?}, nothing is merged: {}",
                line.at,
                line.saved.key,
                why.number(),
                table::words("figures", why.number())
            ));
            return Ok(End::Short);
        }
    }
    let first = &lines[0].saved;
    let save = args.value("--save");
    if save != Some("-") {
        print(args, out, &first.board, lines.len(), &part);
    }
    match save {
        Some(name) => {
            let key = first.key.clone();
            let board = first.board.clone();
            Saved { key, board, part }.write(name, out)?;
            Ok(End::Whole)
        }
        None if tell::none_stopped(&part) => Ok(End::Whole),
        None => Ok(End::Short),
    }
}

fn print(args: &Args, out: &mut Out, board: &str, parts: usize, part: &Part) {
    if args.flag("--json") {
        out.line(Json::Object(vec![
            ("board", board.into()),
            ("parts", parts.into()),
            ("figures", tell::json(part, &[])),
        ]));
    } else {
        out.line(format_args!(
            "{} of one board, whose digest is {board}",
            count(parts as u64, "part")
        ));
        for line in tell::words(part, &[]) {
            out.line(line);
        }
    }
}
