//! `vantorel figures`: exact figures over many traces, and over parts of them.

mod merge;
mod saved;
mod tell;

use crate::args::{Args, Opt};
use crate::board::{Board, Options};
use crate::json::Json;
use crate::out::Out;
use crate::replay::needed;
use crate::traces::Trace;
use crate::{files, jobs, traces, End, Outcome, Trouble};
use saved::Saved;
use tell::Played;
use tools::part::Part;
use tools::report::{add, Report};

/// Its page of help.
pub const HELP: &str = "\
vantorel figures TRACE.. [BOARD] [--jobs N] [--save PART] [--json]
vantorel figures --merge PART.. [--save PART] [--json]

Replays traces, each from a fresh transfer and into a fresh board, and counts
over all of them: the records replayed, those with each answer of ours, the
running transfers discarded, and the traces that stopped; and for the end of
the last trace the blocks that are marked and the first that is missing. A
trace that stops, at a record that is broken (\"bad\") or at the first whose
answer is another than ours (\"differs\"), is counted up to there; where no
--flash is said, a difference is \"undecided\". A folder stands for its files
that end in .trace, in the order of their names.

  --jobs N     N threads replay, and at most N traces are in memory, beside
               standard input and pipes, which are read at once; as many as
               there are processors, where it is not said. What is printed does
               not depend on it
  --save PART  writes the figures as one line of text, which --merge reads; `-`
               is standard output, and then nothing else is printed. It needs
               --flash
  --merge      the files are such lines (`-` is standard input), made with the
               same board. They are merged in the order given: what is printed
               is what one run over all their traces counts
  --json       the same for scripts

Exit status 0 where every trace has records and was replayed to its end, 1 where
one was not, 2 for a wrong command line or a file that cannot be read. With
--save it is 0 where the part was written; --merge then says what its traces
came to.

    vantorel figures monday.trace tuesday.trace --flash 2M
    vantorel figures monday/ --flash 2M --save monday.part
    vantorel figures --merge monday.part tuesday.part

";

/// Its options, beside those of a board.
pub const OPTIONS: &[Opt] = &[
    jobs::OPTION,
    Opt::Stream("--save"),
    Opt::Flag("--merge"),
    Opt::Flag("--json"),
];

/// One trace, replayed into a board of its own: what came of it, and its part.
fn replayed(
    options: &Options,
    need: Option<u64>,
    named: &Trace,
) -> Result<(Played, Option<Part>), Trouble> {
    let trace = named.bytes()?;
    let mut board = options.board(need)?;
    let settings = board.settings.clone();
    let mut report = Report::FRESH;
    let stop = add(&mut report, &settings, &trace, &mut board.buffers());
    let part = stop.ok().and_then(|stop| Part::one(&report, stop).ok());
    let played = Played {
        name: files::short(&named.name),
        stop,
        empty: trace.is_empty(),
        guessed: board.is_guessed(),
    };
    Ok((played, part))
}

/// The figures over all traces, merged in their order: a trace that they have no room for is not in them.
fn merged(replayed: Vec<(Played, Option<Part>)>) -> (Part, Vec<Played>) {
    let mut all = Part::FRESH;
    let each = replayed.into_iter().map(|(mut played, part)| {
        if let Some(Err(why)) = part.map(|part| all.merge(&part)) {
            played.stop = Err(why);
        }
        played
    });
    let each = each.collect();
    (all, each)
}

fn print(args: &Args, out: &mut Out, board: &Board, part: &Part, played: &[Played]) {
    if args.flag("--json") {
        let figures = tell::json(part, played);
        out.line(Json::Object(vec![
            ("board", board.json()),
            ("figures", figures),
        ]));
    } else {
        out.line(board.line());
        for line in tell::words(part, played) {
            out.line(line);
        }
    }
}

/// Runs the command.
pub fn run(args: &Args, out: &mut Out) -> Outcome {
    if args.flag("--merge") {
        return merge::run(args, out);
    }
    let options = Options::read(args)?;
    let jobs = jobs::said(args)?;
    let traces = traces::named(&args.some_files("TRACE")?)?;
    let save = args.value("--save");
    if save.is_some() {
        args.needed(
            "--flash",
            "a part that is saved is of one board, whatever the traces need",
        )?;
    }
    let need = match args.value("--flash") {
        None => needed(jobs, &traces)?,
        Some(_) => None,
    };
    let board = options.board(need)?;
    let each = jobs::in_order(jobs, "figures", &traces, |trace| {
        replayed(&options, need, trace)
    })?;
    let (part, played) = merged(each);
    if save != Some("-") {
        print(args, out, &board, &part, &played);
    }
    if !played.iter().all(|trace| trace.stop.is_ok()) {
        return Ok(End::Short);
    }
    match save {
        Some(name) => {
            Saved::new(&traces[0].name, &board, part)?.write(name, out)?;
            Ok(End::Whole)
        }
        None if tell::whole(&played) => Ok(End::Whole),
        None => Ok(End::Short),
    }
}
