//! Many traces replayed: a line for each, and a summary.

use super::{arrivals, Stopped};
use crate::args::Args;
use crate::block::need;
use crate::board::Options;
use crate::json::Json;
use crate::missing::missing;
use crate::number::count;
use crate::out::Out;
use crate::traces::Trace;
use crate::{files, jobs, End, Outcome, Trouble};
use proved::Transfer;
use tools::trace::{replay, RECORD_BYTES};

/// What came of one trace.
struct Told {
    name: String,
    records: usize,
    stop: &'static str,
    index: Option<usize>,
    complete: bool,
    verdict: String,
}

impl Told {
    fn new(options: &Options, need: Option<u64>, named: &Trace) -> Result<Told, Trouble> {
        let trace = named.bytes()?;
        let mut board = options.board(need)?;
        let settings = board.settings.clone();
        let end = replay(&settings, &trace, &mut board.buffers());
        let stop = Stopped::new(&mut board, &end, &trace);
        let lost = match stop {
            Stopped::None => missing(arrivals(&trace), &mut board, end.transfer),
            _ => Vec::new(),
        };
        Ok(Told {
            name: files::short(&named.name),
            records: trace.len().div_ceil(RECORD_BYTES),
            stop: stop.word(),
            index: stop.index(),
            complete: matches!(end.transfer, Transfer::Done { .. }),
            verdict: stop.words(end.transfer, &lost),
        })
    }

    fn json(&self) -> Json {
        Json::Object(vec![
            ("trace", self.name.as_str().into()),
            ("records", self.records.into()),
            ("stop", self.stop.into()),
            ("index", self.index.into()),
            ("complete", self.complete.into()),
            ("verdict", self.verdict.as_str().into()),
        ])
    }
}

/// How many traces came to what.
struct Summary {
    traces: usize,
    /// Replayed to the end.
    whole: usize,
    /// Those of them whose update was complete.
    complete: usize,
    /// How many had each other word, and the word.
    others: Vec<(&'static str, usize)>,
}

impl Summary {
    fn new(told: &[Told]) -> Summary {
        let with = |word: &str| told.iter().filter(|one| one.stop == word).count();
        let complete = told.iter().filter(|one| one.stop == "none" && one.complete);
        Summary {
            traces: told.len(),
            whole: with("none"),
            complete: complete.count(),
            others: ["empty", "bad", "differs", "undecided"]
                .map(|word| (word, with(word)))
                .to_vec(),
        }
    }

    fn words(&self) -> String {
        let others = self.others.iter().filter(|(_, n)| *n > 0);
        let others: String = others.map(|(word, n)| format!("; {n} {word}")).collect();
        format!(
            "{}: {} replayed to the end, {} of them complete{others}",
            count(self.traces as u64, "trace"),
            self.whole,
            self.complete
        )
    }

    fn json(&self) -> Vec<(&'static str, Json)> {
        let mut fields = vec![
            ("count", self.traces.into()),
            ("none", self.whole.into()),
            ("complete", self.complete.into()),
        ];
        fields.extend(self.others.iter().map(|(word, n)| (*word, (*n).into())));
        fields
    }
}

/// Runs `replay` of several traces, each into a board of its own.
pub fn run(args: &Args, out: &mut Out, options: &Options, traces: &[Trace]) -> Outcome {
    let jobs = jobs::said(args)?;
    let need = match args.value("--flash") {
        None => needed(jobs, traces)?,
        Some(_) => None,
    };
    let board = options.board(need)?;
    let told = jobs::in_order(jobs, "replay", traces, |trace| {
        Told::new(options, need, trace)
    })?;
    let summary = Summary::new(&told);
    if args.flag("--json") {
        let mut fields = vec![
            ("board", board.json()),
            ("traces", Json::list(told.iter().map(Told::json))),
        ];
        fields.extend(summary.json());
        out.line(Json::Object(fields));
    } else {
        out.line(board.line());
        for one in &told {
            let records = count(one.records as u64, "record");
            out.line(format_args!("{}, {records}: {}", one.name, one.verdict));
        }
        out.line(summary.words());
    }
    Ok(if summary.whole == summary.traces {
        End::Whole
    } else {
        End::Short
    })
}

/// The flash that the traces need. It is asked only where no flash is said. At most `jobs` traces are in memory.
pub fn needed(jobs: usize, traces: &[Trace]) -> Result<Option<u64>, Trouble> {
    let needs = jobs::in_order(jobs, "sizes", traces, |trace| {
        Ok(need(arrivals(&trace.bytes()?)))
    })?;
    Ok(needs.into_iter().flatten().max())
}
