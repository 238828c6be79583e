//! `vantorel replay`: what a site's host sent, played again.

mod many;

pub use many::needed;

use crate::args::{Args, Opt};
use crate::block::need;
use crate::board::{Board, Options};
use crate::json::Json;
use crate::missing::{self, missing, Missing};
use crate::number::count;
use crate::out::Out;
use crate::progress::Progress;
use crate::{files, jobs, names, state, traces, End, Outcome};
use proved::{Answer, Transfer};
use tools::trace::{replay, Replayed, Stop, RECORD_BYTES};

/// Its page of help.
pub const HELP: &str = "\
vantorel replay TRACE.. [BOARD] [--jobs N] [--json]

Replays a trace into a board and says where it stops: at a record that is broken
(\"bad\"), or at the first whose answer is another than ours (\"differs\"), with
both answers by name. A trace is records of 513 bytes: a byte with the answer
that the site got, then the arrival of 512 bytes; `vantorel load --record`
writes one. The board must be the site's board: where no --flash is said, a
difference may come of a wrong guess, and is \"undecided\". Where the update was
never complete, the last line says so. Of several traces, or of a folder, which
stands for its files that end in .trace, each is replayed into a fresh board and
told in a line, with a summary at the end.

  --jobs N  N threads replay several traces; as many as there are processors,
            where it is not said
  --json    the same for scripts

Exit status 0 where it stops nowhere (\"none\"), 1 where it, or one of several,
stops or is empty, 2 for a wrong command line or a file that cannot be read.

    vantorel replay site.trace --flash 2M

";

/// Its options, beside those of a board.
pub const OPTIONS: &[Opt] = &[jobs::OPTION, Opt::Flag("--json")];

/// The arrivals of a trace's records, the last one perhaps short.
pub fn arrivals(trace: &[u8]) -> impl Iterator<Item = &[u8]> {
    trace
        .chunks(RECORD_BYTES)
        .filter_map(|record| record.get(1..))
}

/// What the first byte of a record says: the answer's number, and whether a running transfer was discarded.
struct Recorded {
    number: u8,
    discarded: bool,
}

impl Recorded {
    fn read(byte: u8) -> Recorded {
        Recorded {
            number: byte >> 3,
            discarded: byte & 4 != 0,
        }
    }

    fn words(&self) -> String {
        let discarded = if self.discarded {
            ", and a running transfer was discarded"
        } else {
            ""
        };
        match Answer::from_number(self.number.into()) {
            Some(answer) => format!("{}{discarded}", names::answer(answer)),
            None => format!("{} (no answer has this number){discarded}", self.number),
        }
    }

    fn json(&self) -> Json {
        let name = Answer::from_number(self.number.into()).map(|answer| format!("{answer:?}"));
        Json::Object(vec![
            ("answer", u32::from(self.number).into()),
            ("name", name.into()),
            ("discarded", self.discarded.into()),
        ])
    }
}

/// A record of a trace: all of its bytes, fewer where it is the last and short.
fn record(trace: &[u8], index: usize) -> &[u8] {
    trace.chunks(RECORD_BYTES).nth(index).unwrap_or_default()
}

/// What is wrong with a bad record.
fn fault(record: &[u8]) -> String {
    match record.first() {
        Some(byte) if record.len() == RECORD_BYTES => {
            format!("its first byte 0x{byte:02x} has one of its two lowest bits set, which are zero in a trace")
        }
        _ => format!("it has {} bytes of {RECORD_BYTES}", record.len()),
    }
}

/// Our outcome at the record that differs: a look from where the replay stands.
fn ours(board: &mut Board, end: &Replayed, record: &[u8]) -> proved::Outcome {
    let settings = board.settings.clone();
    let arrival = record.get(1..).unwrap_or_default();
    proved::look(&settings, end.transfer, arrival, &board.buffers())
}

/// Runs the command.
pub fn run(args: &Args, out: &mut Out) -> Outcome {
    let options = Options::read(args)?;
    let names = args.some_files("TRACE")?;
    let named = traces::named(&names)?;
    let (name, trace) = match (&names[..], &named[..]) {
        ([name], [one]) if one.name == *name => (*name, one.bytes()?),
        _ => return many::run(args, out, &options, &named),
    };
    let mut board = options.board(need(arrivals(&trace)))?;
    let settings = board.settings.clone();
    let progress = Progress::start("replay", 0);
    let end = replay(&settings, &trace, &mut board.buffers());
    drop(progress);
    let stop = Stopped::new(&mut board, &end, &trace);
    let lost = match stop {
        Stopped::None => missing(arrivals(&trace), &mut board, end.transfer),
        _ => Vec::new(),
    };
    let verdict = stop.words(end.transfer, &lost);
    if args.flag("--json") {
        out.line(json(name, &trace, &board, &end, &stop, &lost, verdict));
    } else {
        out.line(format_args!(
            "{}: {}",
            files::short(name),
            count(trace.len().div_ceil(RECORD_BYTES) as u64, "record")
        ));
        out.line(board.line());
        out.line(format_args!("state: {}", state::words(end.transfer)));
        for line in missing::lines(&lost, "trace") {
            out.line(line);
        }
        let done = matches!(end.transfer, Transfer::Done { .. });
        out.verdict(verdict, done && matches!(stop, Stopped::None));
    }
    Ok(match stop {
        Stopped::None => End::Whole,
        _ => End::Short,
    })
}

/// Where a replay stopped, with what is told of it.
enum Stopped {
    None,
    /// There is nothing to replay.
    Empty,
    Bad {
        index: usize,
        fault: String,
    },
    Differs {
        index: usize,
        recorded: Recorded,
        ours: proved::Outcome,
        /// The flash's length, where nobody said it.
        guessed: Option<usize>,
    },
}

impl Stopped {
    fn new(board: &mut Board, end: &Replayed, trace: &[u8]) -> Stopped {
        match end.stop {
            Stop::None if trace.is_empty() => Stopped::Empty,
            Stop::None => Stopped::None,
            Stop::Bad(index) => Stopped::Bad {
                index,
                fault: fault(record(trace, index)),
            },
            Stop::Differs(index) => {
                let record = record(trace, index);
                Stopped::Differs {
                    index,
                    recorded: Recorded::read(record.first().copied().unwrap_or_default()),
                    ours: ours(board, end, record),
                    guessed: board.is_guessed().then_some(board.flash.len()),
                }
            }
        }
    }

    /// The last line.
    fn words(&self, transfer: Transfer, lost: &[Missing]) -> String {
        match self {
            Stopped::None => {
                let end = match transfer {
                    Transfer::Done { .. } => String::new(),
                    Transfer::Idle => "; but no block was taken".into(),
                    Transfer::Running { total, .. } => format!(
                        "; but the update was never complete: {}",
                        missing::lacking(lost, total)
                    ),
                };
                format!("none: every record was replayed, and every answer is ours{end}.")
            }
            Stopped::Empty => "empty: the trace has no records.".into(),
            Stopped::Bad { index, fault } => format!("bad: record {index}: {fault}."),
            Stopped::Differs {
                index,
                recorded,
                ours,
                guessed,
            } => {
                let (recorded, ours) = (recorded.words(), names::outcome(*ours));
                match guessed {
                    None => format!("differs: record {index}: the site got {recorded}; ours is {ours}."),
                    Some(len) => format!("undecided: record {index}: the site got {recorded}; with a flash of {len} bytes, which nobody said, ours is {ours}. Say the site's flash by --flash: only then is a difference the site's."),
                }
            }
        }
    }

    /// The record that it stopped at.
    fn index(&self) -> Option<usize> {
        match self {
            Stopped::None | Stopped::Empty => None,
            Stopped::Bad { index, .. } | Stopped::Differs { index, .. } => Some(*index),
        }
    }

    /// The word for scripts.
    fn word(&self) -> &'static str {
        match self {
            Stopped::None => "none",
            Stopped::Empty => "empty",
            Stopped::Bad { .. } => "bad",
            Stopped::Differs { guessed: None, .. } => "differs",
            Stopped::Differs { .. } => "undecided",
        }
    }
}

fn json(
    name: &str,
    trace: &[u8],
    board: &Board,
    end: &Replayed,
    stop: &Stopped,
    lost: &[Missing],
    verdict: String,
) -> Json {
    let (recorded, ours) = match stop {
        Stopped::Differs { recorded, ours, .. } => {
            (Some(recorded.json()), Some(names::outcome_json(*ours)))
        }
        _ => (None, None),
    };
    Json::Object(vec![
        ("trace", name.into()),
        ("records", trace.len().div_ceil(RECORD_BYTES).into()),
        ("board", board.json()),
        ("stop", stop.word().into()),
        ("index", stop.index().into()),
        ("recorded", recorded.into()),
        ("ours", ours.into()),
        ("transfer", state::json(end.transfer)),
        ("missing", Json::list(lost.iter().map(Missing::json))),
        ("verdict", verdict.into()),
    ])
}
