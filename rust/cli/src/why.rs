//! `vantorel why`: the reason of each arrival that was not taken, and of a family's place.

pub mod tell;

use crate::args::{Args, Opt};
use crate::block::{need, pieces, Block};
use crate::board::{Board, Options};
use crate::json::Json;
use crate::missing::{self, missing, Missing};
use crate::number::{self, count};
use crate::out::Out;
use crate::progress::Progress;
use crate::{families, files, state, End, Trouble};
use proved::Transfer;
use tools::why::{explain_place, Reason};

/// Its page of help.
pub const HELP: &str = "\
vantorel why FILE.uf2 [BOARD] [--block K] [-v] [--json]
vantorel why place FAMILY [BOARD] [--json]

Plays the file's blocks into a board, one after the other, and says for each
arrival that was not taken which condition decided, with the number that was
tested and what it was tested against; blocks that come one after the other and
have one reason share a line. With `place`, it says where in the flash a
family's blocks go and by which rule, or what shut the family out. A file that
is named place is ./place.

  --block K  the arrivals of the block of this number only, and those that were
             taken too
  -v         a line for each arrival, though the next has the same reason
  --json     the same for scripts

Where the transfer still runs at the end, it names the blocks that are missing.

Exit status 0 where every arrival that it tells of was taken and no transfer was
left running, or the family has a place; 1 where not; 2 for a wrong command line
or a file that cannot be read.

    vantorel why blink.uf2 --flash 4096
    vantorel why place riscv --settings board.store

";

/// Its options, beside those of a board.
pub const OPTIONS: &[Opt] = &[Opt::Value("--block"), Opt::Flag("-v"), Opt::Flag("--json")];

/// Runs the command.
pub fn run(args: &Args, out: &mut Out) -> crate::Outcome {
    let options = Options::read(args)?;
    let words = args.some_files("FILE.uf2, or place FAMILY,")?;
    if words.first() == Some(&"place") {
        let [_, name] = args.files(["place", "FAMILY"])?;
        return place(args, &options, name, out);
    }
    let [name] = args.files(["FILE.uf2"])?;
    arrivals(args, &options, name, out)
}

/// Of a family: its place, or why it has none.
fn place(args: &Args, options: &Options, name: &str, out: &mut Out) -> crate::Outcome {
    if args.value("--block").is_some() {
        return args.wrong("--block is for the blocks of a file, and not for a place");
    }
    let family = families::parse(name).or_else(|why| args.wrong(why))?;
    let board = options.board(None)?;
    let place = proved::ask(&board.settings, board.flash.len(), family);
    let why = explain_place(&board.settings.bytes(), board.flash.len(), family);
    if args.flag("--json") {
        let place = tell::place_json(family, place, &why.reason);
        out.line(Json::Object(vec![
            ("board", board.json()),
            ("place", place),
        ]));
    } else {
        out.line(board.line());
        out.line(tell::place(family, place, &why.reason));
    }
    Ok(if place.is_ok() {
        End::Whole
    } else {
        End::Short
    })
}

/// An arrival that is told of.
struct Told {
    arrival: usize,
    block: Option<u32>,
    outcome: proved::Outcome,
    reason: Reason,
}

impl Told {
    fn said(&self) -> String {
        tell::said(self.outcome, &self.reason)
    }

    /// Does it come right after another, as the block with the next number or as no block too?
    fn follows(&self, last: &Told) -> bool {
        let next = match (last.block, self.block) {
            (Some(number), Some(next)) => number.checked_add(1) == Some(next),
            (None, None) => true,
            _ => false,
        };
        next && self.arrival == last.arrival + 1
    }
}

/// A line for each arrival, or one for those that follow each other and of which the same is said.
fn lines(told: &[Told], each: bool) -> Vec<String> {
    let one_line = |last: &Told, x: &Told| !each && x.follows(last) && x.said() == last.said();
    let runs = told.chunk_by(one_line);
    let line = |run: &[Told]| {
        let (first, last) = (&run[0], &run[run.len() - 1]);
        if run.len() == 1 {
            return tell::arrival(first.arrival, first.block, &first.said());
        }
        tell::arrivals(first.arrival, last.arrival, first.block, &first.said())
    };
    runs.map(line).collect()
}

/// The block of `--block`, which the file must have.
fn asked(args: &Args, file: &[u8]) -> Result<Option<u32>, Trouble> {
    let Some(text) = args.value("--block") else {
        return Ok(None);
    };
    let Some(number) = number::parse_u32(text) else {
        return args.wrong(format!(
            "--block wants a block's number, such as 17, and not '{text}'"
        ));
    };
    let mut blocks = pieces(file).filter_map(Block::read);
    if blocks.any(|block| block.number == number) {
        return Ok(Some(number));
    }
    args.wrong(format!(
        "--block {number}: the file has no block of this number"
    ))
}

/// Plays a file: what is told of it, and where the transfer stands.
fn play(file: &[u8], asked: Option<u32>, board: &mut Board) -> (Vec<Told>, Transfer) {
    let settings = board.settings.clone();
    let (mut transfer, mut told) = (Transfer::new(), Vec::new());
    let progress = Progress::start("why", pieces(file).len() as u64);
    for (k, piece) in pieces(file).enumerate() {
        let block = Block::read(piece).map(|block| block.number);
        // a block that is taken changes what a reason speaks of: it is asked before
        let before = (asked.is_some() && block == asked).then(|| board.reason(transfer, piece));
        let outcome = proved::take(&settings, &mut transfer, piece, &mut board.buffers());
        let refused = asked.is_none() && !outcome.answer.is_accepted();
        let after = refused.then(|| board.reason(transfer, piece));
        if let Some(reason) = before.or(after) {
            told.push(Told {
                arrival: k,
                block,
                outcome,
                reason,
            });
        }
        progress.done(k as u64 + 1);
    }
    (told, transfer)
}

/// A file that was played.
struct Looked<'a> {
    name: &'a str,
    pieces: usize,
    board: &'a Board,
    asked: Option<u32>,
    told: &'a [Told],
    transfer: Transfer,
    lost: &'a [Missing],
    each: bool,
}

impl Looked<'_> {
    fn refused(&self) -> usize {
        let told = self.told.iter();
        told.filter(|x| !x.outcome.answer.is_accepted()).count()
    }

    /// The arrivals that it is about: all, or those of one block.
    fn all(&self) -> usize {
        match self.asked {
            Some(_) => self.told.len(),
            None => self.pieces,
        }
    }

    /// Whether every arrival that it tells of was taken, and no transfer is left unfinished.
    fn whole(&self) -> bool {
        let running = matches!(self.transfer, Transfer::Running { .. });
        self.refused() == 0 && self.all() > 0 && !running
    }

    /// The last sentences: how many arrivals were not taken, and which blocks are missing.
    fn verdict(&self) -> Vec<String> {
        let mut lines = vec![verdict(
            self.refused() as u64,
            self.all() as u64,
            self.asked,
        )];
        if let Transfer::Running { total, .. } = self.transfer {
            lines.push(format!(
                "NOT COMPLETE: {}. The display was never told that it is complete.",
                missing::lacking(self.lost, total)
            ));
        }
        lines
    }

    fn words(&self, out: &mut Out) {
        out.line(self.board.line());
        for line in lines(self.told, self.each) {
            out.line(line);
        }
        out.line(format_args!("state: {}", state::words(self.transfer)));
        for line in missing::lines(self.lost, "file") {
            out.line(line);
        }
        for line in self.verdict() {
            out.verdict(line, self.whole());
        }
    }

    fn json(&self) -> Json {
        let told = self.told.iter();
        let told = told.map(|x| tell::arrival_json(x.arrival, x.block, x.outcome, &x.reason));
        Json::Object(vec![
            ("file", self.name.into()),
            ("pieces", self.pieces.into()),
            ("board", self.board.json()),
            ("block", self.asked.into()),
            ("arrivals", Json::list(told)),
            ("refused", self.refused().into()),
            ("transfer", state::json(self.transfer)),
            ("missing", Json::list(self.lost.iter().map(Missing::json))),
            ("verdict", self.verdict().join(" ").into()),
        ])
    }
}

/// Of a file: the arrivals that were not taken, or those of one block.
fn arrivals(args: &Args, options: &Options, name: &str, out: &mut Out) -> crate::Outcome {
    let file = files::read(name)?;
    let asked = asked(args, &file)?;
    let mut board = options.board(need(pieces(&file)))?;
    let (told, transfer) = play(&file, asked, &mut board);
    let lost = missing(pieces(&file), &mut board, transfer);
    let looked = Looked {
        name,
        pieces: pieces(&file).len(),
        board: &board,
        asked,
        told: &told,
        transfer,
        lost: &lost,
        each: args.flag("-v"),
    };
    if args.flag("--json") {
        out.line(looked.json());
    } else {
        looked.words(out);
    }
    Ok(if looked.whole() {
        End::Whole
    } else {
        End::Short
    })
}

/// The last sentence: how many arrivals were not taken.
fn verdict(refused: u64, all: u64, asked: Option<u32>) -> String {
    let of = match asked {
        Some(k) => format!(" of block {k}"),
        None => String::new(),
    };
    match (refused, all) {
        (_, 0) => "no block came: the file is empty.".into(),
        (0, 1) => format!("TAKEN: the one arrival{of}."),
        (0, _) => format!("TAKEN: every one of {}{of}.", count(all, "arrival")),
        _ => format!(
            "NOT TAKEN: {refused} of {}{of}, for the reasons above.",
            count(all, "arrival")
        ),
    }
}
